//! The write-ahead log of a shop's image in plain Rust (docs/LOG.md), with the calls of the system that `serve` makes.
use std::fs::{self, File, OpenOptions};
use std::io::{ErrorKind, Result};
use std::os::unix::fs::{FileExt, MetadataExt};
use std::path::PathBuf;

use super::files::*;
use super::places::*;
use super::sha256::digest_begins;
use super::shop::Image;

const BLOCK: usize = 4096;
const BLOCKS: usize = 1024;
const PER: usize = 15;
const MOST: usize = SECTORS.div_ceil(PER);

/// A disk in memory that notes the sectors that were written.
pub struct Touched {
    pub disk: MemDisk,
    pub touched: [bool; SECTORS],
}

impl Sectors for Touched {
    fn read(&mut self, place: Place, to: &mut Sector) -> std::result::Result<(), Fault> {
        self.disk.read(place, to)
    }

    fn write(&mut self, place: Place, from: &Sector) -> std::result::Result<(), Fault> {
        self.touched[place.index()] = true;
        self.disk.write(place, from)
    }
}

impl Image for Touched {
    fn sectors(&self) -> &[Sector] {
        self.disk.sectors()
    }
}

pub struct Log {
    image: File,
    folder: File,
    name: PathBuf,
    file: File,
    end: usize,
    syncs: bool,
    kept: Vec<Sector>,
    room: Vec<[u8; BLOCK]>,
}

/// Makes a block of the changed sectors from `from` on; the index of the first one that is left.
fn fill(block: &mut [u8; BLOCK], kept: &[Sector], changed: &[bool; SECTORS], from: usize, place: usize) -> usize {
    block.fill(0);
    let (mut count, mut next) = (0, SECTORS);
    for index in (from..SECTORS).filter(|&index| changed[index]) {
        if count == PER {
            next = index;
            break;
        }
        block[16 + 2 * count..][..2].copy_from_slice(&(index as u16).to_le_bytes());
        block[64 + 256 * count..][..256].copy_from_slice(&kept[index]);
        count += 1;
    }
    block[10] = if next == SECTORS { 2 } else { 1 };
    block[11] = count as u8;
    block[12..14].copy_from_slice(&(place as u16).to_le_bytes());
    let begins = digest_begins(&block[10..]);
    block[2..10].copy_from_slice(&begins);
    let zeros = block[2..].iter().filter(|&&byte| byte == 0).count() as u16;
    block[..2].copy_from_slice(&zeros.to_le_bytes());
    next
}

impl Log {
    /// Makes the log beside the image at this path.
    pub fn begin(image: File, path: &str, kept: Vec<Sector>, syncs: bool) -> Result<Log> {
        let name = PathBuf::from(format!("{path}-log"));
        let folder = File::open(name.parent().filter(|it| !it.as_os_str().is_empty()).unwrap_or(".".as_ref()))?;
        image.sync_data()?;
        folder.sync_all()?;
        let file = image.try_clone()?;
        let mut log = Log { image, folder, name, file, end: 0, syncs, kept, room: vec![[0; BLOCK]; MOST] };
        log.renew()?;
        Ok(log)
    }

    fn renew(&mut self) -> Result<()> {
        let new = self.name.with_extension("d64-log.new");
        self.file = OpenOptions::new().read(true).write(true).create_new(true).open(&new)?;
        for block in 0..=BLOCKS {
            self.file.write_all_at(&[0; BLOCK], (BLOCK * block) as u64)?;
        }
        self.file.sync_data()?;
        self.end = 0;
        self.append(&[true; SECTORS], true)?;
        self.folder.sync_all()?;
        fs::rename(&new, &self.name)?;
        self.folder.sync_all()
    }

    fn append(&mut self, changed: &[bool; SECTORS], syncs: bool) -> Result<()> {
        let (mut from, mut used) = (0, 0);
        while from < SECTORS {
            from = fill(&mut self.room[used], &self.kept, changed, from, self.end + used);
            used += 1;
        }
        self.file.write_all_at(self.room[..used].as_flattened(), (BLOCK * self.end) as u64)?;
        if syncs {
            self.file.sync_data()?;
        }
        self.end += used;
        Ok(())
    }

    /// Whether the log's name leads to its file, as far as the numbers of their files say that.
    fn is_there(&self) -> Result<bool> {
        Ok(self.file.metadata()?.ino() == fs::metadata(&self.name)?.ino())
    }

    /// Makes what was written since the last commit durable.
    pub fn commit(&mut self, disk: &mut Touched) -> Result<()> {
        let mut changed = [false; SECTORS];
        let mut any = false;
        for (index, now) in disk.disk.sectors.iter().enumerate().filter(|it| disk.touched[it.0]) {
            if self.kept[index] != *now {
                self.kept[index] = *now;
                changed[index] = true;
                any = true;
            }
        }
        if !any {
            return Ok(());
        }
        if self.end + MOST > BLOCKS {
            self.land()?;
            return self.renew();
        }
        self.append(&changed, self.syncs)?;
        if self.is_there()? { Ok(()) } else { Err(ErrorKind::NotFound.into()) }
    }

    /// Marks the log, and brings the image to its own file.
    fn land(&mut self) -> Result<()> {
        self.file.write_all_at(&[1], (BLOCK * BLOCKS) as u64)?;
        self.file.sync_data()?;
        let mut old = vec![0; IMAGE_SIZE];
        self.image.read_exact_at(&mut old, 0)?;
        for (index, (old, now)) in old.as_chunks::<256>().0.iter().zip(&self.kept).enumerate() {
            if old != now {
                self.image.write_all_at(now, 256 * index as u64)?;
            }
        }
        self.image.sync_data()
    }

    pub fn finish(mut self) -> Result<()> {
        self.image.sync_data()?;
        self.folder.sync_all()?;
        assert!(fs::read(&self.name)?.len() > BLOCK * BLOCKS, "the log was cut short");
        self.land()?;
        fs::remove_file(&self.name)?;
        self.folder.sync_all()
    }
}
