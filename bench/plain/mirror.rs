//! A disk in memory that is kept in a file, and the lines that are played on it.
use std::fs::File;
use std::io::{Read, Write};
use std::os::unix::fs::FileExt;

use super::files::*;
use super::messages::*;
use super::places::*;
use super::shop::{Image, Shop};

/// A disk in memory, each sector of which is written to a file before, and brought to the medium where it syncs.
pub struct Mirror {
    pub file: File,
    pub disk: MemDisk,
    pub syncs: bool,
}

impl Mirror {
    /// The disk that the file holds.
    pub fn load(mut file: File, syncs: bool) -> Mirror {
        let mut image = Vec::with_capacity(IMAGE_SIZE + 1);
        file.read_to_end(&mut image).expect("the image is readable");
        assert!(image.len() == IMAGE_SIZE, "the image has another size");
        Mirror { file, disk: MemDisk { sectors: image.as_chunks().0.to_vec() }, syncs }
    }
}

impl Sectors for Mirror {
    fn read(&mut self, place: Place, to: &mut Sector) -> Result<(), Fault> {
        self.disk.read(place, to)
    }

    fn write(&mut self, place: Place, from: &Sector) -> Result<(), Fault> {
        self.file.write_all_at(from, 256 * place.index() as u64).map_err(|_| Fault::Device)?;
        if self.syncs {
            self.file.sync_data().map_err(|_| Fault::Device)?;
        }
        self.disk.write(place, from)
    }
}

impl Image for Mirror {
    fn sectors(&self) -> &[Sector] {
        self.disk.sectors()
    }
}

pub fn comma_and<W: Write>(out: &mut Out<W>, number: u32) {
    out.text(b",");
    out.number(number);
}

/// Plays the line that begins at `at`, tells its reply, and gives the place after the line.
#[inline(always)]
pub fn play_line<D, W>(shop: &mut Shop<D>, script: &[u8], at: usize, out: &mut Out<W>) -> usize
where
    D: Sectors + Image,
    W: Write,
{
    let Some((till, number, body, end)) = request(script, at) else {
        out.text(SYNTAX);
        return next_line(script, at);
    };
    out.number(till as u32);
    comma_and(out, number);
    out.text(b",");
    if till > shop.count {
        out.text(b"NO TILL");
    } else if let Some(old) = shop.tills.old(till, number, body) {
        tell_old(out, old);
    } else {
        tell(out, shop.trade(till, number, body).expect("the file is written"));
    }
    out.text(b"\n");
    end
}
