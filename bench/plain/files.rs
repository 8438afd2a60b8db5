//! Disks and relative files in plain Rust: found, read, written, grown. Sectors are written in the same order as the proved
//! crates write them. Growth keeps the map, the side sectors, the last block and the directory sector in memory and changes
//! them there; a record's block is looked up in its side sector.
use super::places::*;

#[derive(Clone, Copy, Debug, PartialEq)]
pub enum Fault {
    NotFound,
    NotPresent,
    TooLarge,
    Full,
    Device,
}

pub trait Sectors {
    fn read(&mut self, place: Place, to: &mut Sector) -> Result<(), Fault>;
    fn write(&mut self, place: Place, from: &Sector) -> Result<(), Fault>;
}

pub struct MemDisk {
    pub sectors: Vec<Sector>,
}

impl Sectors for MemDisk {
    fn read(&mut self, place: Place, to: &mut Sector) -> Result<(), Fault> {
        *to = *self.sectors.get(place.index()).ok_or(Fault::Device)?;
        Ok(())
    }

    fn write(&mut self, place: Place, from: &Sector) -> Result<(), Fault> {
        *self.sectors.get_mut(place.index()).ok_or(Fault::Device)? = *from;
        Ok(())
    }
}

/// Takes the first free sector, from the middle of the disk outwards, the lowest of its track; None where all are taken.
pub fn take(map: &mut Sector) -> Option<Place> {
    for track in (1..=17).flat_map(|away| [18 - away, 18 + away]) {
        let four = &mut map[4 * track..4 * track + 4];
        let free = u32::from_le_bytes([four[1], four[2], four[3], 0]);
        if free != 0 {
            let sector = free.trailing_zeros() as u8;
            four[0] -= 1;
            four[1 + sector as usize / 8] &= !(1 << (sector % 8));
            return Some(Place { track: track as u8, sector });
        }
    }
    None
}

/// How many sectors the map calls free, those of track 18 aside.
pub fn free_blocks(map: &Sector) -> usize {
    (1..=35).filter(|&track| track != 18).map(|track| map[4 * track] as usize).sum()
}

/// Puts empty records, FF and then zeros, into the data bytes of a block from data byte `from` of its file on; the block
/// begins at data byte `at`, and the file is to have so many records.
pub fn start_records(block: &mut Sector, at: usize, from: usize, length: usize, records: usize) {
    block[2 + from - at..].fill(0);
    let mut record = from.div_ceil(length);
    while record < records && record * length < at + DATA {
        block[2 + record * length - at] = 0xFF;
        record += 1;
    }
}

/// What is kept of a relative file.
pub struct RelFile {
    /// The directory sector, and where the slot begins in it.
    pub sector: Place,
    pub slot: usize,
    pub length: usize,
    pub sides: Vec<Place>,
    pub blocks: usize,
    pub last: u8,
}

impl RelFile {
    pub fn records(&self) -> u32 {
        ((DATA * (self.blocks - 1) + self.last.max(1) as usize - 1) / self.length) as u32
    }
}

/// Finds the first relative file of this name.
pub fn find<D: Sectors>(disk: &mut D, name: &[u8]) -> Result<RelFile, Fault> {
    let mut padded = [0xA0; 16];
    padded.get_mut(..name.len()).ok_or(Fault::NotFound)?.copy_from_slice(name);
    let mut bytes = [0; 256];
    let mut at = DIRECTORY;
    // the directory has no more than 18 sectors
    for _ in 0..18 {
        disk.read(at, &mut bytes)?;
        for (number, slot) in bytes.chunks(32).enumerate() {
            if slot[2] & !0x40 == 0x84 && slot[5..21] == padded {
                return open(disk, at, 32 * number, slot);
            }
        }
        at = Place::new(bytes[0], bytes[1]).ok_or(Fault::NotFound)?;
    }
    Err(Fault::NotFound)
}

/// The relative file of this slot: its chain is walked, and its side sectors are taken from the first of them.
pub fn open<D: Sectors>(disk: &mut D, sector: Place, at: usize, slot: &[u8]) -> Result<RelFile, Fault> {
    let mut bytes = [0; 256];
    let mut next = Place::new(slot[3], slot[4]).ok_or(Fault::Device)?;
    let mut blocks = 0;
    loop {
        disk.read(next, &mut bytes)?;
        blocks += 1;
        if bytes[0] == 0 {
            break;
        }
        if blocks > SECTORS {
            return Err(Fault::Device);
        }
        next = Place::new(bytes[0], bytes[1]).ok_or(Fault::Device)?;
    }
    let last = bytes[1];
    disk.read(Place::new(slot[21], slot[22]).ok_or(Fault::Device)?, &mut bytes)?;
    let sides = bytes[4..16].chunks(2).take(blocks.div_ceil(POINTERS));
    let sides: Option<Vec<Place>> = sides.map(|two| Place::new(two[0], two[1])).collect();
    Ok(RelFile { sector, slot: at, length: slot[23] as usize, sides: sides.ok_or(Fault::Device)?, blocks, last })
}

/// Grows the file until it has this record. STOCK's last block is full to begin with.
pub fn grow_to<D: Sectors>(disk: &mut D, file: &mut RelFile, number: u32) -> Result<(), Fault> {
    if number <= file.records() {
        return Ok(());
    }
    let wanted = (number as usize * file.length).div_ceil(DATA);
    if wanted > 720 || number > 65535 {
        return Err(Fault::TooLarge);
    }
    let mut map = [0; 256];
    disk.read(MAP, &mut map)?;
    if free_blocks(&map) < wanted + wanted.div_ceil(POINTERS) - file.blocks - file.sides.len() {
        return Err(Fault::Full);
    }
    // the side sectors, the directory sector, and the last block
    let mut sides = Vec::with_capacity(6);
    for &place in &file.sides {
        let mut side = [0; 256];
        disk.read(place, &mut side)?;
        sides.push(side);
    }
    let mut directory = [0; 256];
    disk.read(file.sector, &mut directory)?;
    let pointer = 16 + 2 * ((file.blocks - 1) % POINTERS);
    let side = &sides[sides.len() - 1];
    let mut last_place = Place::new(side[pointer], side[pointer + 1]).ok_or(Fault::Device)?;
    let mut last = [0; 256];
    disk.read(last_place, &mut last)?;
    while file.blocks < wanted {
        let fresh = take(&mut map).ok_or(Fault::Full)?;
        let new = file.blocks % POINTERS == 0;
        if new {
            let place = take(&mut map).ok_or(Fault::Full)?;
            let number = file.sides.len();
            let mut side = [0; 256];
            (side[2], side[3]) = (number as u8, file.length as u8);
            side[4..16].copy_from_slice(&sides[0][4..16]);
            sides[number - 1][..2].copy_from_slice(&place.bytes());
            sides.push(side);
            for side in &mut sides {
                side[4 + 2 * number..6 + 2 * number].copy_from_slice(&place.bytes());
            }
            file.sides.push(place);
        }
        let used = file.blocks % POINTERS + 1;
        let side = sides.last_mut().ok_or(Fault::Device)?;
        side[1] = 15 + 2 * used as u8;
        side[14 + 2 * used..16 + 2 * used].copy_from_slice(&fresh.bytes());

        // the record that crosses into the fresh block begins in the old one
        let begin = DATA * file.blocks;
        let had = begin / file.length;
        let records = (begin + DATA) / file.length;
        start_records(&mut last, begin - DATA, had * file.length, file.length, records);
        last[..2].copy_from_slice(&fresh.bytes());
        let mut block = [0; 256];
        block[1] = (records * file.length + 1 - begin) as u8;
        start_records(&mut block, begin, begin, file.length, records);
        file.blocks += 1;
        let count = (file.blocks + file.sides.len()) as u16;
        directory[file.slot + 30..file.slot + 32].copy_from_slice(&count.to_le_bytes());

        disk.write(MAP, &map)?;
        disk.write(fresh, &block)?;
        let last_side = sides.len() - 1;
        disk.write(file.sides[last_side], &sides[last_side])?;
        if new {
            for (&place, side) in file.sides.iter().zip(&sides[..last_side]) {
                disk.write(place, side)?;
            }
        }
        disk.write(last_place, &last)?;
        disk.write(file.sector, &directory)?;
        last = block;
        last_place = fresh;
        file.last = block[1];
    }
    Ok(())
}

/// The data block of this number, as its side sector names it.
pub fn block_at<D: Sectors>(disk: &mut D, file: &RelFile, block: usize) -> Result<Place, Fault> {
    let mut side = [0; 256];
    disk.read(file.sides[block / POINTERS], &mut side)?;
    let pointer = 16 + 2 * (block % POINTERS);
    Place::new(side[pointer], side[pointer + 1]).ok_or(Fault::Device)
}

/// Reads a record into `text`, and tells its length.
pub fn read_record<D: Sectors>(disk: &mut D, file: &RelFile, number: u32, text: &mut [u8; 254]) -> Result<usize, Fault> {
    if number == 0 || number > file.records() {
        return Err(Fault::NotPresent);
    }
    let start = (number as usize - 1) * file.length;
    let place = block_at(disk, file, start / DATA)?;
    let mut block = [0; 256];
    disk.read(place, &mut block)?;
    let start = start % DATA;
    let here = file.length.min(DATA - start);
    text[..here].copy_from_slice(&block[2 + start..2 + start + here]);
    if here < file.length {
        let next = Place::new(block[0], block[1]).ok_or(Fault::Device)?;
        disk.read(next, &mut block)?;
        text[here..file.length].copy_from_slice(&block[2..2 + file.length - here]);
    }
    Ok(file.length)
}

/// Writes the text over these data bytes of a block, and zeros where it is shorter; tells the block that it links to.
pub fn write_block<D: Sectors>(disk: &mut D, place: Place, start: usize, end: usize, text: &[u8]) -> Result<Option<Place>, Fault> {
    let mut block = [0; 256];
    disk.read(place, &mut block)?;
    let fits = text.len().min(end - start);
    block[2 + start..2 + start + fits].copy_from_slice(&text[..fits]);
    block[2 + start + fits..2 + end].fill(0);
    disk.write(place, &block)?;
    Ok(Place::new(block[0], block[1]))
}

/// Writes the text into a record from the position on, counted from 1, and zeros behind it; the file grows where it has to.
pub fn write_record<D: Sectors>(disk: &mut D, file: &mut RelFile, number: u32, position: usize, text: &[u8]) -> Result<(), Fault> {
    grow_to(disk, file, number)?;
    let start = (number as usize - 1) * file.length + position - 1;
    let end = number as usize * file.length;
    let block = start / DATA;
    let place = block_at(disk, file, block)?;
    let begin = DATA * block;
    if end <= begin + DATA {
        write_block(disk, place, start - begin, end - begin, text)?;
        return Ok(());
    }
    let next = write_block(disk, place, start - begin, DATA, text)?.ok_or(Fault::Device)?;
    let rest = &text[text.len().min(begin + DATA - start)..];
    write_block(disk, next, 0, end - begin - DATA, rest)?;
    Ok(())
}

