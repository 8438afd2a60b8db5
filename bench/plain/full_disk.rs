//! A blank disk in plain Rust, and one for two tills whose STOCK has grown until no block is free.
use super::files::*;
use super::places::*;

/// How many records STOCK has when it fills the disk.
pub const RECORDS: u32 = 9256;

/// Where the block of this number of REQUESTS lies: 17/2, the rest of the track behind its side sector, then track 19.
fn request_place(number: u8) -> Place {
    match number {
        0 => Place { track: 17, sector: 2 },
        1..=17 => Place { track: 17, sector: number + 3 },
        _ => Place { track: 19, sector: number - 18 },
    }
}

/// Writes a disk with STOCK, 14 records of 18 bytes, and REQUESTS, two records of 127 bytes to a block.
pub fn blank<D: Sectors>(disk: &mut D, tills: usize) -> Result<(), Fault> {
    let requests: Vec<Place> = (0..tills.div_ceil(2) as u8).map(request_place).collect();
    let stock = Place { track: 17, sector: 0 };
    let sides = [Place { track: 17, sector: 1 }, Place { track: 17, sector: 3 }];

    let mut map = [0; 256];
    map[..4].copy_from_slice(&[18, 1, 0x41, 0]);
    for track in 1..=35 {
        let sectors = sectors_of(track as u8);
        map[4 * track] = sectors;
        map[4 * track + 1..4 * track + 4].copy_from_slice(&((1u32 << sectors) - 1).to_le_bytes()[..3]);
    }
    for place in [MAP, DIRECTORY, stock].iter().chain(&sides).chain(&requests) {
        let four = 4 * place.track as usize;
        map[four] -= 1;
        map[four + 1 + place.sector as usize / 8] &= !(1 << (place.sector % 8));
    }
    map[0x90..0xAB].fill(0xA0);
    map[0x90..0x9C].copy_from_slice(b"STOCK LEDGER");
    map[0xA2..0xA4].copy_from_slice(b"01");
    map[0xA5..0xA7].copy_from_slice(b"2A");
    disk.write(MAP, &map)?;

    let mut directory = [0; 256];
    directory[1] = 0xFF;
    for (slot, name, first, side, length, count) in [
        (0, b"STOCK".as_slice(), stock, sides[0], 18, 2),
        (32, b"REQUESTS", requests[0], sides[1], 127, requests.len() as u8 + 1),
    ] {
        let bytes = &mut directory[slot..slot + 32];
        bytes[2..5].copy_from_slice(&[0x84, first.track, first.sector]);
        bytes[5..21].fill(0xA0);
        bytes[5..5 + name.len()].copy_from_slice(name);
        bytes[21..24].copy_from_slice(&[side.track, side.sector, length]);
        bytes[30] = count;
    }
    disk.write(DIRECTORY, &directory)?;

    let mut block = [0; 256];
    block[1] = 253;
    start_records(&mut block, 0, 0, 18, 14);
    disk.write(stock, &block)?;
    disk.write(sides[0], &side_of(sides[0], 18, &[stock]))?;
    disk.write(sides[1], &side_of(sides[1], 127, &requests))?;
    start_records(&mut block, 0, 0, 127, 2);
    for (number, &place) in requests.iter().enumerate() {
        let link = requests.get(number + 1).map_or([0, 255], |next| next.bytes());
        block[..2].copy_from_slice(&link);
        disk.write(place, &block)?;
    }
    Ok(())
}

/// The one side sector of a file with these blocks.
fn side_of(side: Place, length: u8, blocks: &[Place]) -> Sector {
    let mut bytes = [0; 256];
    bytes[..6].copy_from_slice(&[0, 15 + 2 * blocks.len() as u8, 0, length, side.track, side.sector]);
    for (number, place) in blocks.iter().enumerate() {
        bytes[16 + 2 * number..18 + 2 * number].copy_from_slice(&place.bytes());
    }
    bytes
}

/// Writes a disk for two tills, and lets STOCK grow until no block is free.
pub fn grow_stock<D: Sectors>(disk: &mut D) -> Result<RelFile, Fault> {
    blank(disk, 2)?;
    let mut file = find(disk, b"STOCK")?;
    grow_to(disk, &mut file, RECORDS)?;
    Ok(file)
}

pub fn next_number(number: u32) -> u32 {
    (number + 3570) % RECORDS + 1
}

pub fn checksum(disk: &MemDisk) -> u64 {
    let bytes = disk.sectors.as_flattened().iter();
    bytes.fold(0, |sum, &byte| sum.wrapping_mul(31).wrapping_add(u64::from(byte)))
}
