//! Judges a D64 image as `check` does, in plain Rust, so that `check.sh` can time both:
//!   check_plain judge ROUNDS IMAGE   checks the image so many times, and prints how often it was clean
//!   check_plain tell IMAGE           prints OK, or the fault
//!   check_plain make IMAGE           writes a full disk: STOCK with 656 data blocks and 6 side sectors, REQUESTS with one
use std::hint::black_box;
use std::process::exit;
use std::{env, fs};

mod plain;

use plain::checking::check;
use plain::places::*;

const STOCK_LENGTH: u8 = 18;
const REQUEST_LENGTH: u8 = 127;

/// A disk that is being made: its sectors, and which are taken.
struct Making {
    sectors: Vec<[u8; 256]>,
    taken: [bool; SECTORS],
}

/// A relative file that grows.
struct Growing {
    length: u8,
    blocks: Vec<Place>,
    sides: Vec<Place>,
}

impl Making {
    /// Takes a free sector, from the middle of the disk outwards, the lowest of its track; None where the disk is full.
    fn take(&mut self) -> Option<Place> {
        let tracks = (1..=17).flat_map(|away| [18 - away, 18 + away]);
        let mut places = tracks.flat_map(|track| (0..sectors_of(track)).map(move |sector| Place { track, sector }));
        let place = places.find(|place| !self.taken[place.index()])?;
        self.taken[place.index()] = true;
        Some(place)
    }

    /// One data block more, and where they are full a side sector behind it. False where the disk is full.
    fn grow(&mut self, file: &mut Growing) -> bool {
        let Some(block) = self.take() else { return false };
        if file.blocks.len() == POINTERS * file.sides.len() {
            let Some(side) = self.take() else {
                self.taken[block.index()] = false;
                return false;
            };
            file.sides.push(side);
        }
        file.blocks.push(block);
        true
    }

    /// Writes a file's data blocks, whose records are FF and then 00, and its side sectors.
    fn write(&mut self, file: &Growing) {
        let length = file.length as usize;
        let records = 254 * file.blocks.len() / length;
        for (number, block) in file.blocks.iter().enumerate() {
            let sector = &mut self.sectors[block.index()];
            match file.blocks.get(number + 1) {
                Some(next) => (sector[0], sector[1]) = (next.track, next.sector),
                None => sector[1] = (1 + records * length - 254 * number) as u8,
            }
            for at in 254 * number..254 * number + 254 {
                sector[2 + at - 254 * number] = if at % length == 0 && at / length < records { 255 } else { 0 };
            }
        }
        for (number, side) in file.sides.iter().enumerate() {
            let pointers = file.blocks.chunks(POINTERS).nth(number).unwrap();
            let sector = &mut self.sectors[side.index()];
            (sector[0], sector[1]) = match file.sides.get(number + 1) {
                Some(next) => (next.track, next.sector),
                None => (0, 15 + 2 * pointers.len() as u8),
            };
            (sector[2], sector[3]) = (number as u8, file.length);
            for (two, place) in sector[4..16].chunks_mut(2).zip(&file.sides) {
                two.copy_from_slice(&[place.track, place.sector]);
            }
            for (two, place) in sector[16..].chunks_mut(2).zip(pointers) {
                two.copy_from_slice(&[place.track, place.sector]);
            }
        }
    }

    /// Writes the slot of a file in 18/1.
    fn enter(&mut self, slot: usize, name: &[u8], file: &Growing) {
        let bytes = &mut self.sectors[DIRECTORY.index()][32 * slot..32 * slot + 32];
        bytes[2] = 0x84;
        (bytes[3], bytes[4]) = (file.blocks[0].track, file.blocks[0].sector);
        bytes[5..21].fill(0xA0);
        bytes[5..5 + name.len()].copy_from_slice(name);
        (bytes[21], bytes[22]) = (file.sides[0].track, file.sides[0].sector);
        bytes[23] = file.length;
        bytes[30..].copy_from_slice(&((file.blocks.len() + file.sides.len()) as u16).to_le_bytes());
    }

    /// Writes 18/0.
    fn map(&mut self) {
        let map = &mut self.sectors[MAP.index()];
        map[..4].copy_from_slice(&[18, 1, 0x41, 0]);
        let mut index = 0;
        for track in 1..=35u8 {
            for sector in 0..sectors_of(track) as usize {
                if !self.taken[index] {
                    map[4 * track as usize] += 1;
                    map[4 * track as usize + 1 + sector / 8] |= 1 << (sector % 8);
                }
                index += 1;
            }
        }
        map[0x90..0xAB].fill(0xA0);
        map[0x90..0x9C].copy_from_slice(b"STOCK LEDGER");
        map[0xA2..0xA4].copy_from_slice(b"01");
        map[0xA5..0xA7].copy_from_slice(b"2A");
    }
}

/// The image of a disk for two tills whose STOCK has grown until the disk was full.
fn full_disk() -> Vec<u8> {
    let mut disk = Making { sectors: vec![[0; 256]; SECTORS], taken: [false; SECTORS] };
    disk.taken[MAP.index()] = true;
    disk.taken[DIRECTORY.index()] = true;
    let mut stock = Growing { length: STOCK_LENGTH, blocks: Vec::new(), sides: Vec::new() };
    let mut requests = Growing { length: REQUEST_LENGTH, blocks: Vec::new(), sides: Vec::new() };
    disk.grow(&mut stock);
    disk.grow(&mut requests);
    while disk.grow(&mut stock) {}
    disk.sectors[DIRECTORY.index()][1] = 255;
    disk.write(&stock);
    disk.write(&requests);
    disk.enter(0, b"STOCK", &stock);
    disk.enter(1, b"REQUESTS", &requests);
    disk.map();
    disk.sectors.into_flattened()
}

fn load(path: &str) -> Vec<u8> {
    let image = fs::read(path).expect("the image is readable");
    if image.len() != IMAGE_SIZE {
        println!("IMAGE SIZE");
        exit(1);
    }
    image
}

fn main() {
    let words: Vec<String> = env::args().collect();
    let words: Vec<&str> = words.iter().map(String::as_str).collect();
    match words[1..] {
        ["judge", rounds, path] => {
            let image = load(path);
            let rounds: u64 = rounds.parse().expect("ROUNDS is a number");
            let clean = (0..rounds).filter(|_| check(black_box(&image).as_chunks().0).is_ok()).count();
            println!("{clean}");
        }
        ["tell", path] => match check(load(path).as_chunks().0) {
            Ok(()) => println!("OK"),
            Err(fault) => println!("{fault}"),
        },
        ["make", path] => fs::write(path, full_disk()).expect("the image is writable"),
        _ => {
            eprintln!("check_plain judge ROUNDS IMAGE, tell IMAGE or make IMAGE");
            exit(2);
        }
    }
}
