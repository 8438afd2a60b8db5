//! Grows STOCK on a blank disk for two tills until no block is free, and reads and writes its records, in plain Rust, so
//! that `records.sh` can time it beside the proved program:
//!   records_plain growth|reads|writes ROUNDS   does it so many times, and prints the same number as `benchmarks`
//!   records_plain image growth|writes ROUNDS FILE   and puts the disk's bytes into the file
//!   records_plain counts                       prints how many sectors are read and written for the growth
//! Sectors are written in the same order. A disk is a trait, and it is kept in memory. Growth keeps the map, the last side
//! sector, the last block and the directory sector in memory and changes them there; a record's block is looked up in its
//! side sector.
use std::process::exit;
use std::{env, fs};

mod plain;

use plain::files::*;
use plain::full_disk::*;
use plain::places::*;

/// Counts what a disk reads and writes.
struct Meter {
    disk: MemDisk,
    reads: u64,
    writes: u64,
}

impl Sectors for Meter {
    fn read(&mut self, place: Place, to: &mut Sector) -> Result<(), Fault> {
        self.reads += 1;
        self.disk.read(place, to)
    }

    fn write(&mut self, place: Place, from: &Sector) -> Result<(), Fault> {
        self.writes += 1;
        self.disk.write(place, from)
    }
}

fn read_spread<D: Sectors>(disk: &mut D, file: &RelFile, rounds: u64) -> Result<u64, Fault> {
    let mut text = [0; 254];
    let mut number = RECORDS;
    let mut sum = 0u64;
    for _ in 0..rounds {
        number = next_number(number);
        let length = read_record(disk, file, number, &mut text)?;
        let ends = u64::from(text[0]) + u64::from(text[length - 1]);
        sum = sum.wrapping_mul(31).wrapping_add(ends);
    }
    Ok(sum)
}

fn write_spread<D: Sectors>(disk: &mut D, file: &mut RelFile, rounds: u64) -> Result<(), Fault> {
    let mut number = RECORDS;
    for round in 0..rounds {
        number = next_number(number);
        write_record(disk, file, number, 1, &[(round % 251) as u8; 18])?;
    }
    Ok(())
}

/// Does the work of a word, and gives its number and the disk.
fn timed(word: &str, rounds: u64) -> Result<(u64, MemDisk), Fault> {
    let mut disk = MemDisk { sectors: vec![[0; 256]; SECTORS] };
    let number = match word {
        "growth" => {
            for _ in 0..rounds {
                grow_stock(&mut disk)?;
            }
            checksum(&disk)
        }
        "reads" => {
            let mut file = grow_stock(&mut disk)?;
            write_spread(&mut disk, &mut file, 9256)?;
            read_spread(&mut disk, &file, rounds)?
        }
        "writes" => {
            let mut file = grow_stock(&mut disk)?;
            write_spread(&mut disk, &mut file, rounds)?;
            checksum(&disk)
        }
        _ => return Err(Fault::NotFound),
    };
    Ok((number, disk))
}

fn counts() -> Result<(), Fault> {
    let mut disk = Meter { disk: MemDisk { sectors: vec![[0; 256]; SECTORS] }, reads: 0, writes: 0 };
    blank(&mut disk, 2)?;
    let mut file = find(&mut disk, b"STOCK")?;
    let (reads, writes) = (disk.reads, disk.writes);
    grow_to(&mut disk, &mut file, RECORDS)?;
    println!("{} reads, {} writes", disk.reads - reads, disk.writes - writes);
    Ok(())
}

fn main() {
    let words: Vec<String> = env::args().skip(1).collect();
    let words: Vec<&str> = words.iter().map(String::as_str).collect();
    let rounds = |word: &str| word.parse().expect("ROUNDS is a number");
    match words[..] {
        ["counts"] => counts().expect("STOCK grows"),
        ["image", word, times, file] => {
            let (_, disk) = timed(word, rounds(times)).expect("a disk in memory never fails");
            fs::write(file, disk.sectors.as_flattened()).expect("the file is written");
        }
        [word, times] => println!("{}", timed(word, rounds(times)).expect("the words are growth, reads, writes").0),
        _ => {
            eprintln!("records_plain growth|reads|writes ROUNDS | image growth|writes ROUNDS FILE | counts");
            exit(2);
        }
    }
}
