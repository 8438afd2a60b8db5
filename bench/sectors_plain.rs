//! The rounds of `benchmarks sectors` in plain Rust, against which `sectors.sh` times them: a disk of 683 sectors behind
//! a trait, and a caller that knows only the trait.
use std::env;

/// The device failed.
#[derive(Debug)]
struct DeviceFault;

/// A place on the disk: its track from 1 to 35, and its sector from 0.
#[derive(Clone, Copy)]
struct Place {
    track: u8,
    sector: u8,
}

/// How many sectors a track has.
fn sectors_of(track: u8) -> u8 {
    match track {
        1..=17 => 21,
        18..=24 => 19,
        25..=30 => 18,
        31..=35 => 17,
        _ => 0,
    }
}

impl Place {
    fn new(track: u8, sector: u8) -> Option<Place> {
        if sector < sectors_of(track) {
            Some(Place { track, sector })
        } else {
            None
        }
    }

    /// Where the sector stands in an image, in sectors.
    fn index(self) -> usize {
        let track = self.track as usize;
        let below = match self.track {
            0..=17 => 21 * track - 21,
            18..=24 => 19 * track + 15,
            25..=30 => 18 * track + 40,
            _ => 17 * track + 71,
        };
        below + self.sector as usize
    }

    /// The next place; after the last the first.
    fn next(self) -> Place {
        Place::new(self.track, self.sector + 1)
            .or(Place::new(self.track + 1, 0))
            .unwrap_or(Place { track: 1, sector: 0 })
    }
}

trait Sectors {
    fn read(&mut self, place: Place, to: &mut [u8; 256]) -> Result<(), DeviceFault>;
    fn write(&mut self, place: Place, from: &[u8; 256]) -> Result<(), DeviceFault>;
}

struct MemDisk {
    sectors: Vec<[u8; 256]>,
}

impl Sectors for MemDisk {
    fn read(&mut self, place: Place, to: &mut [u8; 256]) -> Result<(), DeviceFault> {
        *to = self.sectors[place.index()];
        Ok(())
    }

    fn write(&mut self, place: Place, from: &[u8; 256]) -> Result<(), DeviceFault> {
        self.sectors[place.index()] = *from;
        Ok(())
    }
}

fn raise<D: Sectors>(disk: &mut D, place: Place, at: u8) -> Result<u8, DeviceFault> {
    let mut bytes = [0; 256];
    disk.read(place, &mut bytes)?;
    let byte = bytes[at as usize].wrapping_add(1);
    bytes[at as usize] = byte;
    disk.write(place, &bytes)?;
    Ok(byte)
}

fn run<D: Sectors>(disk: &mut D, rounds: u64) -> Result<u64, DeviceFault> {
    let mut place = Place { track: 1, sector: 0 };
    let mut sum = 0u64;
    for round in 0..rounds {
        sum = sum.wrapping_mul(31).wrapping_add(u64::from(raise(disk, place, (round % 256) as u8)?));
        place = place.next();
    }
    Ok(sum)
}

fn main() {
    let rounds = env::args().nth(1).map_or(1000, |word| word.parse().expect("ROUNDS is a number"));
    let mut disk = MemDisk { sectors: vec![[0; 256]; 683] };
    println!("{}", run(&mut disk, rounds).expect("a disk in memory never fails"));
}
