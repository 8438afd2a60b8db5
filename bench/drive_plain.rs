//! Writes records of STOCK and REQUESTS on a full disk through a drive, in plain Rust, so that `drive.sh` can time it beside
//! the proved program: `drive_plain ROUNDS` prints the same checksum of the image as `benchmarks drive ROUNDS`.
//! The drive has one relative channel, and remembers the two files that were opened last. It makes no check of the disk.
use std::env;

mod plain;

use plain::files::*;
use plain::full_disk::*;
use plain::places::SECTORS;

#[derive(Clone, Copy, Debug, PartialEq)]
enum Status {
    Ok,
    SyntaxError,
    UnknownCommand,
    RecordNotPresent,
    Overflow,
    FileTooLarge,
    FileNotOpen,
    FileNotFound,
    NoChannel,
}

/// A file and its name, padded.
struct Found {
    name: [u8; 16],
    file: RelFile,
}

#[derive(Clone, Copy)]
struct Spot {
    channel: u8,
    record: u32,
    position: u8,
}

struct Drive<D> {
    disk: D,
    /// The file opened last, its channel while that is open, and the file before it.
    last: Option<Found>,
    spot: Option<Spot>,
    before: Option<Found>,
    status: Status,
}

fn is_name(bytes: &[u8]) -> bool {
    (1..=16).contains(&bytes.len())
        && bytes.iter().all(|&b| (0x20..=0x5F).contains(&b) && !b"\"$*,:=?@".contains(&b))
}

/// The padded name and the record length that a text of open asks for.
fn wish(text: &[u8]) -> Option<([u8; 16], Option<u8>)> {
    let (name, length) = match text {
        [name @ .., b',', b'L', b',', length] if (1..=254).contains(length) => (name, Some(*length)),
        name => (name, None),
    };
    let mut padded = [0xA0; 16];
    is_name(name).then(|| padded[..name.len()].copy_from_slice(name))?;
    Some((padded, length))
}

impl<D: Sectors> Drive<D> {
    fn power_on(disk: D) -> Drive<D> {
        Drive { disk, last: None, spot: None, before: None, status: Status::Ok }
    }

    /// Makes the file of this name the one opened last.
    fn look_up(&mut self, name: [u8; 16], text: &[u8]) -> Result<bool, Fault> {
        let is = |found: &Option<Found>| found.as_ref().is_some_and(|found| found.name == name);
        if is(&self.last) {
            return Ok(true);
        }
        if is(&self.before) {
            std::mem::swap(&mut self.last, &mut self.before);
            return Ok(true);
        }
        match find(&mut self.disk, text) {
            Ok(file) => self.before = self.last.replace(Found { name, file }),
            Err(Fault::NotFound) => return Ok(false),
            Err(fault) => return Err(fault),
        }
        Ok(true)
    }

    fn open(&mut self, channel: u8, text: &[u8]) -> Result<(), Fault> {
        self.status = self.opened(channel, text)?;
        Ok(())
    }

    fn opened(&mut self, channel: u8, text: &[u8]) -> Result<Status, Fault> {
        if !(2..=14).contains(&channel) || self.spot.is_some() {
            return Ok(Status::NoChannel);
        }
        let Some((name, length)) = wish(text) else {
            return Ok(Status::SyntaxError);
        };
        if !self.look_up(name, text)? {
            return Ok(Status::FileNotFound);
        }
        let size = self.last.as_ref().map_or(0, |found| found.file.length);
        if length.is_some_and(|length| length as usize != size) {
            return Ok(Status::RecordNotPresent);
        }
        self.spot = Some(Spot { channel, record: 1, position: 1 });
        Ok(Status::Ok)
    }

    fn close(&mut self, channel: u8) {
        if self.spot.is_some_and(|spot| spot.channel == channel) {
            self.spot = None;
        }
        self.status = Status::Ok;
    }

    fn command(&mut self, text: &[u8]) {
        self.status = match text {
            [] => Status::SyntaxError,
            b"I" | b"I0" | b"INITIALIZE" | b"INITIALIZE0" => Status::Ok,
            [b'P', rest @ ..] => self.position(rest),
            _ => Status::UnknownCommand,
        };
    }

    fn position(&mut self, bytes: &[u8]) -> Status {
        let (channel, record, position) = match *bytes {
            [channel, low, high] => (channel, u16::from_le_bytes([low, high]), 1),
            [channel, low, high, position] => (channel, u16::from_le_bytes([low, high]), position),
            _ => return Status::SyntaxError,
        };
        let (Some(spot), Some(Found { file, .. })) = (&mut self.spot, &self.last) else {
            return Status::NoChannel;
        };
        if spot.channel != channel % 16 {
            return Status::NoChannel;
        }
        let (record, position) = (u32::from(record.max(1)), position.max(1));
        if position as usize > file.length {
            return Status::Overflow;
        }
        if (record as usize * file.length).div_ceil(254) > 720 {
            return Status::FileTooLarge;
        }
        (spot.record, spot.position) = (record, position);
        if record > file.records() { Status::RecordNotPresent } else { Status::Ok }
    }

    fn write(&mut self, channel: u8, text: &[u8]) -> Result<(), Fault> {
        self.status = self.written(channel, text)?;
        Ok(())
    }

    fn written(&mut self, channel: u8, text: &[u8]) -> Result<Status, Fault> {
        let (Some(spot), Some(Found { file, .. })) = (&mut self.spot, &mut self.last) else {
            return Ok(Status::FileNotOpen);
        };
        if spot.channel != channel {
            return Ok(Status::FileNotOpen);
        }
        let position = spot.position as usize;
        match write_record(&mut self.disk, file, spot.record, position, text) {
            Ok(()) => {}
            Err(Fault::TooLarge | Fault::Full) => return Ok(Status::FileTooLarge),
            Err(fault) => return Err(fault),
        }
        (spot.record, spot.position) = (spot.record + 1, 1);
        Ok(if text.len() + position > file.length + 1 { Status::Overflow } else { Status::Ok })
    }

    /// Goes to a record of the file of this name, and writes it.
    fn put(&mut self, name: &[u8], number: u16, text: &[u8]) -> Result<(), Fault> {
        self.open(2, name)?;
        let [low, high] = number.to_le_bytes();
        self.command(&[b'P', 98, low, high, 1]);
        self.write(2, text)?;
        self.close(2);
        Ok(())
    }
}

fn timed(rounds: u64) -> Result<u64, Fault> {
    let mut disk = MemDisk { sectors: vec![[0; 256]; SECTORS] };
    grow_stock(&mut disk)?;
    let mut drive = Drive::power_on(disk);
    let mut number = RECORDS;
    for round in 0..rounds {
        number = next_number(number);
        let byte = (round % 251) as u8;
        drive.put(b"STOCK", number as u16, &[byte; 18])?;
        drive.put(b"REQUESTS", (round % 2) as u16 + 1, &[byte; 127])?;
    }
    Ok(checksum(&drive.disk))
}

fn main() {
    let rounds = env::args().nth(1).and_then(|word| word.parse().ok()).expect("ROUNDS is a number");
    println!("{}", timed(rounds).expect("a disk in memory never fails"));
}
