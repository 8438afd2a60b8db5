//! What `ledger serve IMAGE` does and prints, as plain Rust without proofs: the yardstick of serve.sh.
//! The image has to be a clean shop; the calls of the system are those of the program.
use std::fs::{File, OpenOptions};
use std::io::{self, BufRead, BufReader};
use std::process::exit;

mod plain;

use plain::log::{Log, Touched};
use plain::messages::*;
use plain::mirror::*;
use plain::places::SECTORS;
use plain::shop::Shop;

/// How much of a line is kept.
const KEPT: usize = 40;

fn refuse(text: &str) -> ! {
    eprintln!("{text}");
    exit(3)
}

/// Reads up to the next LF into `line`, of which it keeps so much; false at the end of the input, also behind the
/// last LF.
fn read_line<R: BufRead>(input: &mut R, line: &mut Vec<u8>) -> bool {
    line.clear();
    loop {
        let bytes = match input.fill_buf() {
            Ok(bytes) => bytes,
            Err(error) if error.kind() == io::ErrorKind::Interrupted => continue,
            Err(_) => refuse("FILE"),
        };
        if bytes.is_empty() {
            return false;
        }
        let end = bytes.iter().position(|&byte| byte == b'\n').map(|at| at + 1);
        let length = end.unwrap_or(bytes.len());
        let room = length.min(KEPT + 2 - line.len());
        line.extend_from_slice(&bytes[..room]);
        input.consume(length);
        if end.is_some() {
            return true;
        }
    }
}

fn owned(image: &str) -> File {
    let file = OpenOptions::new().read(true).write(true).open(image).unwrap_or_else(|_| refuse("FILE"));
    if file.try_lock().is_err() {
        refuse("IN USE");
    }
    file
}

/// The lines at hand, 512 at most, are handled in memory, committed together, and then told together.
fn serve(image: &str) {
    let file = owned(image);
    let loaded = Mirror::load(file.try_clone().unwrap_or_else(|_| refuse("FILE")), false);
    let mut log = Log::begin(file, image, loaded.disk.sectors.clone(), true).unwrap_or_else(|_| refuse("FILE"));
    let disk = Touched { disk: loaded.disk, touched: [false; SECTORS] };
    let mut shop = Shop::open(disk).expect("a clean shop");
    let mut out = Out { inner: io::stdout().lock(), buffer: [0; ROOM], used: 0 };
    let mut input = BufReader::new(io::stdin().lock());
    let mut line = Vec::with_capacity(KEPT + 2);
    let mut goes_on = true;
    while goes_on {
        shop.disk.touched = [false; SECTORS];
        let mut lines = 0;
        while lines == 0 || lines < 512 && input.buffer().contains(&b'\n') {
            goes_on = read_line(&mut input, &mut line);
            if !goes_on {
                break;
            }
            play_line(&mut shop, &line, 0, &mut out);
            lines += 1;
        }
        log.commit(&mut shop.disk).unwrap_or_else(|_| refuse("DEVICE"));
        if lines == 0 {
            break;
        }
        if std::fs::metadata(image).is_err() {
            refuse("DEVICE");
        }
        out.flush();
    }
    log.finish().unwrap_or_else(|_| refuse("DEVICE"));
}

fn main() {
    let words: Vec<String> = std::env::args().skip(1).collect();
    let words: Vec<&str> = words.iter().map(String::as_str).collect();
    match words[..] {
        ["serve", image] => serve(image),
        _ => {
            eprintln!("serve_plain serve IMAGE");
            exit(2);
        }
    }
}
