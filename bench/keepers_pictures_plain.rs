//! What keepers' commands print, as plain Rust without proofs: the yardstick of keepers.sh.
//!   keepers_plain picture IMAGE
//!   keepers_plain picture --sheet IMAGE..
use std::fs::File;
use std::io::{self, BufWriter, Read, Write};
use std::process::{ExitCode, exit};

mod plain;

use plain::pictures::picture;
use plain::places::*;
use plain::sheets::{sheet_begin, sheet_end, sheet_tile};

fn refuse(text: &str) -> ! {
    eprintln!("{text}");
    exit(3)
}

/// The bytes of an image, which nobody writes meanwhile.
fn load(image: &str) -> Vec<u8> {
    let mut file = File::open(image).unwrap_or_else(|_| refuse("FILE"));
    if file.try_lock_shared().is_err() {
        refuse("IN USE");
    }
    let mut bytes = Vec::with_capacity(IMAGE_SIZE + 1);
    if file.read_to_end(&mut bytes).is_err() || bytes.len() != IMAGE_SIZE {
        refuse("IMAGE SIZE");
    }
    bytes
}

/// Prints the sheet of these images, one in memory at a time.
fn sheet(images: &[&str], out: &mut impl Write) -> io::Result<u8> {
    sheet_begin(images.len(), out)?;
    let mut greatest = 0;
    for image in images {
        greatest = sheet_tile(load(image).as_chunks().0, image, out)?.max(greatest);
    }
    sheet_end(out)?;
    Ok(greatest)
}

fn main() -> ExitCode {
    let words: Vec<String> = std::env::args().skip(1).collect();
    let words: Vec<&str> = words.iter().map(String::as_str).collect();
    let mut out = BufWriter::new(io::stdout().lock());
    let status = match words[..] {
        ["picture", "--sheet", ref images @ ..] => sheet(images, &mut out).unwrap_or_else(|_| refuse("FILE")),
        ["picture", image] => picture(load(image).as_chunks().0, &mut out).unwrap_or_else(|_| refuse("FILE")),
        _ => {
            eprintln!("keepers_plain picture IMAGE");
            2
        }
    };
    ExitCode::from(status)
}
