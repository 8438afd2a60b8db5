//! What `ledger records IMAGE NAME` does and prints, as plain Rust without proofs: the yardstick of keepers.sh.
//! The image has to be clean, and NAME one of plain letters.
use std::io;
use std::process::exit;

mod plain;

use plain::checking::check;
use plain::files::*;
use plain::keeping::*;
use plain::messages::{Out, ROOM};
use plain::places::*;

/// The bytes of a relative file, block by block along its links.
fn bytes_of(disk: &mut MemDisk, file: &RelFile) -> Vec<u8> {
    let mut bytes = Vec::with_capacity(DATA * file.blocks);
    let mut place = block_at(disk, file, 0).expect("the first block");
    loop {
        let block = &disk.sectors[place.index()];
        if block[0] == 0 {
            bytes.extend_from_slice(&block[2..=block[1].max(1) as usize]);
            return bytes;
        }
        bytes.extend_from_slice(&block[2..]);
        place = Place::new(block[0], block[1]).expect("a link");
    }
}

fn main() {
    let words: Vec<String> = std::env::args().skip(1).collect();
    let [word, path, name] = &words[..] else { exit(2) };
    assert!(word == "records");
    let image = image_of(&mut locked(path, false));
    let mut disk = MemDisk { sectors: image.as_chunks().0.to_vec() };
    if let Err(fault) = check(&disk.sectors) {
        panic!("LAYOUT {}", fault);
    }
    let file = find(&mut disk, name.as_bytes()).expect("the file is there");
    let mut out = Out { inner: io::stdout().lock(), buffer: [0; ROOM], used: 0 };
    for (number, record) in (1..).zip(bytes_of(&mut disk, &file).chunks_exact(file.length)) {
        put_line(&mut out, number, record);
    }
    out.flush();
}
