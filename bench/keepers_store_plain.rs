//! What `ledger store IMAGE NAME RECORDS` does and prints, as plain Rust without proofs: the yardstick of keepers.sh.
//! The image has to be clean, and NAME one of plain letters. Each sector is written and synced by itself.
use std::fs;
use std::io::{self, Write};
use std::process::exit;

mod plain;

use plain::checking::check;
use plain::files::*;
use plain::keeping::*;
use plain::messages::{Out, ROOM};
use plain::mirror::Mirror;

/// The records of a text: number, and where their bytes lie in one list.
struct Lines {
    bytes: Vec<u8>,
    records: Vec<(u32, usize, usize)>,
}

/// Reads all lines of the text; the number of the first bad one.
fn read_lines(text: &[u8], length: usize) -> Result<Lines, usize> {
    let mut lines = Lines { bytes: Vec::with_capacity(text.len()), records: Vec::new() };
    for (index, line) in text.strip_suffix(b"\n").unwrap_or(text).split(|&byte| byte == b'\n').enumerate() {
        let start = lines.bytes.len();
        let line = line.strip_suffix(b"\r").unwrap_or(line);
        let number = read_line(line, &mut lines.bytes).ok_or(index + 1)?;
        let end = lines.bytes.len();
        if end - start > length {
            return Err(index + 1);
        }
        lines.records.push((number, start, end));
    }
    Ok(lines)
}

/// Stores the lines whose records are otherwise, and prints each.
fn store<W: Write>(disk: &mut Mirror, file: &mut RelFile, lines: &Lines, out: &mut Out<W>) -> Result<(), Fault> {
    let most = lines.records.iter().map(|record| record.0).max().unwrap_or(0);
    grow_to(disk, file, most)?;
    let mut old = [0; 254];
    for &(number, start, end) in &lines.records {
        let bytes = &lines.bytes[start..end];
        let length = read_record(disk, file, number, &mut old)?;
        if trimmed(&old[..length]) != trimmed(bytes) {
            write_record(disk, file, number, 1, bytes)?;
            put_line(out, number, bytes);
        }
    }
    out.flush();
    Ok(())
}

fn main() {
    let words: Vec<String> = std::env::args().skip(1).collect();
    let [word, path, name, records] = &words[..] else { exit(2) };
    assert!(word == "store");
    let mut image_file = locked(path, true);
    image_file.sync_data().expect("what the image holds reaches the disk");
    let image = image_of(&mut image_file);
    let text = fs::read(records).expect("the records are readable");
    let disk = MemDisk { sectors: image.as_chunks().0.to_vec() };
    if let Err(fault) = check(&disk.sectors) {
        panic!("LAYOUT {}", fault);
    }
    let mut disk = Mirror { file: image_file, disk, syncs: true };
    let mut file = find(&mut disk, name.as_bytes()).expect("the file is there");
    let lines = read_lines(&text, file.length).unwrap_or_else(|line| panic!("RECORDS LINE {}", line));
    let mut out = Out { inner: io::stdout().lock(), buffer: [0; ROOM], used: 0 };
    store(&mut disk, &mut file, &lines, &mut out).expect("room and a disk");
}
