//! What keepers' commands need, in plain Rust: an image locked and read, the text of bytes, and lines of records.
use std::fs::{File, OpenOptions};
use std::io::{Read, Write};

use super::messages::{Out, ROOM};
use super::places::IMAGE_SIZE;

/// The most that a record's line has: a number, a comma, two quotation marks, 254 bytes as `\ff`, an LF.
pub const LINE: usize = 800;

const DIGITS: &[u8; 16] = b"0123456789abcdef";

/// The file of an image, locked: shared for who reads, alone for who writes.
pub fn locked(path: &str, writes: bool) -> File {
    let file = OpenOptions::new().read(true).write(writes).open(path).expect("the image is there");
    let lock = if writes { file.try_lock() } else { file.try_lock_shared() };
    lock.expect("nobody else has the image");
    file
}

/// The bytes of an image.
pub fn image_of(file: &mut File) -> Vec<u8> {
    let mut image = Vec::with_capacity(IMAGE_SIZE + 1);
    file.take(IMAGE_SIZE as u64 + 1).read_to_end(&mut image).expect("the image is readable");
    assert!(image.len() == IMAGE_SIZE, "the image has another size");
    image
}

pub fn is_plain(byte: u8) -> bool {
    (0x20..=0x7E).contains(&byte) && byte != b'"' && byte != b'\\'
}

/// The bytes up to the last one that isn't 0.
pub fn trimmed(bytes: &[u8]) -> &[u8] {
    let end = bytes.iter().rposition(|&byte| byte != 0).map_or(0, |at| at + 1);
    &bytes[..end]
}

/// Puts a record's line into the buffer.
pub fn put_line<W: Write>(out: &mut Out<W>, number: u32, record: &[u8]) {
    if out.used > ROOM - LINE {
        out.flush();
    }
    out.number(number);
    out.text(b",\"");
    for &byte in trimmed(record) {
        if is_plain(byte) {
            out.text(&[byte]);
        } else {
            out.text(&[b'\\', DIGITS[byte as usize / 16], DIGITS[byte as usize % 16]]);
        }
    }
    out.text(b"\"\n");
}

fn worth(digit: u8) -> Option<u8> {
    match digit {
        b'0'..=b'9' => Some(digit - b'0'),
        b'a'..=b'f' => Some(digit - b'a' + 10),
        _ => None,
    }
}

/// Reads the text of bytes to the end of `bytes`; None where it is none.
fn read_text(text: &[u8], bytes: &mut Vec<u8>) -> Option<()> {
    let mut rest = text;
    while let [first, behind @ ..] = rest {
        if is_plain(*first) {
            bytes.push(*first);
            rest = behind;
            continue;
        }
        let [b'\\', high, low, behind @ ..] = rest else { return None };
        let byte = 16 * worth(*high)? + worth(*low)?;
        if is_plain(byte) {
            return None;
        }
        bytes.push(byte);
        rest = behind;
    }
    Some(())
}

/// Reads a record's line, without its end: its number, and its bytes to the end of `bytes`.
pub fn read_line(line: &[u8], bytes: &mut Vec<u8>) -> Option<u32> {
    let comma = line.iter().position(|&byte| byte == b',')?;
    let (digits, text) = (&line[..comma], &line[comma + 1..]);
    if digits.is_empty() || digits.len() > 6 || digits[0] == b'0' || !digits.iter().all(u8::is_ascii_digit) {
        return None;
    }
    let number = digits.iter().fold(0, |number, digit| 10 * number + u32::from(digit - b'0'));
    let text = match text {
        [b'"', inner @ .., b'"'] => inner,
        _ => text,
    };
    read_text(text, bytes)?;
    (number <= 182_880).then_some(number)
}
