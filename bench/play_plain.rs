//! What `ledger play IMAGE SCRIPT` and `ledger show IMAGE` do and print, as plain Rust without proofs: the yardstick of play.sh.
//!   play_plain play IMAGE SCRIPT   each sector goes to the file as it is written, without resets in the script
//!   play_plain show IMAGE
use std::fs::{self, File, OpenOptions};
use std::io::{self, Write};
use std::process::exit;

mod plain;

use plain::files::*;
use plain::messages::*;
use plain::mirror::*;
use plain::shop::{Image, Shop};

fn play<D: Sectors + Image, W: Write>(shop: &mut Shop<D>, script: &[u8], out: &mut Out<W>) {
    let mut at = 0;
    while at < script.len() {
        if out.used > ROOM - 64 {
            out.flush();
        }
        at = play_line(shop, script, at, out);
    }
    out.flush();
}

fn tell_kept<const N: usize, W: Write>(out: &mut Out<W>, word: &[u8; N], till: usize, kept: &Kept) {
    out.text(word);
    out.number(till as u32);
    comma_and(out, kept.number);
    out.text(b",");
    out.text(&[kept.body.kind]);
    comma_and(out, u32::from(kept.body.item));
    comma_and(out, kept.body.quantity);
    if kept.body.kind == b'M' {
        comma_and(out, u32::from(kept.body.to));
    }
    out.text(b",");
    tell(out, kept.answer);
    out.text(b"\n");
}

fn show<D: Sectors + Image, W: Write>(shop: &Shop<D>, out: &mut Out<W>) {
    out.text(b"TOP ");
    out.number(shop.top as u32);
    out.text(b"\n");
    for (index, card) in shop.cards.iter().enumerate() {
        if out.used > ROOM - 64 {
            out.flush();
        }
        if let Some(quantity) = card {
            out.text(b"CARD ");
            out.number(index as u32 + 1);
            comma_and(out, *quantity);
            out.text(b"\n");
        }
    }
    for till in 1..=shop.count {
        if out.used > ROOM - 256 {
            out.flush();
        }
        if let Some(kept) = &shop.tills.kept[till] {
            tell_kept(out, b"TILL ", till, kept);
        }
        if let Some(prior) = &shop.tills.prior[till] {
            tell_kept(out, b"PRIOR ", till, prior);
        }
    }
    out.flush();
}

fn main() {
    let words: Vec<String> = std::env::args().skip(1).collect();
    let words: Vec<&str> = words.iter().map(String::as_str).collect();
    let mut out = Out { inner: io::stdout().lock(), buffer: [0; ROOM], used: 0 };
    match words[..] {
        ["play", image, script] => {
            let script = fs::read(script).expect("the script is readable");
            let file = OpenOptions::new().read(true).write(true).open(image).expect("the image is writable");
            let mut shop = Shop::open(Mirror::load(file, false)).expect("a clean shop");
            play(&mut shop, &script, &mut out);
        }
        ["show", image] => {
            let file = File::open(image).expect("the image is readable");
            show(&Shop::open(Mirror::load(file, false)).expect("a clean shop"), &mut out)
        }
        _ => {
            eprintln!("play_plain play IMAGE SCRIPT | show IMAGE");
            exit(2);
        }
    }
}
