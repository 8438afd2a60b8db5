//! Messages of 64 tills to a shop on a disk, in plain Rust, so that `requests.sh` can time it beside the proved program:
//! `requests_plain requests ROUNDS` prints the same checksum of replies and image as `benchmarks requests ROUNDS`,
//! and `requests_plain openings ROUNDS` the same of the image as `benchmarks openings ROUNDS`.
//! Its books are kept in memory, and it writes the same sectors; each first reply is lost, so that each request is repeated.
use std::env;
use std::io::{self, Sink};

mod plain;

use plain::files::*;
use plain::full_disk::*;
use plain::messages::*;
use plain::places::*;
use plain::shop::Shop;

const TILLS: usize = 64;

/// What a till holds: its last number that was answered, and what it wishes and has heard no answer to.
#[derive(Clone, Copy, Default)]
struct Till {
    last: u32,
    wish: Option<Body>,
}

/// What a till wishes in this round; None where it would move an item to itself.
fn wish_of(round: u64) -> Option<Body> {
    let mix = ((round + 1).wrapping_mul(0x9E37_79B9_7F4A_7C15) >> 32) as u32;
    let most = if mix & 8 == 0 { 300 } else { 8819 };
    let item = (mix / 16 % most) as u16 + 1;
    let quantity = mix / 128 % 1000;
    let to = (mix / 1024 % 300) as u16 + 1;
    match mix & 7 {
        0..=2 => Some(Body { kind: b'S', item, quantity, to: 0 }),
        3 | 4 => Some(Body { kind: b'R', item, quantity, to: 0 }),
        5 | 6 => Some(Body { kind: b'I', item, quantity, to: 0 }),
        _ => (to != item).then_some(Body { kind: b'M', item, quantity, to }),
    }
}

fn reply_number(answer: Answer) -> u64 {
    match answer {
        Answer::NoCard => 7,
        Answer::DiskFull => 8,
        Answer::TooLarge => 9,
        Answer::Done(on_hand) => 10 + u64::from(on_hand),
        Answer::Moved(on_hand, other) => 20 + u64::from(on_hand) + 3 * u64::from(other),
        Answer::Short(on_hand) => 30 + u64::from(on_hand),
        Answer::Over(on_hand) => 40 + u64::from(on_hand),
    }
}

/// Writes the message of a wish.
fn write_message(out: &mut Out<Sink>, till: usize, number: u32, body: Body) {
    out.used = 0;
    out.number(till as u32);
    out.text(b",");
    out.number(number);
    out.text(b",");
    out.text(&[body.kind]);
    out.text(b",");
    out.number(u32::from(body.item));
    out.text(b",");
    out.number(body.quantity);
    if body.kind == b'M' {
        out.text(b",");
        out.number(u32::from(body.to));
    }
}

/// Answers a message: the number of the reply, and the answer where there is one.
fn handle(shop: &mut Shop<MemDisk>, message: &[u8]) -> (u64, bool) {
    let Some((till, number, body, _)) = request(message, 0) else {
        return (1, false);
    };
    if till > shop.count {
        return (3, false);
    }
    match shop.tills.old(till, number, body) {
        None => match shop.trade(till, number, body) {
            Ok(answer) => (reply_number(answer), true),
            Err(_) => (2, false),
        },
        Some(Old::Stale) => (4, false),
        Some(Old::Clash) => (5, false),
        Some(Old::Ahead) => (6, false),
        Some(Old::Kept(answer)) => (reply_number(answer), true),
    }
}

/// So many messages to a shop on a disk that was blank: the sum of the replies, and the disk.
fn asked_shop(rounds: u64) -> Result<(u64, MemDisk), Fault> {
    let mut disk = MemDisk { sectors: vec![[0; 256]; SECTORS] };
    blank(&mut disk, TILLS)?;
    let mut shop = Shop::open(disk).ok_or(Fault::Device)?;
    let mut tills = [Till::default(); TILLS];
    let mut out = Out { inner: io::sink(), buffer: [0; ROOM], used: 0 };
    let mut sum = 0u64;
    for round in 0..rounds {
        let place = (round % TILLS as u64) as usize;
        let till = &mut tills[place];
        let is_first = round / TILLS as u64 % 2 == 0;
        if is_first {
            if let Some(wish) = wish_of(round) {
                till.wish.get_or_insert(wish);
            }
        }
        let mut number = 0;
        if let Some(wish) = till.wish {
            write_message(&mut out, place + 1, till.last + 1, wish);
            let (told, is_answer) = handle(&mut shop, &out.buffer[..out.used]);
            number = told;
            if !is_first && is_answer {
                *till = Till { last: till.last + 1, wish: None };
            }
        }
        sum = sum.wrapping_mul(31).wrapping_add(number);
    }
    Ok((sum, shop.disk))
}

fn timed(word: &str, rounds: u64) -> Result<u64, Fault> {
    if word == "requests" {
        let (sum, disk) = asked_shop(rounds)?;
        return Ok(sum.wrapping_mul(31).wrapping_add(checksum(&disk)));
    }
    let (_, mut disk) = asked_shop(100_000)?;
    for _ in 0..rounds {
        disk = Shop::open(disk).ok_or(Fault::Device)?.disk;
    }
    Ok(checksum(&disk))
}

fn main() {
    let words: Vec<String> = env::args().skip(1).collect();
    let rounds = words.get(1).and_then(|word| word.parse().ok()).expect("ROUNDS is a number");
    println!("{}", timed(&words[0], rounds).expect("a disk in memory never fails"));
}
