//! Messages, the trade rule and replies in plain Rust.
use std::io::Write;
use std::process::exit;

pub const MOST: u32 = 999_999_999;
pub const SYNTAX: &[u8; 22] = b"30,SYNTAX ERROR,00,00\n";

#[derive(Clone, Copy, PartialEq)]
pub struct Body {
    pub kind: u8,
    pub item: u16,
    pub quantity: u32,
    pub to: u16,
}

#[derive(Clone, Copy)]
pub enum Answer {
    Done(u32),
    Moved(u32, u32),
    Short(u32),
    Over(u32),
    NoCard,
    DiskFull,
    TooLarge,
}

#[derive(Clone, Copy)]
pub struct Kept {
    pub number: u32,
    pub body: Body,
    pub answer: Answer,
}

pub const ROOM: usize = 32768;

/// The output: `used` bytes of the buffer wait to be written, and a line more always fits.
pub struct Out<W: Write> {
    pub inner: W,
    pub buffer: [u8; ROOM],
    pub used: usize,
}

impl<W: Write> Out<W> {
    pub fn flush(&mut self) {
        if self.inner.write_all(&self.buffer[..self.used]).is_err() {
            eprintln!("FILE");
            exit(3);
        }
        self.used = 0;
    }

    #[inline(always)]
    pub fn text<const N: usize>(&mut self, text: &[u8; N]) {
        self.buffer[self.used..self.used + N].copy_from_slice(text);
        self.used += N;
    }

    #[inline(always)]
    pub fn number(&mut self, mut n: u32) {
        let mut digits = [0u8; 10];
        let mut at = 10;
        loop {
            at -= 1;
            digits[at] = b'0' + (n % 10) as u8;
            n /= 10;
            if n == 0 {
                break;
            }
        }
        let room = &mut self.buffer[self.used..self.used + 10];
        for (to, from) in room.iter_mut().zip(&digits[at..]) {
            *to = *from;
        }
        self.used += 10 - at;
    }
}

/// The number at `at` and the place after it; up to nine digits, none of them a leading zero.
#[inline(always)]
pub fn number(script: &[u8], at: usize) -> Option<(u32, usize)> {
    let first = script.get(at)?.wrapping_sub(b'0');
    if first > 9 {
        return None;
    }
    let mut n = u32::from(first);
    let mut end = at + 1;
    while let Some(byte) = script.get(end) {
        let digit = byte.wrapping_sub(b'0');
        if digit > 9 {
            break;
        }
        if n == 0 || end - at == 9 {
            return None;
        }
        n = n * 10 + u32::from(digit);
        end += 1;
    }
    Some((n, end))
}

pub fn comma(script: &[u8], at: usize) -> Option<usize> {
    if script.get(at) == Some(&b',') { Some(at + 1) } else { None }
}

/// The request at `at`, and the place after its line.
pub fn request(script: &[u8], at: usize) -> Option<(usize, u32, Body, usize)> {
    let (till, at) = number(script, at)?;
    let (count, at) = number(script, comma(script, at)?)?;
    let at = comma(script, at)?;
    let kind = *script.get(at)?;
    let (item, at) = number(script, comma(script, at + 1)?)?;
    let (quantity, at) = number(script, comma(script, at)?)?;
    let (to, at) = if kind == b'M' { number(script, comma(script, at)?)? } else { (0, at) };
    if till == 0 || till > 64 || count == 0 || item == 0 || item > 65535 || !matches!(kind, b'R' | b'I' | b'S' | b'M') {
        return None;
    }
    if kind == b'M' && (to == 0 || to > 65535 || to == item) {
        return None;
    }
    let end = match script.get(at) {
        None => at,
        Some(b'\n') => at + 1,
        Some(b'\r') if script.get(at + 1) == Some(&b'\n') => at + 2,
        Some(_) => return None,
    };
    Some((till as usize, count, Body { kind, item: item as u16, quantity, to: to as u16 }, end))
}

/// Trades a request over the quantities on hand, item by item; items up to `top` without a card have room.
pub fn trade(cards: &mut [Option<u32>], top: usize, body: Body) -> Answer {
    let place = usize::from(body.item) - 1;
    let card = cards.get(place).copied().flatten();
    if body.kind == b'M' {
        let to = usize::from(body.to) - 1;
        let (Some(on), Some(there)) = (card, cards.get(to).copied().flatten()) else {
            return Answer::NoCard;
        };
        if body.quantity > on {
            return Answer::Short(on);
        }
        if body.quantity > MOST - there {
            return Answer::Over(there);
        }
        cards[place] = Some(on - body.quantity);
        cards[to] = Some(there + body.quantity);
        return Answer::Moved(on - body.quantity, there + body.quantity);
    }
    let (answer, quantity) = match (body.kind, card) {
        (b'S', None) if place >= 10160 => (Answer::TooLarge, None),
        (b'S', None) if place >= top => (Answer::DiskFull, None),
        (b'S', _) => (Answer::Done(body.quantity), Some(body.quantity)),
        (_, None) => (Answer::NoCard, None),
        (b'R', Some(on)) if body.quantity > MOST - on => (Answer::Over(on), None),
        (b'R', Some(on)) => (Answer::Done(on + body.quantity), Some(on + body.quantity)),
        (_, Some(on)) if body.quantity > on => (Answer::Short(on), None),
        (_, Some(on)) => (Answer::Done(on - body.quantity), Some(on - body.quantity)),
    };
    if quantity.is_some() {
        cards[place] = quantity;
    }
    answer
}

#[inline(always)]
pub fn tell<W: Write>(out: &mut Out<W>, answer: Answer) {
    match answer {
        Answer::Done(n) => {
            out.text(b"DONE,");
            out.number(n);
        }
        Answer::Moved(n, m) => {
            out.text(b"DONE,");
            out.number(n);
            out.text(b",");
            out.number(m);
        }
        Answer::Short(n) => {
            out.text(b"SHORT,");
            out.number(n);
        }
        Answer::Over(n) => {
            out.text(b"OVER,");
            out.number(n);
        }
        Answer::NoCard => out.text(b"NO CARD"),
        Answer::DiskFull => out.text(b"72,DISK FULL"),
        Answer::TooLarge => out.text(b"52,FILE TOO LARGE"),
    }
}

/// The last two requests of each till, and their answers.
pub struct Tills {
    pub kept: [Option<Kept>; 65],
    pub prior: [Option<Kept>; 65],
}

/// What a till is told of a request, where it isn't the next.
pub enum Old {
    Ahead,
    Stale,
    Clash,
    Kept(Answer),
}

impl Tills {
    pub fn new() -> Tills {
        Tills { kept: [None; 65], prior: [None; 65] }
    }

    /// None where the request is the next one.
    #[inline(always)]
    pub fn old(&self, till: usize, number: u32, body: Body) -> Option<Old> {
        let last = self.kept[till];
        let last_number = last.map_or(0, |kept| kept.number);
        if number == last_number + 1 {
            return None;
        }
        if number > last_number {
            return Some(Old::Ahead);
        }
        let held = if number == last_number { last } else { self.prior[till].filter(|kept| kept.number == number) };
        Some(match held {
            None => Old::Stale,
            Some(kept) if kept.body == body => Old::Kept(kept.answer),
            Some(_) => Old::Clash,
        })
    }

    #[inline(always)]
    pub fn add(&mut self, till: usize, kept: Kept) {
        self.prior[till] = self.kept[till].replace(kept);
    }
}

#[inline(always)]
pub fn tell_old<W: Write>(out: &mut Out<W>, old: Old) {
    match old {
        Old::Ahead => out.text(b"AHEAD"),
        Old::Stale => out.text(b"STALE"),
        Old::Clash => out.text(b"CLASH"),
        Old::Kept(answer) => tell(out, answer),
    }
}

/// The place after the line that begins at `at`.
pub fn next_line(script: &[u8], at: usize) -> usize {
    match script[at..].iter().position(|&byte| byte == b'\n') {
        Some(length) => at + length + 1,
        None => script.len(),
    }
}
