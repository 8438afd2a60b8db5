//! A shop on a disk in plain Rust: its books are kept in memory, and each request writes its sectors in the same order as
//! the proved session. It opens clean disks alone, without an open intent and without a card of version 1.
use super::checking::check;
use super::files::*;
use super::messages::*;
use super::places::*;

/// A card of STOCK and one of REQUESTS, in bytes.
const STOCK: usize = 18;
const REQUEST: usize = 127;
/// An entry of a request card.
const ENTRY: usize = 58;
/// How many records of STOCK fill 720 blocks.
const MOST_RECORDS: usize = 10160;

/// A relative file with the places of its data blocks.
struct Listed {
    file: RelFile,
    blocks: Vec<Place>,
}

pub struct Shop<D: Sectors> {
    pub disk: D,
    stock: Listed,
    requests: Listed,
    pub cards: Vec<Option<u32>>,
    pub tills: Tills,
    /// How many tills there are, and the last item that has room.
    pub count: usize,
    pub top: usize,
}

fn listed<D: Sectors>(disk: &mut D, file: RelFile) -> Result<Listed, Fault> {
    let mut listed = Listed { blocks: Vec::with_capacity(file.blocks), file };
    list(disk, &mut listed)?;
    Ok(listed)
}

/// Lists the blocks that the side sectors name, from the first that isn't listed on.
fn list<D: Sectors>(disk: &mut D, listed: &mut Listed) -> Result<(), Fault> {
    let mut side = [0; 256];
    for (number, &place) in listed.file.sides.iter().enumerate().skip(listed.blocks.len() / POINTERS) {
        disk.read(place, &mut side)?;
        listed.blocks.truncate(POINTERS * number);
        let left = listed.file.blocks - POINTERS * number;
        for two in side[16..].chunks(2).take(left) {
            listed.blocks.push(Place::new(two[0], two[1]).ok_or(Fault::Device)?);
        }
    }
    Ok(())
}

/// Writes a whole record that is there.
fn put<D: Sectors>(disk: &mut D, listed: &Listed, number: usize, text: &[u8]) -> Result<(), Fault> {
    let start = (number - 1) * text.len();
    let (block, from) = (start / DATA, 2 + start % DATA);
    let here = text.len().min(256 - from);
    let mut sector = [0; 256];
    disk.read(listed.blocks[block], &mut sector)?;
    sector[from..from + here].copy_from_slice(&text[..here]);
    disk.write(listed.blocks[block], &sector)?;
    if here < text.len() {
        disk.read(listed.blocks[block + 1], &mut sector)?;
        sector[2..2 + text.len() - here].copy_from_slice(&text[here..]);
        disk.write(listed.blocks[block + 1], &sector)?;
    }
    Ok(())
}

/// Writes a number over all of the bytes, with leading zeros.
fn digits(to: &mut [u8], mut number: u32) {
    for byte in to.iter_mut().rev() {
        *byte = b'0' + (number % 10) as u8;
        number /= 10;
    }
}

fn number_of(text: &[u8]) -> Option<u32> {
    text.iter().try_fold(0, |number, byte| byte.is_ascii_digit().then(|| 10 * number + u32::from(byte - b'0')))
}

/// The answer's number on a card, and its two quantities.
fn on_card(answer: Answer) -> (u8, u32, u32) {
    match answer {
        Answer::Done(h) => (b'0', h, 0),
        Answer::Moved(h, g) => (b'0', h, g),
        Answer::Short(h) => (b'1', h, 0),
        Answer::Over(h) => (b'2', h, 0),
        Answer::NoCard => (b'3', 0, 0),
        Answer::DiskFull => (b'4', 0, 0),
        Answer::TooLarge => (b'5', 0, 0),
    }
}

fn entry(to: &mut [u8], mark: u8, kept: &Kept) {
    let (c, h, g) = on_card(kept.answer);
    to.copy_from_slice(b"A,000000000,R,00000,000000000,0,000000000,00000,000000000\r");
    (to[0], to[12], to[30]) = (mark, kept.body.kind, c);
    digits(&mut to[2..11], kept.number);
    digits(&mut to[14..19], u32::from(kept.body.item));
    digits(&mut to[20..29], kept.body.quantity);
    digits(&mut to[32..41], h);
    digits(&mut to[42..47], u32::from(kept.body.to));
    digits(&mut to[48..57], g);
}

fn entry_of(text: &[u8]) -> Option<Kept> {
    let (h, g) = (number_of(&text[32..41])?, number_of(&text[48..57])?);
    let answer = match (text[30], text[12]) {
        (b'0', b'M') => Answer::Moved(h, g),
        (b'0', _) => Answer::Done(h),
        (b'1', _) => Answer::Short(h),
        (b'2', _) => Answer::Over(h),
        (b'3', _) => Answer::NoCard,
        (b'4', _) => Answer::DiskFull,
        (b'5', _) => Answer::TooLarge,
        _ => return None,
    };
    let body = Body {
        kind: text[12],
        item: number_of(&text[14..19])? as u16,
        quantity: number_of(&text[20..29])?,
        to: number_of(&text[42..47])? as u16,
    };
    (text[0] == b'A').then_some(Kept { number: number_of(&text[2..11])?, body, answer })
}

/// The image as it is in memory.
pub trait Image {
    fn sectors(&self) -> &[Sector];
}

impl Image for MemDisk {
    fn sectors(&self) -> &[Sector] {
        &self.sectors
    }
}

impl<D: Sectors + Image> Shop<D> {
    /// Opens the disk; None where it isn't a clean shop.
    pub fn open(mut disk: D) -> Option<Shop<D>> {
        check(disk.sectors()).ok()?;
        let stock = find(&mut disk, b"STOCK").ok().filter(|file| file.length == STOCK)?;
        let requests = find(&mut disk, b"REQUESTS").ok().filter(|file| file.length == REQUEST)?;
        let stock = listed(&mut disk, stock).ok()?;
        let requests = listed(&mut disk, requests).ok()?;
        let outside = free_blocks(&disk.sectors()[MAP.index()]) + stock.file.blocks + stock.file.sides.len();
        let top = ((outside - outside.div_ceil(POINTERS + 1)) * DATA / STOCK).min(MOST_RECORDS);
        let count = requests.file.records().min(64) as usize;
        let cards = vec![None; top.max(stock.file.records() as usize)];
        let mut shop = Shop { disk, stock, requests, cards, tills: Tills::new(), count, top };
        shop.read_tills()?;
        shop.read_cards()?;
        Some(shop)
    }

    fn read_tills(&mut self) -> Option<()> {
        let mut text = [0; 254];
        for till in 1..=self.count {
            read_record(&mut self.disk, &self.requests.file, till as u32, &mut text).ok()?;
            if text[0] == 0xFF && text[1..REQUEST].iter().all(|&byte| byte == 0) {
                continue;
            }
            if text[0] != b'2' {
                return None;
            }
            self.tills.kept[till] = Some(entry_of(&text[1..1 + ENTRY])?);
            if text[1 + ENTRY] != 0 {
                self.tills.prior[till] = Some(entry_of(&text[1 + ENTRY..1 + 2 * ENTRY])?);
            }
        }
        Some(())
    }

    /// Reads each block of STOCK once.
    fn read_cards(&mut self) -> Option<()> {
        let mut data = Vec::with_capacity(DATA * self.stock.blocks.len());
        let mut sector = [0; 256];
        for &place in &self.stock.blocks {
            self.disk.read(place, &mut sector).ok()?;
            data.extend_from_slice(&sector[2..]);
        }
        for (index, text) in data.chunks(STOCK).take(self.stock.file.records() as usize).enumerate() {
            if text[0] == b'K' {
                let right = text[1] == b',' && text[7] == b',' && text[17] == b'\r';
                let right = right && number_of(&text[2..7])? as usize == index + 1;
                self.cards[index] = Some(number_of(&text[8..17]).filter(|_| right)?);
            } else if text[0] != 0xFF || text[1..].iter().any(|&byte| byte != 0) {
                return None;
            }
        }
        Some(())
    }

    /// Writes the till's card with this request in front.
    fn put_request(&mut self, till: usize, mark: u8, kept: &Kept, before: Option<Kept>) -> Result<(), Fault> {
        let mut card = [0; REQUEST];
        card[0] = b'2';
        entry(&mut card[1..1 + ENTRY], mark, kept);
        if let Some(before) = before {
            entry(&mut card[1 + ENTRY..1 + 2 * ENTRY], b'A', &before);
        }
        put(&mut self.disk, &self.requests, till, &card)
    }

    fn put_card(&mut self, item: u16) -> Result<(), Fault> {
        let mut card = *b"K,00000,000000000\r";
        digits(&mut card[2..7], u32::from(item));
        digits(&mut card[8..17], self.cards[usize::from(item) - 1].unwrap_or(0));
        put(&mut self.disk, &self.stock, usize::from(item), &card)
    }

    /// Trades the till's next request and keeps its answer.
    pub fn trade(&mut self, till: usize, number: u32, body: Body) -> Result<Answer, Fault> {
        let answer = trade(&mut self.cards, self.top, body);
        let kept = Kept { number, body, answer };
        let before = self.tills.kept[till];
        if matches!(answer, Answer::Done(_) | Answer::Moved(..)) {
            if u32::from(body.item) > self.stock.file.records() {
                grow_to(&mut self.disk, &mut self.stock.file, u32::from(body.item))?;
                list(&mut self.disk, &mut self.stock)?;
            }
            self.put_request(till, b'I', &kept, before)?;
            self.put_card(body.item)?;
            if body.kind == b'M' {
                self.put_card(body.to)?;
            }
        }
        self.put_request(till, b'A', &kept, before)?;
        self.tills.add(till, kept);
        Ok(answer)
    }
}
