//! The picture of a disk as an HTML page, in plain Rust: what is drawn, and the page.
use super::checking::{Fault, check};
use super::places::*;
use std::fmt::{self, Display, Formatter};
use std::io::{self, Write};

const RIM: u32 = 35700;
const STYLE: &str = ":root{color-scheme:light dark}body{margin:24px;background:#fbfaf7;color:#222;font:14px/1.4 ui-monospace,Menlo,Consolas,\"DejaVu Sans Mono\",monospace}h1{font-size:20px;margin:0}h1,p{overflow-wrap:anywhere}bdi:not(:empty){margin-left:2ch}p{margin:4px 0 12px}a{color:inherit}main{display:grid;gap:16px 32px;grid-template-columns:minmax(0,720px) minmax(0,1fr)}main>div{max-height:calc(100vh - 130px);overflow:auto}main>svg{width:100%;height:auto}table{border-collapse:collapse}td,th{padding:1px 8px;text-align:right;white-space:pre}tr>:nth-child(3),tr>:nth-child(4){text-align:left}td a{display:inline-block;max-width:20ch;overflow:hidden;text-overflow:ellipsis;vertical-align:bottom;text-decoration:none}td a:hover,td a:focus{max-width:none;text-decoration:underline}ul{list-style:none;padding:0;margin:0 0 12px}li{margin:0 0 2px}i{display:inline-block;box-sizing:border-box;width:12px;height:12px;margin:0 6px 0 0;background:currentColor;background-clip:content-box;vertical-align:-1px;forced-color-adjust:none}.bad b{color:#b00000}.good b{color:#17692b}circle{fill:none;stroke-width:700}.w1 circle{stroke-width:540}.w2 circle{stroke-width:390}i.w1{padding:1.5px 0}i.w2{padding:3px 0}i.w3{padding:0 4px}text{font:1100px ui-monospace,Menlo,Consolas,\"DejaVu Sans Mono\",monospace;fill:#444;text-anchor:middle}.n{pointer-events:none;fill:none;stroke:#444;stroke-width:120}.n text{paint-order:stroke;stroke:#fbfaf7;stroke-width:300}.free{stroke:#e8e4d9}.lost{stroke:#9898aa}.map{stroke:#161616}.dir{stroke:#5e5e5e}.edge{stroke:#fff;stroke-width:1500}.fault{stroke:#d40000;stroke-width:1100}.open circle{stroke:#fff;stroke-width:200;pointer-events:none}.free i{color:#e8e4d9}.lost i{color:#9898aa}.map i{color:#161616}.dir i{color:#5e5e5e}.fault i{color:#d40000}.side i{background:linear-gradient(90deg,#999 50%,#444 50%)}.open i{background:linear-gradient(#999 40%,#fff 40%,#fff 60%,#999 60%)}.c0{stroke:#8c8259;color:#8c8259}.c0 .s{stroke:#4d4831}.c1{stroke:#1c9182;color:#1c9182}.c1 .s{stroke:#0f5048}.c2{stroke:#4b75ff;color:#4b75ff}.c2 .s{stroke:#29408c}.c3{stroke:#e320ba;color:#e320ba}.c3 .s{stroke:#7d1266}.c4{stroke:#406c83;color:#406c83}.c4 .s{stroke:#233b48}.c5{stroke:#716046;color:#716046}.c5 .s{stroke:#3e3526}.c6{stroke:#3a4353;color:#3a4353}.c6 .s{stroke:#20252e}.c7{stroke:#4a3934;color:#4a3934}.c7 .s{stroke:#291f1d}.c8{stroke:#0c0bca;color:#0c0bca}.c8 .s{stroke:#07066f}.c9{stroke:#5d0476;color:#5d0476}.c9 .s{stroke:#330241}.c10{stroke:#630a00;color:#630a00}.c10 .s{stroke:#360600}.c11{stroke:#041c33;color:#041c33}.c11 .s{stroke:#020f1c}g:target circle{stroke-width:800}svg:has(g:target) g g:not(:target):not(#f){opacity:.15}.all{visibility:hidden}main:has(g:target) .all{visibility:visible}main:not(:has(circle.free)) li.free{display:none}main:not(:has(circle.lost)) li.lost{display:none}main:not(:has(circle.s)) li.side{display:none}main:not(:has(.open circle)) li.open{display:none}main:not(:has(circle.fault)) li.fault{display:none}table:not(:has(td:nth-child(n+5):not(:empty))) :is(td,th):nth-child(n+5){display:none}@media(max-width:900px){body{margin:12px}main{display:block}main>div{max-height:none}}@media screen and (prefers-color-scheme:dark){body{background:#15171b;color:#e6e6e6}text{fill:#c8c8c8}.n{stroke:#c8c8c8}.n text{stroke:#15171b}.free{stroke:#2a2d34}.lost{stroke:#a29c93}.map{stroke:#fff}.dir{stroke:#9aa0aa}.edge{stroke:#15171b}.fault{stroke:#ff4a3d}.bad b{color:#ff7a70}.good b{color:#6fd08c}.free i{color:#2a2d34}.lost i{color:#a29c93}.map i{color:#fff}.dir i{color:#9aa0aa}.fault i{color:#ff4a3d}.c0{stroke:#627c6e;color:#627c6e}.c0 .s{stroke:#b0beb6}.c1{stroke:#85748f;color:#85748f}.c1 .s{stroke:#c2bac7}.c2{stroke:#aa46f5;color:#aa46f5}.c2 .s{stroke:#d4a2fa}.c3{stroke:#2fa067;color:#2fa067}.c3 .s{stroke:#97d0b3}.c4{stroke:#7b92c5;color:#7b92c5}.c4 .s{stroke:#bdc8e2}.c5{stroke:#2fcd81;color:#2fcd81}.c5 .s{stroke:#97e6c0}.c6{stroke:#96baff;color:#96baff}.c6 .s{stroke:#cadcff}.c7{stroke:#d2bf02;color:#d2bf02}.c7 .s{stroke:#e8df80}.c8{stroke:#c9c5be;color:#c9c5be}.c8 .s{stroke:#e4e2de}.c9{stroke:#c4d2e6;color:#c4d2e6}.c9 .s{stroke:#e2e8f2}.c10{stroke:#a5fdbe;color:#a5fdbe}.c10 .s{stroke:#d2fede}.c11{stroke:#fff700;color:#fff700}.c11 .s{stroke:#fffb80}}@page{size:A4;margin:10mm}@media print{*{print-color-adjust:exact;-webkit-print-color-adjust:exact}body{margin:0;font-size:10px}main{display:block}main>svg{display:block;width:130mm;margin:0 auto}main>div{max-height:none;overflow:visible;columns:90mm;font-size:7px;line-height:1.15}main>div:has(tr:nth-child(81)){columns:60mm}main>div:has(tr:nth-child(81)) bdi{display:none}td,th{padding:0 3px}i{width:9px;height:7px}i.w1{padding:1px 0}i.w2{padding:2px 0}i.w3{padding:0 3px}tr:first-child{break-after:avoid}.hint,.all{display:none}}";
const LEGEND: &str = "</g>\n<g class=\"n\">\n<text y=\"-34220\">1</text>\n<text y=\"-31020\">5</text>\n<text y=\"-27020\">10</text>\n<text y=\"-23020\">15</text>\n<text y=\"-20620\">18</text>\n<text y=\"-19020\">20</text>\n<text y=\"-15020\">25</text>\n<text y=\"-11020\">30</text>\n<text y=\"-7020\">35</text>\n<path d=\"M300-36250h3000l-600-250m600 250l-600 250\"/>\n</g>\n</svg>\n<div>\n<ul>\n<li class=\"map\"><i></i>map of free sectors</li>\n<li class=\"dir\"><i></i>directory</li>\n<li class=\"free\"><i></i>free</li>\n<li class=\"lost\"><i></i>taken in the map, in no file</li>\n<li class=\"side\"><i></i>side sector, in another shade of its file (right)</li>\n<li class=\"open\"><i></i>in use, but free in the map</li>\n<li class=\"fault\"><i></i>the fault, with a mark at the rim</li>\n</ul>\n<table>\n<tr><th></th><th>blocks</th><th>name</th><th>type</th><th>length</th><th>records</th></tr>\n";
const END: &str = "</table>\n<p class=\"all\"><a href=\"#all\">Show all files</a></p>\n<p>The numbers in the drawing are tracks. Sector 0 begins at the top; the arrow shows where sector 1 follows.</p>\n<p class=\"hint\">Point at a sector for its place, file and block. Click a name to see its file alone.</p>\n</div>\n</main>\n";

/// Whose a sector is: the map's, the directory's, an entry's by its number, as a block or a side sector, or nobody's.
#[derive(Clone, Copy, PartialEq)]
pub(super) enum Owner {
    Nobody,
    System,
    Blocks(usize),
    Sides(usize),
}

/// A used entry, and the sectors that its links come to.
struct Entry<'a> {
    slot: &'a [u8],
    blocks: Vec<Place>,
    last: u8,
    sides: Vec<Place>,
}

impl Entry<'_> {
    fn is_closed(&self) -> bool {
        self.slot[2] >= 128
    }

    fn is_relative(&self) -> bool {
        self.slot[2] & !0x40 == 0x84
    }

    /// Record length and number of records of a relative file that has both a length and a block.
    fn records(&self) -> Option<(u8, usize)> {
        let length = self.slot[23];
        let bytes = (DATA * self.blocks.len() + usize::from(self.last.max(1))).checked_sub(DATA + 1)?;
        (self.is_relative() && !self.blocks.is_empty() && length != 0).then(|| (length, bytes / usize::from(length)))
    }
}

/// What is drawn of a disk.
pub(super) struct Drawing<'a> {
    pub(super) map: &'a Sector,
    directory: Vec<Place>,
    entries: Vec<Entry<'a>>,
    pub(super) owners: [Owner; SECTORS],
}

/// The sectors that the links come to from what these bytes name, each once, and the last used byte where a chain ends.
fn walk(sectors: &[Sector], link: &[u8]) -> (Vec<Place>, u8) {
    let mut seen = [false; SECTORS];
    let mut places = Vec::new();
    let mut next = Place::new(link[0], link[1]);
    while let Some(place) = next {
        if seen[place.index()] {
            return (places, 0);
        }
        seen[place.index()] = true;
        places.push(place);
        let sector = &sectors[place.index()];
        if sector[0] == 0 {
            return (places, sector[1]);
        }
        next = Place::new(sector[0], sector[1]);
    }
    (places, 0)
}

/// The directory's sectors, or None where they aren't a chain on track 18.
fn directory(sectors: &[Sector]) -> Option<Vec<Place>> {
    let (places, _) = walk(sectors, &DIRECTORY.bytes());
    let last = &sectors[places[places.len() - 1].index()];
    (last[0] == 0 && places.iter().all(|place| place.track == 18 && *place != MAP)).then_some(places)
}

impl<'a> Drawing<'a> {
    fn entry(sectors: &[Sector], slot: &'a [u8]) -> Entry<'a> {
        let mut entry = Entry { slot, blocks: Vec::new(), last: 0, sides: Vec::new() };
        if entry.is_closed() {
            (entry.blocks, entry.last) = walk(sectors, &slot[3..5]);
        }
        if entry.is_relative() {
            (entry.sides, _) = walk(sectors, &slot[21..23]);
            entry.sides.truncate(entry.blocks.len().div_ceil(POINTERS));
        }
        entry
    }

    fn own(&mut self, place: Place, owner: Owner) {
        let held = &mut self.owners[place.index()];
        if *held == Owner::Nobody {
            *held = owner;
        }
    }

    pub(super) fn read(sectors: &'a [Sector]) -> Option<Drawing<'a>> {
        let directory = directory(sectors)?;
        let slots = directory.iter().flat_map(|place| sectors[place.index()].chunks(32)).filter(|slot| slot[2] != 0);
        let entries: Vec<Entry> = slots.map(|slot| Drawing::entry(sectors, slot)).collect();
        let mut drawing = Drawing { map: &sectors[MAP.index()], directory, entries: Vec::new(), owners: [Owner::Nobody; SECTORS] };
        drawing.own(MAP, Owner::System);
        for place in drawing.directory.clone() {
            drawing.own(place, Owner::System);
        }
        for (number, entry) in entries.iter().enumerate() {
            entry.blocks.iter().for_each(|&place| drawing.own(place, Owner::Blocks(number)));
            entry.sides.iter().for_each(|&place| drawing.own(place, Owner::Sides(number)));
        }
        drawing.entries = entries;
        Some(drawing)
    }

    pub(super) fn is_free(&self, place: Place) -> bool {
        let byte = self.map[4 * place.track as usize + 1 + place.sector as usize / 8];
        byte >> (place.sector % 8) & 1 == 1
    }

    pub(super) fn blocks_free(&self) -> u32 {
        (1..=35).filter(|&track| track != 18).map(|track| u32::from(self.map[4 * track])).sum()
    }
}

/// Bytes of the disk without shifted spaces at their end.
pub(super) fn unpadded(bytes: &[u8]) -> &[u8] {
    let end = bytes.iter().rposition(|&byte| byte != 0xA0).map_or(0, |at| at + 1);
    &bytes[..end]
}

/// Bytes of the disk as a page shows them.
pub(super) struct Html<'a>(pub(super) &'a [u8]);

/// How many bytes a byte takes there.
fn html_length(byte: u8) -> usize {
    match byte {
        b'&' => 5,
        b'<' | b'>' => 4,
        b'"' | b'\\' => 3,
        b' '..=b'~' => 1,
        _ => 3,
    }
}

impl Display for Html<'_> {
    fn fmt(&self, f: &mut Formatter) -> fmt::Result {
        let is_long = self.0.iter().map(|&byte| html_length(byte)).sum::<usize>() > 48;
        self.0.iter().try_for_each(|&byte| match byte {
            b'&' if !is_long => f.write_str("&amp;"),
            b'<' if !is_long => f.write_str("&lt;"),
            b'>' if !is_long => f.write_str("&gt;"),
            b' '..=b'~' if !b"\"\\&<>".contains(&byte) => write!(f, "{}", byte as char),
            _ => write!(f, "\\{byte:02x}"),
        })
    }
}

/// The characters of a C64 from $40, from $60 and from $A0 on.
const LETTERS: [char; 32] = [
    '@', 'A', 'B', 'C', 'D', 'E', 'F', 'G', 'H', 'I', 'J', 'K', 'L', 'M', 'N', 'O', 'P', 'Q', 'R', 'S', 'T', 'U', 'V', 'W', 'X',
    'Y', 'Z', '[', '£', ']', '↑', '←',
];
const SHIFTED: [char; 32] = [
    '─', '♠', '🭲', '🭸', '🭷', '🭶', '🭺', '🭱', '🭴', '╮', '╰', '╯', '🭼', '╲', '╱', '🭽', '🭾', '●', '🭻', '♥', '🭰', '╭', '╳', '○', '♣',
    '🭵', '♦', '┼', '🮌', '│', 'π', '◥',
];
const BLOCKS: [char; 32] = [
    '\u{a0}', '▌', '▄', '▔', '▁', '▏', '🮕', '▕', '🮏', '◤', '🮇', '├', '▗', '└', '┐', '▂', '┌', '┴', '┬', '┤', '▎', '▍', '🮈', '🮂',
    '🮃', '▃', '🭿', '▖', '▝', '┘', '▘', '▚',
];

/// A name as a C64 shows it; nothing if that is what is typed.
pub(super) struct Signs<'a>(pub(super) &'a [u8]);

impl Display for Signs<'_> {
    fn fmt(&self, f: &mut Formatter) -> fmt::Result {
        if self.0.iter().all(|&byte| byte < 92 || byte == 93) {
            return Ok(());
        }
        self.0.iter().try_for_each(|&byte| {
            let number = usize::from(byte % 32);
            match byte {
                0x40..=0x5F => write!(f, "{}", LETTERS[number]),
                0x60..=0x7F | 0xC0..=0xDF => write!(f, "{}", SHIFTED[number]),
                0xFF => write!(f, "{}", SHIFTED[30]),
                0xA0..=0xBF | 0xE0..=0xFE => write!(f, "{}", BLOCKS[number]),
                _ => write!(f, "{}", Html(&[byte])),
            }
        })
    }
}

/// The beginning of a sector's circle on the ring of this radius.
struct Ring(u32, Place);

impl Ring {
    fn of(place: Place) -> Ring {
        Ring(35400 - 800 * u32::from(place.track), place)
    }

    /// How long a sector is on it.
    fn arc(&self) -> u32 {
        710 * self.0 / (113 * u32::from(sectors_of(self.1.track)))
    }

    /// How long its dash is.
    fn dash(&self) -> u32 {
        self.arc() - 200
    }
}

impl Display for Ring {
    fn fmt(&self, f: &mut Formatter) -> fmt::Result {
        let &Ring(radius, place) = self;
        write!(f, "<circle r=\"{radius}\" stroke-dashoffset=\"-{}\"", u32::from(place.sector) * self.arc())
    }
}

/// The classes of an entry: one of twelve colours and one of four widths.
struct Look(usize);

impl Display for Look {
    fn fmt(&self, f: &mut Formatter) -> fmt::Result {
        write!(f, "c{} w{}", self.0 % 12, self.0 / 12 % 4)
    }
}

impl Display for Place {
    fn fmt(&self, f: &mut Formatter) -> fmt::Result {
        write!(f, "{}/{}", self.track, self.sector)
    }
}

fn put_system(out: &mut impl Write, drawing: &Drawing) -> io::Result<()> {
    writeln!(out, "<g id=\"m\">\n{} class=\"map\"><title>{MAP} map</title></circle>", Ring::of(MAP))?;
    for &place in &drawing.directory {
        writeln!(out, "{} class=\"dir\"><title>{place} directory</title></circle>", Ring::of(place))?;
    }
    writeln!(out, "</g>")
}

fn put_entry(out: &mut impl Write, drawing: &Drawing, number: usize, entry: &Entry) -> io::Result<()> {
    let name = Html(unpadded(&entry.slot[5..21]));
    writeln!(out, "<g id=\"f{number}\" class=\"{}\">", Look(number))?;
    let count = entry.blocks.len();
    for (index, &place) in entry.blocks.iter().enumerate() {
        if drawing.owners[place.index()] == Owner::Blocks(number) {
            let (ring, block) = (Ring::of(place), index + 1);
            writeln!(out, "{ring}><title>{place} {name}, block {block} of {count}</title></circle>")?;
        }
    }
    for (index, &place) in entry.sides.iter().enumerate() {
        if drawing.owners[place.index()] == Owner::Sides(number) {
            writeln!(out, "{} class=\"s\"><title>{place} {name}, side sector {index}</title></circle>", Ring::of(place))?;
        }
    }
    writeln!(out, "</g>")
}

/// The sectors of a track.
pub(super) fn on_track(track: u8) -> impl Iterator<Item = Place> {
    (0..sectors_of(track)).map(move |sector| Place { track, sector })
}

fn put_rest(out: &mut impl Write, drawing: &Drawing) -> io::Result<()> {
    let is_nobodys = |place: &Place| drawing.owners[place.index()] == Owner::Nobody;
    let is_open = |place: Place| !is_nobodys(&place) && drawing.is_free(place);
    writeln!(out, "<g id=\"r\">")?;
    for place in (1..=35).flat_map(on_track).filter(is_nobodys) {
        let (class, words) = if drawing.is_free(place) { ("free", "free") } else { ("lost", "taken, of no file") };
        writeln!(out, "{} class=\"{class}\"><title>{place} {words}</title></circle>", Ring::of(place))?;
    }
    writeln!(out, "</g>\n<g class=\"open\">")?;
    for track in (1..=35).filter(|&track| on_track(track).any(is_open)) {
        write!(out, "<circle r=\"{}\" style=\"stroke-dasharray:", Ring::of(Place { track, sector: 0 }).0)?;
        for place in on_track(track) {
            let ring = Ring::of(place);
            match is_open(place) {
                true => write!(out, "{} 200 ", ring.dash())?,
                false => write!(out, "0 {} ", ring.arc())?,
            }
        }
        writeln!(out, "\"/>")?;
    }
    writeln!(out, "</g>")
}

fn put_fault(out: &mut impl Write, fault: &Fault) -> io::Result<()> {
    let place = fault.place();
    writeln!(out, "<g id=\"f\">")?;
    for class in ["edge", "fault"] {
        writeln!(out, "{} class=\"{class}\"><title>{fault}</title></circle>", Ring::of(place))?;
    }
    let rim = Ring(RIM, place);
    writeln!(out, "{rim} stroke-dasharray=\"{} 300000\" class=\"fault\"/>\n</g>", rim.dash())
}

fn put_row(out: &mut impl Write, number: usize, entry: &Entry) -> io::Result<()> {
    let slot = entry.slot;
    let kind = ["DEL", "SEQ", "PRG", "USR", "REL"].get(usize::from(slot[2] % 64)).unwrap_or(&"???");
    let open = if entry.is_closed() { "" } else { "*" };
    let locked = if slot[2] & 0x40 != 0 { "&lt;" } else { "" };
    let (look, count) = (Look(number), u16::from_le_bytes([slot[30], slot[31]]));
    write!(out, "<tr><td><i class=\"{look}\"></i></td><td>{count}</td><td>")?;
    let (name, signs) = (Html(unpadded(&slot[5..21])), Signs(unpadded(&slot[5..21])));
    write!(out, "<a href=\"#f{number}\">{name}</a><bdi>{signs}</bdi></td><td>{open}{kind}{locked}</td><td>")?;
    match entry.records() {
        Some((length, records)) => writeln!(out, "{length}</td><td>{records}</td></tr>"),
        None => writeln!(out, "</td><td></td></tr>"),
    }
}

/// What a verdict says, as the beginning of a sentence.
fn sentence(fault: &Fault) -> String {
    let (text, place) = (fault.to_string(), fault.place());
    match text.split(' ').next().unwrap_or("") {
        "BADLINK" => format!("A link in sector {place} leads nowhere; "),
        "LOOP" => format!("A chain of sectors comes back to sector {place}; "),
        "OWNEDTWICE" => format!("Sector {place} has more than one owner; "),
        "BADTYPE" => format!("An entry in sector {place} has an unknown type; "),
        "UNCLOSED" => format!("A file with its entry in sector {place} was never closed; "),
        "BADSIDE" => format!("A relative file's side sectors are wrong at sector {place}; "),
        "BADLENGTH" => format!("An entry in sector {place} has a record length of 0 or 255; "),
        "COUNTWRONG" => format!("An entry in sector {place} has a wrong block count; "),
        _ => format!("The map of free sectors is wrong at sector {place}; "),
    }
}

fn put_page(out: &mut impl Write, drawing: &Drawing, found: &Result<(), Fault>) -> io::Result<()> {
    let map = drawing.map;
    let name = Html(unpadded(&map[0x90..0xA0]));
    let signs = Signs(unpadded(&map[0x90..0xA0]));
    let (class, verdict, sentence) = match found {
        Ok(()) => ("good", String::from("OK"), String::from("Sound: ")),
        Err(fault) => ("bad", fault.to_string(), sentence(fault)),
    };
    write!(out, "<!DOCTYPE html>\n<html lang=\"en\">\n<meta charset=\"utf-8\">\n")?;
    write!(out, "<meta name=\"viewport\" content=\"width=device-width,initial-scale=1\">\n<title>{name}</title>\n<style>{STYLE}")?;
    for track in 1..=35 {
        let ring = Ring::of(Place { track, sector: 0 });
        write!(out, "[r=\"{}\"]{{stroke-dasharray:{} 300000}}", ring.0, ring.dash())?;
    }
    for track in 1..=35 {
        let ring = Ring::of(Place { track, sector: 0 });
        write!(out, ".w3 [r=\"{}\"]{{stroke-dasharray:0 {} {} 300000}}", ring.0, ring.dash() / 4, ring.dash() / 2)?;
    }
    write!(out, "</style>\n<h1>{name}<bdi>{signs}</bdi></h1>\n<p>1541 disk, id {} {}</p>\n", Html(&map[0xA2..0xA4]), Html(&map[0xA5..0xA7]))?;
    let (files, free) = (drawing.entries.len(), drawing.blocks_free());
    write!(out, "<p class=\"{class}\"><b>{verdict}</b> {sentence}{files} files, {free} of 664 blocks free</p>\n<main>\n")?;
    write!(out, "<svg viewBox=\"-36600 -36600 73200 73200\" role=\"img\" aria-label=\"The disk as 35 rings of sectors, each in ")?;
    write!(out, "the colour of its file; the table lists the files\">\n<svg x=\"-6900\" y=\"-1200\" width=\"13800\" height=\"2400\" ")?;
    write!(out, "viewBox=\"-6900 -1200 13800 2400\"><text y=\"400\">{name}</text></svg>\n<g transform=\"rotate(-90)\" aria-hidden=\"true\">\n")?;
    put_system(out, drawing)?;
    for (number, entry) in drawing.entries.iter().enumerate() {
        put_entry(out, drawing, number, entry)?;
    }
    put_rest(out, drawing)?;
    if let Err(fault) = found {
        put_fault(out, fault)?;
    }
    out.write_all(LEGEND.as_bytes())?;
    for (number, entry) in drawing.entries.iter().enumerate() {
        put_row(out, number, entry)?;
    }
    out.write_all(END.as_bytes())
}

/// Prints the page of a disk, and gives the exit status: 1 where there is a fault. Without a directory nothing is printed.
pub fn picture(sectors: &[Sector], out: &mut impl Write) -> io::Result<u8> {
    let found = check(sectors);
    match Drawing::read(sectors) {
        Some(drawing) => put_page(out, &drawing, &found)?,
        None => {
            if let Err(fault) = &found {
                eprintln!("LAYOUT {fault}");
            }
        }
    }
    out.flush()?;
    Ok(u8::from(found.is_err()))
}
