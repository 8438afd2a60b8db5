//! What `ledger extract IMAGE FOLDER` does, as plain Rust without proofs: the yardstick of extract.sh.
//! The names on the disk are of plain letters, and all of its files are whole.
use std::convert::TryInto;
use std::fs::{self, File, OpenOptions};
use std::io::Write;
use std::process::exit;

mod plain;

use plain::keeping::*;
use plain::messages::{Out, ROOM};
use plain::places::*;
use plain::sha256::digest;

const HEADING: &str = "number,file,name,text,type,closed,locked,blocks,found,length,bytes,fault,shared,sha256\n";
const KINDS: [(&str, &str); 5] = [("DEL", "del"), ("SEQ", "seq"), ("PRG", "prg"), ("USR", "usr"), ("REL", "rel")];

/// An entry of the directory, and the sectors that its links come to.
struct Entry {
    slot: [u8; 32],
    blocks: Vec<Place>,
    last: usize,
}

fn chain(sectors: &[Sector], first: Place) -> (Vec<Place>, usize) {
    let (mut places, mut place, mut seen) = (Vec::new(), first, [false; 683]);
    loop {
        places.push(place);
        seen[place.index()] = true;
        let sector = &sectors[place.index()];
        if sector[0] == 0 {
            return (places, sector[1] as usize);
        }
        place = Place::new(sector[0], sector[1]).expect("a link");
        assert!(!seen[place.index()], "LOOP");
    }
}

fn entries(sectors: &[Sector], directory: &[Place]) -> Vec<Entry> {
    let mut entries = Vec::new();
    for place in directory {
        for slot in sectors[place.index()].chunks_exact(32).filter(|slot| slot[2] != 0) {
            let slot: [u8; 32] = slot.try_into().unwrap();
            let (blocks, last) = match slot[3] {
                0 => (Vec::new(), 0),
                _ => chain(sectors, Place::new(slot[3], slot[4]).expect("a first block")),
            };
            entries.push(Entry { slot, blocks, last });
        }
    }
    entries
}

fn bytes_of(sectors: &[Sector], entry: &Entry, bytes: &mut Vec<u8>) {
    bytes.clear();
    let Some((end, front)) = entry.blocks.split_last() else { return };
    for place in front {
        bytes.extend_from_slice(&sectors[place.index()][2..]);
    }
    bytes.extend_from_slice(&sectors[end.index()][2..=entry.last.max(1)]);
}

fn made(folder: &str, name: &str) -> File {
    OpenOptions::new().write(true).create_new(true).open(format!("{folder}/{name}")).expect("a new file")
}

fn put_records(file: File, bytes: &[u8], length: usize) {
    let mut out = Out { inner: file, buffer: [0; ROOM], used: 0 };
    for (number, record) in (1..).zip(bytes.chunks_exact(length)) {
        put_line(&mut out, number, record);
    }
    out.flush();
}

fn main() {
    let words: Vec<String> = std::env::args().skip(1).collect();
    let [word, path, folder] = &words[..] else { exit(2) };
    assert!(word == "extract");
    let image = image_of(&mut locked(path, false));
    let sectors = image.as_chunks::<256>().0;
    let (directory, _) = chain(sectors, Place::new(18, 1).unwrap());
    let entries = entries(sectors, &directory);
    let mut owners = [0u8; 683];
    owners[Place::new(18, 0).unwrap().index()] = 1;
    for place in directory.iter().chain(entries.iter().flat_map(|entry| &entry.blocks)) {
        owners[place.index()] += 1;
    }
    assert!(owners.iter().all(|&count| count < 2), "OWNEDTWICE");
    fs::create_dir(folder).expect("a new folder");
    let (mut index, mut bytes) = (HEADING.to_string(), Vec::new());
    for (number, entry) in (1..).zip(&entries) {
        let slot = &entry.slot;
        let name: String = slot[5..21].iter().take_while(|&&byte| byte != 0xa0).map(|&byte| byte as char).collect();
        let (kind, ending) = KINDS[slot[2] as usize % 16];
        let file = format!("{number:02}-{name}.{ending}");
        bytes_of(sectors, entry, &mut bytes);
        made(folder, &file).write_all(&bytes).expect("written");
        let length = if kind == "REL" { slot[23].to_string() } else { String::new() };
        if kind == "REL" {
            put_records(made(folder, &format!("{number:02}-{name}.csv")), &bytes, slot[23] as usize);
        }
        let closed = if slot[2] < 128 { "no" } else { "yes" };
        let locked = if slot[2] & 64 == 0 { "no" } else { "yes" };
        let told = slot[30] as usize + 256 * slot[31] as usize;
        let (found, size) = (entry.blocks.len(), bytes.len());
        let sum: String = digest(&bytes).iter().map(|byte| format!("{byte:02x}")).collect();
        index += &format!("{number},\"{file}\",\"{name}\",\"{name}\",{kind},{closed},{locked},{told},{found},{length},{size},,,{sum}\n");
    }
    made(folder, "index.csv").write_all(index.as_bytes()).expect("written");
    println!("EXTRACTED");
}
