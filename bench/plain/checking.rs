//! The check of a disk in plain Rust. An image is a slice of sectors, and no sector is copied. What is judged: chains,
//! owners, side sectors to the last byte, block counts and the map.
use super::places::*;
use std::fmt;

/// The owner of a sector: nobody, the map and the directory, or an entry's number and 2.
const NOBODY: u8 = 0;
const SYSTEM: u8 = 1;

pub enum Fault {
    BadLink(Place),
    Loop(Place),
    OwnedTwice(Place),
    BadType(Place),
    Unclosed(Place),
    BadSide(Place),
    BadLength(Place),
    CountWrong(Place),
    MapWrong(Place),
}

impl Fault {
    /// Where it holds.
    pub fn place(&self) -> Place {
        match *self {
            Fault::BadLink(place)
            | Fault::Loop(place)
            | Fault::OwnedTwice(place)
            | Fault::BadType(place)
            | Fault::Unclosed(place)
            | Fault::BadSide(place)
            | Fault::BadLength(place)
            | Fault::CountWrong(place)
            | Fault::MapWrong(place) => place,
        }
    }
}

impl fmt::Display for Fault {
    fn fmt(&self, f: &mut fmt::Formatter) -> fmt::Result {
        let (name, place) = match self {
            Fault::BadLink(p) => ("BADLINK", p),
            Fault::Loop(p) => ("LOOP", p),
            Fault::OwnedTwice(p) => ("OWNEDTWICE", p),
            Fault::BadType(p) => ("BADTYPE", p),
            Fault::Unclosed(p) => ("UNCLOSED", p),
            Fault::BadSide(p) => ("BADSIDE", p),
            Fault::BadLength(p) => ("BADLENGTH", p),
            Fault::CountWrong(p) => ("COUNTWRONG", p),
            Fault::MapWrong(p) => ("MAPWRONG", p),
        };
        write!(f, "{name} {}/{}", place.track, place.sector)
    }
}

/// An image, and who owns its sectors as far as the check has come.
struct Disk<'a> {
    sectors: &'a [Sector],
    owners: [u8; SECTORS],
}

impl<'a> Disk<'a> {
    fn sector(&self, place: Place) -> &'a Sector {
        &self.sectors[place.index()]
    }

    /// Follows the directory from 18/1, and gives its sectors to the system.
    fn directory(&mut self) -> Result<Vec<Place>, Fault> {
        self.owners[MAP.index()] = SYSTEM;
        let mut places = Vec::with_capacity(18);
        let mut at = DIRECTORY;
        loop {
            let owner = &mut self.owners[at.index()];
            if *owner == SYSTEM {
                return Err(Fault::Loop(at));
            }
            *owner = SYSTEM;
            places.push(at);
            let sector = self.sector(at);
            if sector[0] == 0 {
                return Ok(places);
            }
            match Place::new(sector[0], sector[1]) {
                Some(next) if next.track == 18 && next.sector != 0 => at = next,
                _ => return Err(Fault::BadLink(at)),
            }
        }
    }

    /// Follows the chain from a place, and gives its sectors to this owner.
    fn walk(&mut self, first: Place, number: u8, blocks: &mut Vec<[u8; 2]>) -> Result<(), Fault> {
        blocks.clear();
        let mut at = first;
        loop {
            let index = at.index();
            let owner = &mut self.owners[index];
            if *owner != NOBODY {
                return Err(if *owner == number { Fault::Loop(at) } else { Fault::OwnedTwice(at) });
            }
            *owner = number;
            blocks.push([at.track, at.sector]);
            let sector = &self.sectors[index];
            if sector[0] == 0 {
                return Ok(());
            }
            match Place::new(sector[0], sector[1]) {
                Some(next) => at = next,
                None => return Err(Fault::BadLink(at)),
            }
        }
    }

    /// Follows the side sectors of a relative file with these blocks, and judges and claims each.
    fn sides(&mut self, slot: &Slot, number: u8, blocks: &[[u8; 2]]) -> Result<Vec<Place>, Fault> {
        let wanted = blocks.len().div_ceil(POINTERS);
        let mut sides = Vec::with_capacity(6);
        let mut next = Place::new(slot.bytes[21], slot.bytes[22]);
        let mut before = slot.sector;
        for (count, pointers) in blocks.chunks(POINTERS).enumerate() {
            let side = next.ok_or(Fault::BadSide(before))?;
            let sector = self.sector(side);
            let pointers = pointers.as_flattened();
            if sector[2] as usize != count || sector[3] != slot.bytes[23] || !sector[16..].starts_with(pointers) {
                return Err(Fault::BadSide(side));
            }
            let owner = &mut self.owners[side.index()];
            if *owner != NOBODY {
                return Err(Fault::OwnedTwice(side));
            }
            *owner = number;
            sides.push(side);
            if count + 1 < wanted {
                next = Place::new(sector[0], sector[1]);
                before = side;
            }
        }
        Ok(sides)
    }

    /// Judges the bytes of the side sectors that a sound disk leaves open, and the block count.
    fn exact(&self, slot: &Slot, blocks: &[[u8; 2]], sides: &[Place]) -> Result<(), Fault> {
        let mut list = [0; 12];
        for (two, side) in list.chunks_mut(2).zip(sides) {
            two.copy_from_slice(&[side.track, side.sector]);
        }
        for (number, &side) in sides.iter().enumerate() {
            let used = (blocks.len() - POINTERS * number).min(POINTERS);
            let link = match sides.get(number + 1) {
                Some(next) => [next.track, next.sector],
                None => [0, 15 + 2 * used as u8],
            };
            let sector = self.sector(side);
            let right = sector[..2] == link && sector[4..16] == list && sector[16 + 2 * used..].iter().all(|&byte| byte == 0);
            if !right {
                return Err(Fault::BadSide(side));
            }
        }
        if u16::from_le_bytes([slot.bytes[30], slot.bytes[31]]) as usize != blocks.len() + sides.len() {
            return Err(Fault::CountWrong(slot.sector));
        }
        Ok(())
    }

    /// The file of one used slot. A fault that a sound disk may have is kept in `unclean`, since another is to be told
    /// before it.
    fn file(&mut self, slot: &Slot, number: u8, blocks: &mut Vec<[u8; 2]>, unclean: &mut Option<Fault>) -> Result<(), Fault> {
        let kind = slot.bytes[2];
        if kind < 128 {
            return Err(Fault::Unclosed(slot.sector));
        }
        let relative = match kind & !0x40 {
            0x80..=0x83 => false,
            0x84 => true,
            _ => return Err(Fault::BadType(slot.sector)),
        };
        if !relative && slot.bytes[3] == 0 {
            return Ok(());
        }
        if relative && (slot.bytes[23] == 0 || slot.bytes[23] == 255) {
            return Err(Fault::BadLength(slot.sector));
        }
        let first = Place::new(slot.bytes[3], slot.bytes[4]).ok_or(Fault::BadLink(slot.sector))?;
        self.walk(first, number, blocks)?;
        if relative {
            let sides = self.sides(slot, number, blocks)?;
            self.listed(&sides)?;
            if unclean.is_none() {
                *unclean = self.exact(slot, blocks, &sides).err();
            }
        }
        Ok(())
    }

    /// Judges whether each side sector lists all.
    fn listed(&self, sides: &[Place]) -> Result<(), Fault> {
        for &side in sides {
            let listed = self.sector(side)[4..].chunks(2);
            if !sides.iter().zip(listed).all(|(place, two)| two == [place.track, place.sector]) {
                return Err(Fault::BadSide(side));
            }
        }
        Ok(())
    }

    /// Judges the map: each bit, and the count of each track.
    fn map(&self) -> Result<(), Fault> {
        let bytes = self.sector(MAP);
        let mut owners = &self.owners[..];
        for track in 1..=35u8 {
            let (here, rest) = owners.split_at(sectors_of(track) as usize);
            owners = rest;
            let free = here.iter().enumerate().fold(0, |bits, (sector, &owner)| bits | u32::from(owner == NOBODY) << sector);
            let four = &bytes[4 * track as usize..][..4];
            let told = u32::from_le_bytes([four[1], four[2], four[3], 0]) & ((1 << here.len()) - 1);
            if told != free {
                let sector = (told ^ free).trailing_zeros() as u8;
                return Err(Fault::MapWrong(Place { track, sector }));
            }
            if u32::from(four[0]) != free.count_ones() {
                return Err(Fault::MapWrong(MAP));
            }
        }
        Ok(())
    }
}

/// A used slot of the directory, and its sector.
struct Slot<'a> {
    sector: Place,
    bytes: &'a [u8],
}

pub fn check(sectors: &[Sector]) -> Result<(), Fault> {
    let mut disk = Disk { sectors, owners: [NOBODY; SECTORS] };
    let mut blocks = Vec::with_capacity(SECTORS);
    let mut unclean = None;
    let mut number = SYSTEM;
    for sector in disk.directory()? {
        for bytes in disk.sector(sector).chunks(32) {
            if bytes[2] != 0 {
                number += 1;
                disk.file(&Slot { sector, bytes }, number, &mut blocks, &mut unclean)?;
            }
        }
    }
    match unclean {
        Some(fault) => Err(fault),
        None => disk.map(),
    }
}
