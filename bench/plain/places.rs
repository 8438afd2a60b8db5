//! Sectors of a 1541 disk and where they stand, for the plain programs.

pub const IMAGE_SIZE: usize = 174_848;
pub const SECTORS: usize = 683;
/// How many bytes of a block are data.
pub const DATA: usize = 254;
/// How many data blocks a side sector points to.
pub const POINTERS: usize = 120;

pub type Sector = [u8; 256];

#[derive(Clone, Copy, Debug, PartialEq)]
pub struct Place {
    pub track: u8,
    pub sector: u8,
}

pub const MAP: Place = Place { track: 18, sector: 0 };
pub const DIRECTORY: Place = Place { track: 18, sector: 1 };

/// For each number of a track how many sectors it has, 0 where there is no such track, and how many those below have.
const TRACKS: [(u8, u16); 256] = {
    let mut tracks = [(0, 0); 256];
    let mut below = 0;
    let mut track = 0;
    while track < 256 {
        let sectors = match track {
            1..=17 => 21,
            18..=24 => 19,
            25..=30 => 18,
            31..=35 => 17,
            _ => 0,
        };
        tracks[track] = (sectors, below);
        below += sectors as u16;
        track += 1;
    }
    tracks
};

/// How many sectors a track has, and 0 where there is no such track.
pub fn sectors_of(track: u8) -> u8 {
    TRACKS[track as usize].0
}

impl Place {
    pub fn new(track: u8, sector: u8) -> Option<Place> {
        (sector < sectors_of(track)).then_some(Place { track, sector })
    }

    /// Where the sector stands in an image, in sectors.
    pub fn index(self) -> usize {
        TRACKS[self.track as usize].1 as usize + self.sector as usize
    }

    pub fn bytes(self) -> [u8; 2] {
        [self.track, self.sector]
    }
}
