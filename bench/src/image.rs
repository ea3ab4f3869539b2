//! The two stored images.

use crate::deck::{Block, LONGEST_RECORD, Lending};

const BAD: u32 = u32::MAX;
const END: u32 = u32::MAX - 1;
const MOST_REELS: usize = 9;
const MOST_BLOCKS: usize = 65_535;

/// Why an image does not open, and at which byte.
#[derive(Clone, Copy, PartialEq, Eq, Debug)]
pub struct Refusal {
    pub number: u32,
    pub place: usize,
}

fn refuse<T>(number: u32, place: usize) -> Result<T, Refusal> {
    Err(Refusal { number, place })
}

fn word(bytes: &[u8], at: usize) -> Option<u32> {
    bytes.get(at..)?.first_chunk().map(|w| u32::from_be_bytes(*w))
}

fn legal(kind: u32) -> bool {
    kind == BAD || kind as usize <= LONGEST_RECORD
}

fn block(bytes: &[u8], at: usize, kind: u32) -> Block<'_> {
    match kind {
        0 => Block::Mark,
        BAD => Block::Bad,
        length => Block::Record(&bytes[at..at + length as usize]),
    }
}

/// A strip, with an index made when it is opened.
pub struct Strip<'a> {
    bytes: &'a [u8],
    /// Place of the first byte and kind word of each block.
    entries: Vec<(usize, u32)>,
    /// For each reel the number of its first entry, and behind the last the number of all.
    starts: Vec<usize>,
}

impl<'a> Strip<'a> {
    pub fn open(bytes: &'a [u8]) -> Result<Self, Refusal> {
        let mut entries = Vec::new();
        let mut starts = vec![0];
        let mut at = 0;
        loop {
            let reel = starts.len() - 1;
            let fresh = entries.len() == starts[reel];
            if reel >= 1 && fresh && at == bytes.len() {
                return Ok(Strip { bytes, entries, starts });
            }
            if reel == MOST_REELS {
                return refuse(3, at);
            }
            let Some(kind) = word(bytes, at) else { return refuse(1, at) };
            if kind == END {
                starts.push(entries.len());
                at += 4;
                continue;
            }
            if !legal(kind) {
                return refuse(2, at);
            }
            if entries.len() - starts[reel] == MOST_BLOCKS {
                return refuse(3, at);
            }
            entries.push((at + 4, kind));
            if matches!(kind, 0 | BAD) {
                at += 4;
                continue;
            }
            let closing = at + 4 + kind as usize;
            match word(bytes, closing) {
                None => return refuse(1, at),
                Some(again) if again != kind => return refuse(2, closing),
                Some(_) => at = closing + 4,
            }
        }
    }
}

impl Lending for Strip<'_> {
    fn reels(&self) -> u32 {
        (self.starts.len() - 1) as u32
    }

    fn block(&self, reel: u32, block: u32) -> Option<Block<'_>> {
        let reel = (reel as usize).checked_sub(1)?;
        let place = (block as usize).checked_sub(1)?;
        let reel = &self.entries[*self.starts.get(reel)?..*self.starts.get(reel + 1)?];
        let &(at, kind) = reel.get(place)?;
        Some(self::block(self.bytes, at, kind))
    }
}

/// An indexed image: its own header is the index.
pub struct Indexed<'a> {
    bytes: &'a [u8],
    /// For each reel the number of its first entry, and behind the last the number of all.
    starts: Vec<usize>,
    first: usize,
}

impl<'a> Indexed<'a> {
    pub fn open(bytes: &'a [u8]) -> Result<Self, Refusal> {
        let reels = match word(bytes, 0) {
            None => return refuse(1, 0),
            Some(0) => return refuse(2, 0),
            Some(n) if n as usize > MOST_REELS => return refuse(3, 0),
            Some(n) => n as usize,
        };
        let mut starts = vec![0];
        for reel in 1..=reels {
            match word(bytes, 4 * reel) {
                None => return refuse(1, 4 * reel),
                Some(n) if n as usize > MOST_BLOCKS => return refuse(3, 4 * reel),
                Some(n) => starts.push(starts[reel - 1] + n as usize),
            }
        }
        let first = 4 + 4 * reels;
        let end = first + 8 * starts[reels];
        for at in (first..end).step_by(8) {
            let Some(offset) = word(bytes, at) else { return refuse(1, at) };
            let at = at + 4;
            let Some(kind) = word(bytes, at) else { return refuse(1, at) };
            if !legal(kind) {
                return refuse(2, at);
            }
            if matches!(kind, 0 | BAD) {
                if offset != 0 {
                    return refuse(2, at);
                }
            } else if (offset as usize) < end || offset as usize + kind as usize > bytes.len() {
                return refuse(4, at);
            }
        }
        Ok(Indexed { bytes, starts, first })
    }
}

impl Lending for Indexed<'_> {
    fn reels(&self) -> u32 {
        (self.starts.len() - 1) as u32
    }

    fn block(&self, reel: u32, block: u32) -> Option<Block<'_>> {
        let reel = (reel as usize).checked_sub(1)?;
        let place = (block as usize).checked_sub(1)?;
        let (start, end) = (*self.starts.get(reel)?, *self.starts.get(reel + 1)?);
        if place >= end - start {
            return None;
        }
        let at = self.first + 8 * (start + place);
        let offset = word(self.bytes, at)? as usize;
        let kind = word(self.bytes, at + 4)?;
        Some(self::block(self.bytes, offset, kind))
    }
}
