//! The Rust implementation's answers, in the same numbers as the proved one's.

use crate::bridge::{Ask, BAND, FILL, Fetch, IDENT, LINE, SHEET, SURVEY, Stored, Words};
use crate::deck::{Copied, Deck, Kind, Lending, Lent, Source};
use crate::image::{Indexed, Refusal, Strip};
use crate::reader::{Reader, Refused, Summary};
use crate::survey::Fault;
use crate::turner::Turner;

/// All that a list of calls answers: the words of each answer, and the bytes of the buffers.
#[derive(Default, PartialEq)]
pub struct Told {
    pub words: Vec<u64>,
    pub buffers: Vec<u8>,
}

fn summary(answer: Result<Summary, Fault>) -> Words {
    match answer {
        Ok(s) => [
            1,
            u64::from(if s.vidicon { b'R' } else { b'M' }),
            u64::from(s.mission),
            u64::from(if s.corrected { b'P' } else { b'A' }),
            u64::from(s.bands),
            u64::from(s.lines),
        ],
        Err(f) => [5, f.number.into(), f.layer().into(), f.reel.into(), f.block.into(), 0],
    }
}

fn number<T>(which: u64, answer: Result<T, Refused>, value: impl FnOnce(T) -> u64) -> Words {
    match answer {
        Ok(n) => [which, value(n), 0, 0, 0, 0],
        Err(refused) => [5, refused.0.into(), 0, 0, 0, 0],
    }
}

fn refusal(refusal: Refusal) -> Told {
    Told { words: vec![6, refusal.number.into(), refusal.place as u64, 0, 0, 0], buffers: Vec::new() }
}

fn over<S: Source>(source: S, asks: &[Ask]) -> Told {
    let mut reader = Reader::new(source);
    let mut told = Told::default();
    for ask in asks {
        let at = told.buffers.len();
        told.buffers.resize(at + ask.room as usize, FILL);
        let buffer = &mut told.buffers[at..];
        let words = match ask.what {
            SURVEY => summary(reader.survey()),
            BAND => number(2, reader.band(ask.number), u64::from),
            IDENT => number(3, reader.ident(buffer), |n| n as u64),
            LINE => number(3, reader.line(ask.band, ask.number, buffer), |n| n as u64),
            SHEET => number(3, reader.sheet(ask.band, ask.kind, ask.number, buffer), |n| n as u64),
            _ => [4, reader.tally(), 0, 0, 0, 0],
        };
        told.words.extend(words);
    }
    told
}

fn both_ways<D: Lending>(deck: &D, asks: &[Ask], copied: bool) -> Told {
    if copied { over(Copied::new(deck), asks) } else { over(Lent(deck), asks) }
}

/// Plays calls to a fresh reader, which copies each record or looks at it where it lies.
pub fn play(stored: Stored, image: &[u8], asks: &[Ask], copied: bool) -> Told {
    match stored {
        Stored::Strip => match Strip::open(image) {
            Ok(deck) => both_ways(&deck, asks, copied),
            Err(refused) => refusal(refused),
        },
        Stored::Indexed => match Indexed::open(image) {
            Ok(deck) => both_ways(&deck, asks, copied),
            Err(refused) => refusal(refused),
        },
    }
}

fn kind(kind: Kind) -> [u64; 2] {
    match kind {
        Kind::Absent => [0, 0],
        Kind::Record(length) => [1, length as u64],
        Kind::Mark => [2, 0],
        Kind::Bad => [3, 0],
        Kind::Short => [4, 0],
    }
}

/// What a deck says of its reels and of blocks: the number of reels, then of each block its kind and what a fetch says.
pub fn shown<D: Deck>(deck: &D, fetches: &[Fetch]) -> Told {
    let mut told = Told { words: vec![deck.reels().into()], buffers: Vec::new() };
    for f in fetches {
        let at = told.buffers.len();
        told.buffers.resize(at + f.room as usize, FILL);
        told.words.extend(kind(deck.kind(f.reel, f.block)));
        told.words.extend(kind(deck.fetch(f.reel, f.block, &mut told.buffers[at..])));
    }
    told
}

/// The same through turners piled on a deck, two at most.
fn through<D: Deck>(deck: &D, turners: u8, fetches: &[Fetch]) -> Told {
    match turners {
        0 => shown(deck, fetches),
        1 => shown(&Turner::new(deck), fetches),
        _ => shown(&Turner::new(&Turner::new(deck)), fetches),
    }
}

/// Opens an image and asks it for blocks, through turners piled on it.
pub fn show(stored: Stored, turners: u8, image: &[u8], fetches: &[Fetch]) -> Told {
    match stored {
        Stored::Strip => match Strip::open(image) {
            Ok(deck) => through(&deck, turners, fetches),
            Err(refused) => refusal(refused),
        },
        Stored::Indexed => match Indexed::open(image) {
            Ok(deck) => through(&deck, turners, fetches),
            Err(refused) => refusal(refused),
        },
    }
}
