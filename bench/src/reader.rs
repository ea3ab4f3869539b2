//! The reader's six calls over any source of blocks.

use crate::deck::{Block, Source};
use crate::survey::{Accepted, Fault, Form, Group, survey};

/// Number of the first body byte, from 0: six bytes of identification stand before it.
pub const BODY: usize = 6;

/// A caller's refusal, by its number.
#[derive(Clone, Copy, PartialEq, Eq, Debug)]
pub struct Refused(pub u32);

#[derive(Clone, Copy, PartialEq, Eq, Debug)]
pub struct Summary {
    pub vidicon: bool,
    pub mission: u8,
    pub corrected: bool,
    pub bands: u32,
    pub lines: u32,
}

pub struct Reader<S> {
    source: S,
    accepted: Option<Accepted>,
    tally: u64,
}

impl<S: Source> Reader<S> {
    pub fn new(source: S) -> Self {
        Reader { source, accepted: None, tally: 0 }
    }

    pub fn survey(&mut self) -> Result<Summary, Fault> {
        let accepted = survey(&mut self.source)?;
        let summary = Summary {
            vidicon: accepted.layout.form == Form::Vidicon,
            mission: accepted.layout.mission,
            corrected: accepted.layout.corrected,
            bands: accepted.bands.len() as u32,
            lines: accepted.lines,
        };
        self.accepted = Some(accepted);
        Ok(summary)
    }

    pub fn accepted(&self) -> Result<&Accepted, Refused> {
        self.accepted.as_ref().ok_or(Refused(41))
    }

    pub fn band(&self, k: u32) -> Result<u8, Refused> {
        let place = k.checked_sub(1).ok_or(Refused(42));
        let bands = &self.accepted()?.bands;
        bands.get(place? as usize).copied().ok_or(Refused(42))
    }

    pub fn ident(&self, buffer: &mut [u8]) -> Result<usize, Refused> {
        let ident = &self.accepted()?.ident;
        buffer.first_chunk_mut::<18>().ok_or(Refused(45))?.copy_from_slice(ident);
        Ok(18)
    }

    pub fn line(&mut self, code: u8, line: u32, buffer: &mut [u8]) -> Result<usize, Refused> {
        let accepted = self.accepted.as_ref().ok_or(Refused(41))?;
        let group = accepted.group(code).ok_or(Refused(42))?;
        if line < 1 || line > accepted.lines {
            return Err(Refused(43));
        }
        let k = match accepted.layout.form {
            Form::Interleaved => (line - 1) * accepted.layout.bands() + u32::from(code - 4) + 1,
            _ => line,
        };
        let length = accepted.layout.record_length() - BODY;
        let buffer = buffer.get_mut(..length).ok_or(Refused(45))?;
        let (reel, block) = group.place(k).ok_or(Refused(46))?;
        match self.source.look(reel, block) {
            Some(Block::Record(record)) => buffer.copy_from_slice(&record[BODY..]),
            _ => return Err(Refused(46)),
        }
        self.tally = (self.tally + 1).min(i64::MAX as u64);
        Ok(length)
    }

    pub fn sheet(&mut self, code: u8, kind: u8, index: u32, buffer: &mut [u8]) -> Result<usize, Refused> {
        let accepted = self.accepted.as_ref().ok_or(Refused(41))?;
        let group = accepted.group(code).ok_or(Refused(42))?;
        let (reel, block) = sheet_place(accepted, group, kind, index).ok_or(Refused(44))?;
        let length = accepted.layout.record_length() - BODY;
        let buffer = buffer.get_mut(..length).ok_or(Refused(45))?;
        if let Some(Block::Record(record)) = self.source.look(reel, block) {
            buffer.copy_from_slice(&record[BODY..]);
        }
        Ok(length)
    }

    pub fn tally(&self) -> u64 {
        self.tally
    }
}

/// Where the record of a sheet stands.
pub fn sheet_place(accepted: &Accepted, group: &Group, kind: u8, index: u32) -> Option<(u32, u32)> {
    let (ancillaries, annotations) = (accepted.layout.ancillaries(), accepted.layout.annotations());
    let (count, (reel, before)) = match kind {
        1 => (1, (group.header.0, group.header.1)),
        2 => (ancillaries, (group.header.0, group.header.1 + 1)),
        3 => (annotations, (group.header.0, group.header.1 + 1 + ancillaries)),
        4 => (group.trailers, group.trailer),
        _ => return None,
    };
    (1..=count).contains(&index).then(|| (reel, before + index - 1))
}
