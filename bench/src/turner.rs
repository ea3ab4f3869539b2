//! The turner: an accepted scanner set in the other interleaving, on one reel; anything else as it is.

use crate::deck::{Copied, Deck, Kind, LONGEST_RECORD};
use crate::survey::{ANCILLARY, ANNOTATION, Accepted, DIRECTORY, Form, Group, HEADER, IMAGE, TRAILER, survey};

/// One block of the turned reel, and where it comes from.
#[derive(Clone, Copy)]
enum Plan {
    Mark,
    /// A body from the deck below, with a fresh number and a type.
    Body { from: (u32, u32), number: u32, kind: u8 },
    /// A header, which names this band when the bands stand one behind the other.
    Header { from: (u32, u32), band: u8 },
    /// A line of a band that is not present.
    Zero { number: u32 },
    Directory,
}

pub struct Turner<'d, D> {
    deck: &'d D,
    accepted: Option<Accepted>,
    plan: Vec<Plan>,
}

impl<'d, D: Deck> Turner<'d, D> {
    pub fn new(deck: &'d D) -> Self {
        let accepted = survey(&mut Copied::new(deck)).ok().filter(|a| a.layout.form != Form::Vidicon);
        let plan = accepted.as_ref().map(planned).unwrap_or_default();
        Turner { deck, accepted, plan }
    }

    fn planned(&self, reel: u32, block: u32) -> Option<Plan> {
        let place = (block as usize).checked_sub(1)?;
        if reel == 1 { self.plan.get(place).copied() } else { None }
    }
}

fn planned(accepted: &Accepted) -> Vec<Plan> {
    let mut plan = vec![Plan::Directory, Plan::Mark];
    match accepted.layout.form {
        Form::Sequential => {
            attributes(&mut plan, accepted, &accepted.groups[0], 0);
            let bands = accepted.layout.bands();
            for line in 1..=accepted.lines {
                for place in 0..bands {
                    let number = (line - 1) * bands + place + 1;
                    plan.push(match accepted.group(4 + place as u8) {
                        None => Plan::Zero { number },
                        Some(group) => Plan::Body { from: place_of(group, line), number, kind: IMAGE },
                    });
                }
            }
            trailers(&mut plan, &accepted.groups[0]);
        }
        _ => {
            let group = &accepted.groups[0];
            for band in &accepted.bands {
                attributes(&mut plan, accepted, group, *band);
                for line in 1..=accepted.lines {
                    let k = (line - 1) * accepted.layout.bands() + u32::from(band - 4) + 1;
                    plan.push(Plan::Body { from: place_of(group, k), number: line, kind: IMAGE });
                }
                trailers(&mut plan, group);
            }
        }
    }
    plan.push(Plan::Mark);
    plan
}

fn place_of(group: &Group, k: u32) -> (u32, u32) {
    group.place(k).expect("every line of an accepted set has a place")
}

fn attributes(plan: &mut Vec<Plan>, accepted: &Accepted, group: &Group, band: u8) {
    let (reel, block) = group.header;
    plan.push(Plan::Header { from: (reel, block), band });
    let ancillaries = accepted.layout.ancillaries();
    for i in 1..=ancillaries + accepted.layout.annotations() {
        let kind = if i <= ancillaries { ANCILLARY } else { ANNOTATION };
        plan.push(Plan::Body { from: (reel, block + i), number: 1 + i, kind });
    }
    plan.push(Plan::Mark);
}

fn trailers(plan: &mut Vec<Plan>, group: &Group) {
    plan.push(Plan::Mark);
    let (reel, block) = group.trailer;
    for i in 0..group.trailers {
        plan.push(Plan::Body { from: (reel, block + i), number: 1 + i, kind: TRAILER });
    }
    plan.push(Plan::Mark);
}

fn identify(record: &mut [u8], number: u32, kind: u8) {
    record[..4].copy_from_slice(&number.to_be_bytes());
    record[4] = 0;
    record[5] = kind;
}

impl<D: Deck> Deck for Turner<'_, D> {
    fn reels(&self) -> u32 {
        if self.accepted.is_some() { 1 } else { self.deck.reels() }
    }

    fn kind(&self, reel: u32, block: u32) -> Kind {
        let Some(accepted) = &self.accepted else { return self.deck.kind(reel, block) };
        match self.planned(reel, block) {
            None => Kind::Absent,
            Some(Plan::Mark) => Kind::Mark,
            Some(Plan::Zero { .. }) => Kind::Record(accepted.layout.record_length()),
            Some(Plan::Directory) => self.deck.kind(1, 1),
            Some(Plan::Header { from, .. } | Plan::Body { from, .. }) => self.deck.kind(from.0, from.1),
        }
    }

    fn fetch(&self, reel: u32, block: u32, buffer: &mut [u8]) -> Kind {
        let Some(accepted) = &self.accepted else { return self.deck.fetch(reel, block, buffer) };
        let interleaved = accepted.layout.form == Form::Interleaved;
        let Some(plan) = self.planned(reel, block) else { return Kind::Absent };
        match plan {
            Plan::Mark => Kind::Mark,
            Plan::Zero { number } => {
                let length = accepted.layout.record_length();
                let Some(record) = buffer.get_mut(..length) else { return Kind::Short };
                record.fill(0);
                identify(record, number, IMAGE);
                Kind::Record(length)
            }
            Plan::Directory => {
                let kind = self.deck.fetch(1, 1, buffer);
                if let Kind::Record(_) = kind {
                    identify(buffer, 1, DIRECTORY);
                    buffer[18] = b'1';
                    buffer[19] = b'1';
                    buffer[30] = if interleaved { 0 } else { 255 };
                }
                kind
            }
            Plan::Header { from, band } => {
                let kind = self.deck.fetch(from.0, from.1, buffer);
                if let Kind::Record(_) = kind {
                    identify(buffer, 1, HEADER);
                    if interleaved {
                        buffer[119] = 0;
                        buffer[120] = 0;
                        buffer[135] = b'0' + band;
                    } else {
                        buffer[119] = 255;
                        buffer[120] = accepted.layout.bands() as u8;
                        buffer[135] = b'0';
                        buffer[3585] = accepted.bands.iter().map(|b| (0x100u16 >> b) as u8).sum();
                    }
                }
                kind
            }
            Plan::Body { from, number, kind } => {
                let seen = self.deck.fetch(from.0, from.1, buffer);
                if let Kind::Record(_) = seen {
                    identify(buffer, number, kind);
                }
                seen
            }
        }
    }
}

/// The whole set that a deck shows, stored as a strip.
pub fn as_strip<D: Deck>(deck: &D) -> Vec<u8> {
    let mut strip = Vec::new();
    let mut buffer = vec![0; LONGEST_RECORD];
    for reel in 1..=deck.reels() {
        for block in 1.. {
            let kind = deck.fetch(reel, block, &mut buffer);
            debug_assert_eq!(kind, deck.kind(reel, block));
            match kind {
                Kind::Absent | Kind::Short => break,
                Kind::Mark => strip.extend(0u32.to_be_bytes()),
                Kind::Bad => strip.extend(u32::MAX.to_be_bytes()),
                Kind::Record(length) => {
                    let word = (length as u32).to_be_bytes();
                    strip.extend(word);
                    strip.extend(&buffer[..length]);
                    strip.extend(word);
                }
            }
        }
        strip.extend((u32::MAX - 1).to_be_bytes());
    }
    strip
}
