//! The survey: the layout of a set, read from its first block to its last by descent. It stops at the first fault.

use crate::deck::{Block, Source};

pub const DIRECTORY: u8 = 0o011;
pub const HEADER: u8 = 0o022;
pub const ANCILLARY: u8 = 0o044;
pub const ANNOTATION: u8 = 0o333;
pub const IMAGE: u8 = 0o355;
pub const TRAILER: u8 = 0o366;
pub const DIRECTORY_LENGTH: usize = 360;
const MOST_LINES: u32 = 8_192;

#[derive(Clone, Copy, PartialEq, Eq, Debug)]
pub struct Fault {
    pub number: u32,
    pub reel: u32,
    pub block: u32,
}

impl Fault {
    pub fn layer(&self) -> u32 {
        self.number / 10
    }
}

#[derive(Clone, Copy, PartialEq, Eq, Debug)]
pub enum Form {
    Interleaved,
    Sequential,
    Vidicon,
}

/// What the directory says of the whole set.
#[derive(Clone, Copy, Debug)]
pub struct Layout {
    pub form: Form,
    pub mission: u8,
    pub corrected: bool,
}

impl Layout {
    pub fn record_length(&self) -> usize {
        if self.form == Form::Vidicon { 5_388 } else { 3_596 }
    }

    /// The scanner's bands of this mission, present or not.
    pub fn bands(&self) -> u32 {
        if self.mission == 3 { 5 } else { 4 }
    }

    pub fn ancillaries(&self) -> u32 {
        match (self.corrected, self.form) {
            (true, _) => 0,
            (false, Form::Vidicon) => 30,
            (false, _) => 26,
        }
    }

    pub fn annotations(&self) -> u32 {
        if self.corrected { 1 } else { 2 }
    }

    fn order(&self) -> u8 {
        if self.form == Form::Interleaved { 255 } else { 0 }
    }
}

/// Image blocks that stand behind each other on one reel.
#[derive(Clone, Copy, Debug)]
pub struct Run {
    pub reel: u32,
    pub block: u32,
    pub count: u32,
}

#[derive(Clone, Debug)]
pub struct Group {
    /// Bit 4 to 8 for a scanner's band; the letter for the vidicon.
    pub band: u8,
    pub header: (u32, u32),
    pub trailer: (u32, u32),
    pub trailers: u32,
    pub runs: Vec<Run>,
    pub count: u32,
}

impl Group {
    /// Where image block k stands.
    pub fn place(&self, mut k: u32) -> Option<(u32, u32)> {
        k = k.checked_sub(1)?;
        for run in &self.runs {
            if k < run.count {
                return Some((run.reel, run.block + k));
            }
            k -= run.count;
        }
        None
    }
}

#[derive(Clone, Debug)]
pub struct Accepted {
    pub layout: Layout,
    pub ident: [u8; 18],
    pub bands: Vec<u8>,
    pub lines: u32,
    pub groups: Vec<Group>,
}

impl Accepted {
    /// The group that has this band's lines and sheets.
    pub fn group(&self, code: u8) -> Option<&Group> {
        if !self.bands.contains(&code) {
            return None;
        }
        match self.layout.form {
            Form::Sequential => self.groups.iter().find(|g| g.band == code),
            _ => self.groups.first(),
        }
    }
}

/// Byte n of a record, counted from 1.
fn byte(record: &[u8], n: usize) -> u8 {
    record[n - 1]
}

fn half(record: &[u8], n: usize) -> u32 {
    u32::from(byte(record, n)) * 256 + u32::from(byte(record, n + 1))
}

/// Length, byte 5, type and number of a record, in this order.
fn identified(record: &[u8], length: usize, kind: u8, number: u32) -> Result<(), u32> {
    if record.len() != length {
        Err(23)
    } else if record[4] != 0 {
        Err(24)
    } else if record[5] != kind {
        Err(25)
    } else if record[..4] != number.to_be_bytes() {
        Err(26)
    } else {
        Ok(())
    }
}

fn first_directory(d: &[u8], reels: u32) -> Result<Layout, u32> {
    let mission = match byte(d, 8) {
        m @ b'1'..=b'3' => m - b'0',
        _ => return Err(31),
    };
    let corrected = match &d[9..11] {
        b"CP" => true,
        b"CA" => false,
        _ => return Err(31),
    };
    let form = match (byte(d, 9), byte(d, 31)) {
        (b'M', 0) => Form::Sequential,
        (b'M', 255) => Form::Interleaved,
        (b'R', 0) if mission == 3 => Form::Vidicon,
        _ => return Err(31),
    };
    let layout = Layout { form, mission, corrected };
    let good = byte(d, 7) == b'L'
        && byte(d, 19) == b'1'
        && u32::from(byte(d, 20)) == 48 + reels
        && d[20..26] == *b"      "
        && byte(d, 30) == IMAGE
        && half(d, 32) as usize == layout.record_length();
    if good { Ok(layout) } else { Err(31) }
}

fn later_directory(d: &[u8], first: &[u8], reel: u32) -> Result<(), u32> {
    if d[..18] != first[..18] || d[19..] != first[19..] {
        Err(32)
    } else if u32::from(byte(d, 19)) != 48 + reel {
        Err(31)
    } else {
        Ok(())
    }
}

struct Header {
    band: u8,
    present: u8,
    trailers: u32,
}

fn header(h: &[u8], layout: &Layout, last_band: u8) -> Result<Header, u32> {
    let interleaved = layout.form == Form::Interleaved;
    if half(h, 101) != layout.annotations()
        || half(h, 105) != layout.ancillaries()
        || byte(h, 120) != layout.order()
        || u32::from(byte(h, 121)) != if interleaved { layout.bands() } else { 0 }
    {
        return Err(33);
    }
    let band = byte(h, 136);
    let highest = b'3' + layout.bands() as u8;
    let fits = match layout.form {
        Form::Interleaved => band == b'0',
        Form::Sequential => (b'4'..=highest).contains(&band) && band - b'0' > last_band,
        Form::Vidicon => (b'A'..=b'D').contains(&band),
    };
    if !fits {
        return Err(34);
    }
    let trailers = half(h, 144);
    if !(1..=5).contains(&trailers) {
        return Err(33);
    }
    let present = byte(h, 3586);
    if interleaved && (present == 0 || present > 31 || (present & 1 == 1 && layout.mission != 3)) {
        return Err(34);
    }
    let band = if layout.form == Form::Vidicon { band } else { band - b'0' };
    Ok(Header { band, present, trailers })
}

/// No byte has a bit, looked at by pieces that the machine takes at once.
fn all_zero(bytes: &[u8]) -> bool {
    bytes.chunks(256).all(|piece| piece.iter().fold(0, |all, b| all | b) == 0)
}

/// Whether the bits of byte 3586 have this band.
fn has(present: u8, band: u32) -> bool {
    present & (0x100 >> band) as u8 != 0
}

/// The survey's place on the tape.
struct Walk<'s, S> {
    source: &'s mut S,
    reels: u32,
    reel: u32,
    block: u32,
}

impl<S: Source> Walk<'_, S> {
    fn fault<T>(&self, number: u32) -> Result<T, Fault> {
        Err(Fault { number, reel: self.reel, block: self.block })
    }

    /// Hands the block here to a judge, and goes on behind it where the judge has no fault.
    fn take<T>(&mut self, judge: impl FnOnce(Block<'_>) -> Result<T, u32>) -> Result<T, Fault> {
        let answer = match self.source.look(self.reel, self.block) {
            None => Err(11),
            Some(block) => judge(block),
        };
        match answer {
            Ok(value) => {
                self.block += 1;
                Ok(value)
            }
            Err(number) => self.fault(number),
        }
    }

    fn record<T>(&mut self, judge: impl FnOnce(&[u8]) -> Result<T, u32>) -> Result<T, Fault> {
        self.take(|block| match block {
            Block::Record(record) => judge(record),
            Block::Mark => Err(21),
            Block::Bad => Err(12),
        })
    }

    fn mark(&mut self) -> Result<(), Fault> {
        self.take(|block| match block {
            Block::Record(_) => Err(22),
            Block::Mark => Ok(()),
            Block::Bad => Err(12),
        })
    }

    /// No block may stand here: the reel is over.
    fn over(&mut self) -> Result<(), Fault> {
        match self.source.look(self.reel, self.block) {
            None => Ok(()),
            Some(_) => self.fault(38),
        }
    }

    fn next_reel(&mut self, directory: &[u8]) -> Result<(), Fault> {
        self.over()?;
        self.reel += 1;
        self.block = 1;
        let reel = self.reel;
        self.record(|record| {
            identified(record, DIRECTORY_LENGTH, DIRECTORY, 1)?;
            later_directory(record, directory, reel)
        })?;
        self.mark()
    }

    fn place(&self) -> (u32, u32) {
        (self.reel, self.block)
    }
}

/// One block of an image file or what can stand in its place.
enum Seen {
    Line,
    Mark,
    Trailer,
}

/// Where in an image file the survey stands.
#[derive(Clone, Copy, PartialEq)]
enum Stand {
    First,
    Further,
    Broken,
}

struct ImageFile<'l> {
    layout: &'l Layout,
    present: u8,
    blocks: u32,
}

impl ImageFile<'_> {
    fn per_line(&self) -> u32 {
        if self.layout.form == Form::Interleaved { self.layout.bands() } else { 1 }
    }

    /// The band at the next block is one that is not present.
    fn missing(&self) -> bool {
        self.layout.form == Form::Interleaved && !has(self.present, 4 + self.blocks % self.layout.bands())
    }

    fn judge(&mut self, stand: Stand, block: Block<'_>) -> Result<Seen, u32> {
        match block {
            Block::Mark if stand == Stand::Further => return Ok(Seen::Mark),
            Block::Mark => return Err(21),
            Block::Bad => {
                self.room()?;
                if self.missing() {
                    return Err(36);
                }
            }
            Block::Record(record) => {
                let length = self.layout.record_length();
                if stand == Stand::Broken && record.len() == length && record[4] == 0 && record[5] == TRAILER {
                    identified(record, length, TRAILER, 1)?;
                    return Ok(Seen::Trailer);
                }
                identified(record, length, IMAGE, self.blocks + 1)?;
                self.room()?;
                if self.missing() && !all_zero(&record[6..]) {
                    return Err(36);
                }
            }
        }
        self.blocks += 1;
        Ok(Seen::Line)
    }

    fn room(&self) -> Result<(), u32> {
        if self.blocks < MOST_LINES * self.per_line() { Ok(()) } else { Err(35) }
    }
}

pub fn survey<S: Source>(source: &mut S) -> Result<Accepted, Fault> {
    let reels = source.reels();
    let mut walk = Walk { source, reels, reel: 1, block: 1 };
    let mut directory = [0; DIRECTORY_LENGTH];
    let layout = walk.record(|record| {
        identified(record, DIRECTORY_LENGTH, DIRECTORY, 1)?;
        directory.copy_from_slice(record);
        first_directory(record, reels)
    })?;
    walk.mark()?;

    let mut groups: Vec<Group> = Vec::with_capacity(5);
    let present = loop {
        let last_band = groups.last().map_or(0, |g| g.band);
        let first_lines = groups.first().map(|g| g.count);
        let (group, bits) = group(&mut walk, &layout, &directory, last_band, first_lines)?;
        groups.push(group);
        // Behind the mark of a trailer file.
        let sequential = layout.form == Form::Sequential;
        if sequential && matches!(walk.source.look(walk.reel, walk.block), Some(Block::Record(_))) {
            continue;
        }
        let early = !sequential && walk.reel < walk.reels;
        walk.take(|block| match block {
            Block::Record(_) => Err(22),
            Block::Mark if early => Err(37),
            Block::Mark => Ok(()),
            Block::Bad => Err(12),
        })?;
        if walk.reel == walk.reels {
            break bits;
        }
        walk.next_reel(&directory)?;
    };
    if reels > 1 {
        walk.mark()?;
    }
    walk.over()?;

    let bands = match layout.form {
        Form::Interleaved => (4..=8).filter(|b| has(present, *b)).map(|b| b as u8).collect(),
        _ => groups.iter().map(|g| g.band).collect(),
    };
    let lines = match layout.form {
        Form::Interleaved => groups[0].count / layout.bands(),
        _ => groups[0].count,
    };
    let ident = directory[34..52].try_into().expect("18 bytes");
    Ok(Accepted { layout, ident, bands, lines, groups })
}

fn group<S: Source>(
    walk: &mut Walk<'_, S>,
    layout: &Layout,
    directory: &[u8],
    last_band: u8,
    first_lines: Option<u32>,
) -> Result<(Group, u8), Fault> {
    let length = layout.record_length();
    let place = walk.place();
    let head = walk.record(|record| {
        identified(record, length, HEADER, 1)?;
        header(record, layout, last_band)
    })?;
    let mut number = 1;
    for (kind, count) in [(ANCILLARY, layout.ancillaries()), (ANNOTATION, layout.annotations())] {
        for _ in 0..count {
            number += 1;
            walk.record(|record| identified(record, length, kind, number))?;
        }
    }
    walk.mark()?;

    let mut file = ImageFile { layout, present: head.present, blocks: 0 };
    let mut runs: Vec<Run> = Vec::with_capacity(walk.reels as usize);
    let mut stand = Stand::First;
    let trailer = loop {
        let here = walk.place();
        match walk.take(|block| file.judge(stand, block))? {
            Seen::Line => {
                match runs.last_mut() {
                    Some(run) if run.reel == here.0 => run.count += 1,
                    _ => runs.push(Run { reel: here.0, block: here.1, count: 1 }),
                }
                stand = Stand::Further;
            }
            Seen::Trailer => {
                walk.block -= 1;
                break here;
            }
            Seen::Mark => {
                let here = walk.place();
                if !matches!(walk.source.look(here.0, here.1), Some(Block::Mark)) {
                    walk.record(|record| identified(record, length, TRAILER, 1))?;
                    walk.block -= 1;
                    break here;
                }
                if walk.reel == walk.reels {
                    return walk.fault(37);
                }
                walk.mark()?;
                walk.next_reel(directory)?;
                stand = Stand::Broken;
            }
        }
    };
    let blocks = file.blocks;
    let whole = match layout.form {
        Form::Interleaved => blocks % layout.bands() == 0,
        _ => first_lines.is_none_or(|lines| lines == blocks),
    };
    if !whole {
        return walk.fault(35);
    }
    walk.block += 1;
    for number in 2..=head.trailers {
        walk.record(|record| identified(record, length, TRAILER, number))?;
    }
    walk.mark()?;
    let group = Group { band: head.band, header: place, trailer, trailers: head.trailers, runs, count: blocks };
    Ok((group, head.present))
}
