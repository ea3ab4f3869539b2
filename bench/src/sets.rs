//! Tape sets to try: drawn whole, damaged, and stored in both ways.

use crate::random::Random;
use crate::survey::{ANCILLARY, ANNOTATION, DIRECTORY, Form, HEADER, IMAGE, Layout, TRAILER};

#[derive(Clone, PartialEq)]
pub enum Blk {
    Record(Vec<u8>),
    Mark,
    Bad,
}

pub type Set = Vec<Vec<Blk>>;

/// What a set is to be like.
#[derive(Clone, Debug)]
pub struct Recipe {
    pub layout: Layout,
    /// Codes of the bands present, rising.
    pub bands: Vec<u8>,
    pub lines: u32,
    /// At most so many reels; breaks fall at random places where one may, or evenly.
    pub reels: usize,
    pub even: bool,
    /// One line block in so many is bad; 0 for none.
    pub bad: usize,
}

impl Recipe {
    pub fn draw(random: &mut Random) -> Self {
        let form = random.pick(&[Form::Interleaved, Form::Interleaved, Form::Sequential, Form::Sequential, Form::Vidicon]);
        let mission = if form == Form::Vidicon { 3 } else { random.pick(&[1, 2, 3, 3]) };
        let corrected = !random.once_in(5);
        let layout = Layout { form, mission, corrected };
        let bands = match form {
            Form::Vidicon => vec![random.pick(b"ABCD")],
            _ => loop {
                let all = random.once_in(3);
                let bands: Vec<u8> =
                    (4..4 + layout.bands() as u8).filter(|_| all || random.once_in(2)).collect();
                if !bands.is_empty() {
                    break bands;
                }
            },
        };
        let lines = match random.below(12) {
            0..6 => 1 + random.below(3),
            6..11 => 1 + random.below(7),
            _ => 1 + random.below(25),
        } as u32;
        let reels = if random.once_in(3) { 1 } else { 1 + random.below(9) };
        // Now and then there are lines enough for as many breaks.
        let lines = if random.once_in(6) { lines.max(2 * reels as u32) } else { lines };
        let bad = random.pick(&[0, 0, 10, 3, 1]);
        Recipe { layout, bands, lines, reels, even: false, bad }
    }
}

/// A reel under way, and the numbers that the next record takes.
struct Writer<'r> {
    random: &'r mut Random,
    directory: Vec<u8>,
    length: usize,
    set: Set,
    plain: bool,
}

impl Writer<'_> {
    fn put(&mut self, block: Blk) {
        self.set.last_mut().expect("a reel").push(block);
    }

    fn body(&mut self) -> Vec<u8> {
        let mut record = vec![0; self.length];
        if !self.plain {
            self.random.fill(&mut record);
        } else {
            for (i, b) in record.iter_mut().enumerate() {
                *b = i as u8;
            }
        }
        record
    }

    fn record(&mut self, mut record: Vec<u8>, number: u32, kind: u8) {
        identify(&mut record, number, kind);
        self.put(Blk::Record(record));
    }

    fn reel(&mut self) {
        self.set.push(Vec::new());
        let mut directory = self.directory.clone();
        directory[18] = b'0' + self.set.len() as u8;
        self.put(Blk::Record(directory));
        self.put(Blk::Mark);
    }
}

pub fn identify(record: &mut [u8], number: u32, kind: u8) {
    record[..4].copy_from_slice(&number.to_be_bytes());
    record[4] = 0;
    record[5] = kind;
}

fn directory(random: &mut Random, layout: &Layout) -> Vec<u8> {
    let mut d = vec![0; 360];
    random.fill(&mut d);
    identify(&mut d, 1, DIRECTORY);
    d[6] = b'L';
    d[7] = b'0' + layout.mission;
    d[8] = if layout.form == Form::Vidicon { b'R' } else { b'M' };
    d[9..11].copy_from_slice(if layout.corrected { b"CP" } else { b"CA" });
    d[20..26].fill(b' ');
    d[29] = IMAGE;
    d[30] = if layout.form == Form::Interleaved { 255 } else { 0 };
    d[31..33].copy_from_slice(&(layout.record_length() as u16).to_be_bytes());
    d
}

/// A set that follows the layout. `plain` bodies hold counted bytes and are made quicker.
pub fn written(random: &mut Random, recipe: &Recipe, plain: bool) -> Set {
    let layout = &recipe.layout;
    let interleaved = layout.form == Form::Interleaved;
    let per_line = if interleaved { layout.bands() } else { 1 };
    let groups = if layout.form == Form::Sequential { recipe.bands.len() } else { 1 };
    let blocks = recipe.lines * per_line;
    // A reel may end behind each image block, and behind each trailer file but the last of a sequential set.
    let slots = groups * blocks as usize + groups - 1;
    let mut breaks = vec![false; slots];
    for reel in 1..recipe.reels {
        let at = if recipe.even {
            slots * reel / recipe.reels
        } else if random.once_in(4) && groups > 1 {
            (1 + random.below(groups - 1)) * (blocks as usize + 1) - 1
        } else {
            random.below(slots)
        };
        breaks[at] = true;
    }
    let mut breaks = breaks.into_iter();

    let directory = directory(random, layout);
    let length = layout.record_length();
    let mut w = Writer { random, directory, length, set: Vec::new(), plain };
    w.reel();
    for group in 0..groups {
        let trailers = 1 + w.random.below(5) as u16;
        let mut header = w.body();
        header[100..102].copy_from_slice(&(layout.annotations() as u16).to_be_bytes());
        header[104..106].copy_from_slice(&(layout.ancillaries() as u16).to_be_bytes());
        header[119] = if interleaved { 255 } else { 0 };
        header[120] = if interleaved { layout.bands() as u8 } else { 0 };
        header[135] = match layout.form {
            Form::Interleaved => b'0',
            Form::Sequential => b'0' + recipe.bands[group],
            Form::Vidicon => recipe.bands[0],
        };
        header[143..145].copy_from_slice(&trailers.to_be_bytes());
        if interleaved {
            header[3585] = recipe.bands.iter().map(|b| (0x100u16 >> b) as u8).sum();
        }
        w.record(header, 1, HEADER);
        let mut number = 1;
        for (kind, count) in [(ANCILLARY, layout.ancillaries()), (ANNOTATION, layout.annotations())] {
            for _ in 0..count {
                number += 1;
                let body = w.body();
                w.record(body, number, kind);
            }
        }
        w.put(Blk::Mark);
        let mut broken = false;
        for k in 0..blocks {
            let missing = interleaved && !recipe.bands.contains(&(4 + (k % per_line) as u8));
            if missing {
                let zero = vec![0; length];
                w.record(zero, k + 1, IMAGE);
            } else if recipe.bad > 0 && w.random.once_in(recipe.bad) {
                w.put(Blk::Bad);
            } else {
                let body = w.body();
                w.record(body, k + 1, IMAGE);
            }
            broken = breaks.next().expect("a slot for each block");
            if broken {
                w.put(Blk::Mark);
                w.put(Blk::Mark);
                w.reel();
            }
        }
        if !broken {
            w.put(Blk::Mark);
        }
        for number in 1..=u32::from(trailers) {
            let body = w.body();
            w.record(body, number, TRAILER);
        }
        w.put(Blk::Mark);
        if group + 1 < groups && breaks.next().expect("a slot for each file") {
            w.put(Blk::Mark);
            w.reel();
        }
    }
    w.put(Blk::Mark);
    if w.set.len() > 1 {
        w.put(Blk::Mark);
    }
    let mut set = w.set;
    number_reels(&mut set);
    set
}

/// Puts the reel's number and the number of reels into each directory.
fn number_reels(set: &mut Set) {
    let all = set.len() as u8;
    for (i, reel) in set.iter_mut().enumerate() {
        if let Some(Blk::Record(record)) = reel.first_mut()
            && record.len() >= 20
        {
            record[18] = b'1' + i as u8;
            record[19] = b'0' + all;
        }
    }
}

/// Bytes that mean something, counted from 0, in a directory and in a header.
const DIRECTORY_PLACES: [usize; 25] =
    [6, 7, 8, 9, 10, 11, 17, 18, 19, 20, 22, 25, 26, 28, 29, 30, 31, 32, 33, 34, 51, 52, 100, 200, 359];
const HEADER_PLACES: [usize; 14] = [100, 101, 104, 105, 119, 120, 135, 143, 144, 3585, 3584, 3586, 6, 3595];
const VALUES: [u8; 28] = [
    0, 1, 2, 4, 5, 6, 26, 30, 31, 32, 255, 254, b'0', b'1', b'2', b'3', b'4', b'5', b'7', b'8', b'9', b'A', b'D', b'E',
    b'M', b'R', b'P', b'C',
];
const TYPES: [u8; 7] = [DIRECTORY, HEADER, ANCILLARY, ANNOTATION, IMAGE, TRAILER, 0];

fn value(random: &mut Random, old: u8) -> u8 {
    match random.below(5) {
        0 => old.wrapping_add(1),
        1 => old.wrapping_sub(1),
        2 => old ^ (1 << random.below(8)),
        3 => random.pick(&VALUES),
        _ => random.byte(),
    }
}

/// A place in a set at which a block stands, if there is one.
fn any_block(random: &mut Random, set: &Set) -> Option<(usize, usize)> {
    let reel = random.below(set.len());
    let n = set[reel].len();
    if n == 0 {
        return None;
    }
    // The first and the last blocks of a reel are where most of the layout shows.
    let block = match random.below(4) {
        0 => random.below(n.min(6)),
        1 => n - 1 - random.below(n.min(8)),
        _ => random.below(n),
    };
    Some((reel, block))
}

fn stray(random: &mut Random, set: &Set) -> Blk {
    match random.below(3) {
        0 => Blk::Mark,
        1 => Blk::Bad,
        _ => any_block(random, set).map_or(Blk::Mark, |(r, b)| set[r][b].clone()),
    }
}

/// Does one kind of harm to a set.
pub fn damage(random: &mut Random, set: &mut Set) {
    let Some((reel, block)) = any_block(random, set) else { return };
    let reels = set.len();
    match random.below(22) {
        // a byte of a record
        0..=4 => {
            let Blk::Record(record) = &mut set[reel][block] else { return };
            if record.len() < 6 {
                return;
            }
            let at = match random.below(4) {
                0 => random.below(6),
                1 => random.below(record.len()),
                _ => match record[5] {
                    DIRECTORY => random.pick(&DIRECTORY_PLACES),
                    HEADER => random.pick(&HEADER_PLACES),
                    _ => random.below(record.len()),
                },
            };
            if at < record.len() {
                record[at] = value(random, record[at]);
            }
        }
        // the same byte of all directories
        5 | 6 => {
            let at = random.pick(&DIRECTORY_PLACES);
            let mut new = None;
            for reel in set.iter_mut() {
                if let Some(Blk::Record(record)) = reel.first_mut()
                    && at < record.len()
                {
                    let new = *new.get_or_insert_with(|| value(random, record[at]));
                    record[at] = new;
                }
            }
        }
        // a header's byte
        7 | 8 => {
            let headers: Vec<(usize, usize)> = (0..reels)
                .flat_map(|r| (0..set[r].len()).map(move |b| (r, b)))
                .filter(|(r, b)| matches!(&set[*r][*b], Blk::Record(x) if x.len() > 3595 && x[5] == HEADER))
                .collect();
            if headers.is_empty() {
                return;
            }
            let (r, b) = random.pick(&headers);
            let at = random.pick(&HEADER_PLACES);
            if let Blk::Record(record) = &mut set[r][b] {
                record[at] = value(random, record[at]);
            }
        }
        // a length
        9 => {
            let Blk::Record(record) = &mut set[reel][block] else { return };
            let length = match random.below(6) {
                0 => record.len() + 1,
                1 => record.len() - 1,
                2 => 1 + random.below(6),
                3 => random.pick(&[360, 3596, 5388]),
                _ => 1 + random.below(5388),
            };
            record.resize(length.clamp(1, 5388), 0);
        }
        // a type or a number
        10 => {
            let Blk::Record(record) = &mut set[reel][block] else { return };
            if record.len() < 6 {
                return;
            }
            if random.once_in(2) {
                record[5] = random.pick(&TYPES);
            } else {
                record[3] = record[3].wrapping_add(random.pick(&[1, 255, 2]));
            }
        }
        // a block lost, doubled, exchanged, replaced, put in
        11 => {
            set[reel].remove(block);
        }
        12 => {
            let again = set[reel][block].clone();
            set[reel].insert(block, again);
        }
        13 => {
            let other = random.below(set[reel].len());
            set[reel].swap(block, other);
        }
        14 => {
            set[reel][block] = stray(random, set);
        }
        15 => {
            let new = stray(random, set);
            set[reel].insert(block + random.below(2), new);
        }
        // a reel cut short, or with blocks behind its end
        16 => set[reel].truncate(block),
        17 => {
            let new = stray(random, set);
            set[reel].push(new);
        }
        // a byte of the body of a band that is not present, or that block bad
        20 | 21 => {
            let zeros: Vec<(usize, usize)> = (0..reels)
                .flat_map(|r| (0..set[r].len()).map(move |b| (r, b)))
                .filter(|(r, b)| matches!(&set[*r][*b], Blk::Record(x) if x.len() > 6 && x[6..].iter().all(|y| *y == 0)))
                .collect();
            if zeros.is_empty() {
                return;
            }
            let (r, b) = random.pick(&zeros);
            if random.once_in(8) {
                set[r][b] = Blk::Bad;
            } else if let Blk::Record(record) = &mut set[r][b] {
                let anywhere = 6 + random.below(record.len() - 6);
                let at = random.pick(&[6, 7, record.len() - 1, anywhere]);
                record[at] = 1 << random.below(8);
            }
        }
        // a reel lost, doubled, empty, exchanged, cut in two, joined to the next
        _ => {
            match random.below(6) {
                0 if reels > 1 => {
                    set.remove(reel);
                }
                1 if reels < 9 => {
                    let again = set[reel].clone();
                    set.insert(reel, again);
                }
                2 if reels < 9 => set.insert(reel + random.below(2), Vec::new()),
                3 => {
                    let other = random.below(reels);
                    set.swap(reel, other);
                }
                4 if reels < 9 => {
                    let rest = set[reel].split_off(block);
                    let mut next = set[reel][..set[reel].len().min(2)].to_vec();
                    next.extend(rest);
                    if random.once_in(2) {
                        set[reel].extend([Blk::Mark, Blk::Mark]);
                    }
                    set.insert(reel + 1, next);
                }
                5 if reel + 1 < reels => {
                    let rest = set.remove(reel + 1);
                    set[reel].extend(rest.into_iter().skip(2));
                }
                _ => {}
            }
            if !random.once_in(3) {
                number_reels(set);
            }
        }
    }
}

fn kind_word(block: &Blk) -> u32 {
    match block {
        Blk::Mark => 0,
        Blk::Bad => u32::MAX,
        Blk::Record(record) => record.len() as u32,
    }
}

/// A set as a strip.
pub fn strip(set: &Set) -> Vec<u8> {
    let mut bytes = Vec::new();
    for reel in set {
        for block in reel {
            let word = kind_word(block).to_be_bytes();
            bytes.extend(word);
            if let Blk::Record(record) = block {
                bytes.extend(record);
                bytes.extend(word);
            }
        }
        bytes.extend((u32::MAX - 1).to_be_bytes());
    }
    bytes
}

/// A set as an indexed image. With a generator the records lie in any order, with gaps, and equal ones may share their bytes.
pub fn indexed(set: &Set, random: Option<&mut Random>) -> Vec<u8> {
    let blocks: Vec<&Blk> = set.iter().flatten().collect();
    let end = 4 + 4 * set.len() + 8 * blocks.len();
    let mut order: Vec<usize> = (0..blocks.len()).collect();
    let mut offsets = vec![0; blocks.len()];
    let mut bytes = vec![0; end];
    let mut gaps = vec![0; blocks.len()];
    if let Some(random) = random
        && random.once_in(2)
    {
        for i in (1..order.len()).rev() {
            order.swap(i, random.below(i + 1));
        }
        for gap in &mut gaps {
            *gap = if random.once_in(4) { random.below(9) } else { 0 };
        }
    }
    for i in order {
        if let Blk::Record(record) = blocks[i] {
            bytes.resize(bytes.len() + gaps[i], 7);
            offsets[i] = bytes.len();
            bytes.extend(record);
        }
    }
    let mut words = vec![set.len() as u32];
    words.extend(set.iter().map(|reel| reel.len() as u32));
    for (i, block) in blocks.iter().enumerate() {
        words.push(offsets[i] as u32);
        words.push(kind_word(block));
    }
    for (i, word) in words.iter().enumerate() {
        bytes[4 * i..4 * i + 4].copy_from_slice(&word.to_be_bytes());
    }
    bytes
}

/// Places of the words of a strip or of an indexed image, as far as they can be followed.
fn words_of(image: &[u8], is_strip: bool) -> Vec<usize> {
    let word = |at: usize| image.get(at..at + 4).map(|w| u32::from_be_bytes(w.try_into().expect("four")));
    if is_strip {
        let mut places = Vec::new();
        let mut at = 0;
        while let Some(w) = word(at) {
            places.push(at);
            at += 4;
            if (1..=5388).contains(&w) {
                at += w as usize;
                places.push(at);
                at += 4;
            }
        }
        places
    } else {
        let reels = word(0).unwrap_or(0).min(9) as usize;
        let blocks: usize = (1..=reels).map(|r| word(4 * r).unwrap_or(0).min(65_535) as usize).sum();
        (0..1 + reels + 2 * blocks).map(|i| 4 * i).filter(|at| at + 4 <= image.len()).collect()
    }
}

/// Harms the bytes of an image.
pub fn damage_image(random: &mut Random, image: &mut Vec<u8>, is_strip: bool) {
    let places = words_of(image, is_strip);
    if places.is_empty() {
        return;
    }
    let at = match random.below(4) {
        0 => places[random.below(places.len().min(4))],
        1 => places[places.len() - 1 - random.below(places.len().min(4))],
        _ => random.pick(&places),
    };
    let old = u32::from_be_bytes(image[at..at + 4].try_into().expect("four"));
    match random.below(10) {
        0..=4 => {
            let new = match random.below(8) {
                0 => old.wrapping_add(1),
                1 => old.wrapping_sub(1),
                2 => random.pick(&[0, u32::MAX, u32::MAX - 1, u32::MAX - 2, 5388, 5389, 9, 10, 65_535, 65_536]),
                3 => image.len() as u32 - random.below(8).min(image.len()) as u32,
                4 => old ^ (1 << random.below(32)),
                5 => at as u32,
                6 => random.below(image.len() + 8) as u32,
                _ => random.next() as u32,
            };
            image[at..at + 4].copy_from_slice(&new.to_be_bytes());
        }
        5 => image.truncate(at),
        6 => image.truncate((at + random.below(9)).min(image.len())),
        7 => {
            let n = image.len();
            image.truncate(n - random.below(n.min(12)));
        }
        8 => {
            for _ in 0..=random.below(6) {
                image.push(random.pick(&[0, 255, 254]));
            }
        }
        _ => {
            let new = random.pick(&[0, u32::MAX, u32::MAX - 1, 1]);
            image.splice(at..at, new.to_be_bytes());
        }
    }
}
