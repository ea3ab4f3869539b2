//! The same sets and calls to both implementations. Any difference is printed with its seed.

use crate::answers::{self, Told};
use crate::bridge::{self, Ask, BAND, Fetch, IDENT, LINE, SHEET, SURVEY, Stored, TALLY};
use crate::deck::{Copied, Deck, Kind, Lending, Lent};
use crate::image::{Indexed, Strip};
use crate::random::Random;
use crate::sets::{Blk, Recipe, Set, damage, damage_image, indexed, strip, written};
use crate::survey::{Accepted, Form, IMAGE, Layout, survey};
use crate::turner::{Turner, as_strip};
use std::collections::BTreeMap;
use std::fmt::Write;

/// How often each outcome came.
#[derive(Default)]
struct Tally {
    /// Accepted sets under 0, refusals and faults under their numbers, callers' refusals too.
    numbers: BTreeMap<u64, u64>,
    /// Accepted sets by form and number of reels.
    accepted: BTreeMap<String, u64>,
}

const SEVERAL: usize = 48;

fn any_call(random: &mut Random) -> Ask {
    Ask {
        what: random.pick(&[BAND, IDENT, LINE, SHEET, TALLY]),
        number: random.pick(&[0, 1, 1, 2, 3, 6, 8192, u32::MAX]),
        band: random.pick(&[0, 3, 4, 5, 6, 7, 8, 9, 64, 65, 66, 67, 68, 69, 255, 52]),
        kind: random.pick(&[0, 1, 2, 3, 4, 5, 255]),
        room: random.pick(&[0, 17, 18, 19, 3589, 3590, 3591, 5381, 5382, 5383]),
    }
}

/// The calls that are made over a set: wild ones, and of an accepted set its lines and sheets.
fn calls(random: &mut Random, accepted: Option<&Accepted>) -> Vec<Ask> {
    let bare = |what| Ask { what, ..Ask::default() };
    let mut asks: Vec<Ask> = (0..random.below(4)).map(|_| any_call(random)).collect();
    asks.push(bare(SURVEY));
    if let Some(accepted) = accepted {
        let body = accepted.layout.record_length() as u32 - 6;
        let rooms = [body, body, body, body + 5, body - 1];
        asks.extend((0..=6).map(|k| Ask { what: BAND, number: k, ..Ask::default() }));
        asks.push(Ask { what: IDENT, room: random.pick(&[17, 18, 40]), ..Ask::default() });
        let mut each = Vec::new();
        for band in &accepted.bands {
            for line in 0..accepted.lines + 2 {
                each.push(Ask { what: LINE, band: *band, number: line, ..Ask::default() });
            }
            for (kind, count) in [(1, 1), (2, accepted.layout.ancillaries()), (3, accepted.layout.annotations()), (4, 5)] {
                for index in 0..count + 2 {
                    each.push(Ask { what: SHEET, band: *band, kind, number: index, ..Ask::default() });
                }
            }
        }
        while each.len() > SEVERAL {
            let at = random.below(each.len());
            each.swap_remove(at);
        }
        for i in (1..each.len()).rev() {
            if random.once_in(3) {
                each.swap(i, random.below(i + 1));
            }
        }
        asks.extend(each.into_iter().map(|ask| Ask { room: random.pick(&rooms), ..ask }));
    }
    asks.extend((0..random.below(6)).map(|_| any_call(random)));
    asks.push(bare(TALLY));
    if random.once_in(4) {
        asks.push(bare(SURVEY));
        asks.push(bare(TALLY));
    }
    asks
}

/// Both implementations' answers to the same calls; what differs, in words.
fn differ(stored: Stored, image: &[u8], asks: &[Ask], tally: &mut Tally) -> Result<(), String> {
    let rust = answers::play(stored, image, asks, true);
    let lent = answers::play(stored, image, asks, false);
    if rust != lent {
        return Err(format!("{stored:?}: the Rust one differs from itself, copied {:?}, lent {:?}", rust.words, lent.words));
    }
    let mut ours = Told { words: vec![0; 6 * asks.len().max(1)], buffers: vec![0; rust.buffers.len().max(1)] };
    let room = asks.iter().map(|a| a.room as usize).sum::<usize>();
    ours.buffers.resize(room.max(1), 0);
    let Some(n) = bridge::play(stored, image, asks, &mut ours.words, &mut ours.buffers) else {
        return Err(format!("{stored:?}: the proved one had no memory or no room"));
    };
    ours.words.truncate(n);
    for words in rust.words.chunks(6) {
        match words[0] {
            5 | 6 => *tally.numbers.entry(words[1]).or_default() += 1,
            1 => *tally.numbers.entry(0).or_default() += 1,
            _ => {}
        }
    }
    let mut out = String::new();
    if ours.words.len() != rust.words.len() {
        let _ = writeln!(out, "{stored:?}: proved {:?}, Rust {:?}", ours.words, rust.words);
    }
    let mut at = 0;
    for (i, (a, b)) in ours.words.chunks(6).zip(rust.words.chunks(6)).enumerate() {
        if a != b {
            let _ = writeln!(out, "{stored:?}: call {i} {:?}: proved {a:?}, Rust {b:?}", asks.get(i));
        }
        // An image that does not open answers with one group of words, whatever the calls.
        if a[0] == 6 || b[0] == 6 {
            continue;
        }
        let room = asks[i].room as usize;
        if ours.buffers[at..at + room] != rust.buffers[at..at + room] {
            let _ = writeln!(out, "{stored:?}: call {i} {:?}: its buffer differs", asks[i]);
        }
        at += room;
    }
    if out.is_empty() { Ok(()) } else { Err(out) }
}

/// Blocks that are asked for: any, near each other and far apart, also where there is none.
fn fetches(random: &mut Random, set: &Set) -> Vec<Fetch> {
    let rooms = [0, 1, 359, 360, 3595, 3596, 5387, 5388, 5400];
    let wild = [0, 1, 2, 9, 10, 65_535, 65_536, u32::MAX];
    let mut fetches = Vec::new();
    for _ in 0..4 {
        let reel = if random.once_in(8) { random.pick(&wild) } else { 1 + random.below(set.len()) as u32 };
        let length = set.get((reel as usize).wrapping_sub(1)).map_or(0, Vec::len);
        let mut block = if random.once_in(8) { random.pick(&wild) } else { random.below(length + 2) as u32 };
        for _ in 0..1 + random.below(4) {
            fetches.push(Fetch { reel, block, room: random.pick(&rooms) });
            block = if random.once_in(2) { block.wrapping_add(1) } else { block.wrapping_sub(1) };
        }
    }
    fetches
}

/// The same blocks, as both show them.
fn differ_blocks(stored: Stored, turners: u8, image: &[u8], fetches: &[Fetch]) -> Result<(), String> {
    let rust = answers::show(stored, turners, image, fetches);
    let room: usize = fetches.iter().map(|f| f.room as usize).sum();
    let mut ours = Told { words: vec![0; 6.max(1 + 4 * fetches.len())], buffers: vec![0; room.max(1)] };
    let Some(n) = bridge::show(stored, turners, image, fetches, &mut ours.words, &mut ours.buffers) else {
        return Err(format!("{stored:?}, {turners} turners: the proved one had no memory or no room"));
    };
    ours.words.truncate(n);
    ours.buffers.truncate(rust.buffers.len());
    if ours.words != rust.words {
        return Err(format!("{stored:?}, {turners} turners: blocks {fetches:?}: proved {:?}, Rust {:?}", ours.words, rust.words));
    }
    if ours.buffers != rust.buffers {
        return Err(format!("{stored:?}, {turners} turners: blocks {fetches:?}: a buffer differs"));
    }
    Ok(())
}

fn accepted(stored: Stored, image: &[u8]) -> Option<Accepted> {
    match stored {
        Stored::Strip => survey(&mut Lent(&Strip::open(image).ok()?)).ok(),
        Stored::Indexed => survey(&mut Lent(&Indexed::open(image).ok()?)).ok(),
    }
}

/// A turned set must be accepted with the same picture; turned twice, a set of one reel interleaved by line comes back whole.
fn turned<D: Lending>(deck: &D, before: &Accepted, set: &Set) -> Result<(), String> {
    let turner = Turner::new(deck);
    let Ok(after) = survey(&mut Copied::new(&turner)) else {
        return Err("a turned set is not accepted".into());
    };
    if (after.lines, &after.bands, after.ident) != (before.lines, &before.bands, before.ident) {
        return Err("a turned set has another picture".into());
    }
    if before.layout.form != Form::Sequential && set.len() == 1 && as_strip(&Turner::new(&turner)) != strip(set) {
        return Err("a set that is turned twice does not come back".into());
    }
    Ok(())
}

/// Every block of the set that a deck shows, and of each reel the places before and behind.
fn every_block<D: Deck>(random: &mut Random, deck: &D) -> Vec<Fetch> {
    let rooms = [5_388, 5_388, 5_388, 5_400, 3_596, 3_595, 360, 359, 6, 0];
    let mut fetches = Vec::new();
    for reel in 0..=deck.reels() + 1 {
        for block in 0.. {
            let room = if random.once_in(8) { random.pick(&rooms) } else { 5_388 };
            fetches.push(Fetch { reel, block, room });
            if block > 0 && deck.kind(reel, block) == Kind::Absent {
                break;
            }
        }
    }
    for block in [65_535, 65_536, u32::MAX] {
        fetches.push(Fetch { reel: 1, block, room: 5_388 });
    }
    fetches
}

/// Every block of a set through one turner and through two, as both show it.
fn differ_turned<D: Lending>(random: &mut Random, stored: Stored, image: &[u8], deck: &D) -> Result<(), String> {
    let once = Turner::new(deck);
    differ_blocks(stored, 1, image, &every_block(random, &once))?;
    let twice = Turner::new(&once);
    differ_blocks(stored, 2, image, &every_block(random, &twice))
}

/// One seed: a set, perhaps damaged, in both images, perhaps damaged.
fn seed(seed: u64, tally: &mut Tally) -> Result<(), String> {
    let mut random = Random::new(seed);
    let recipe = Recipe::draw(&mut random);
    let mut set = written(&mut random, &recipe, random_is_plain(seed));
    let harms = random.pick(&[0, 1, 1, 1, 2, 4]);
    for _ in 0..harms {
        damage(&mut random, &mut set);
    }
    let mut images = [(Stored::Strip, strip(&set)), (Stored::Indexed, indexed(&set, Some(&mut random)))];
    for (stored, image) in &mut images {
        if random.once_in(5) {
            damage_image(&mut random, image, *stored == Stored::Strip);
        }
    }
    for (stored, image) in &images {
        let accepted = accepted(*stored, image);
        if harms == 0 && accepted.is_none() && *image == stored_plainly(*stored, &set) {
            return Err(format!("{stored:?}: the Rust one refuses a whole set, {recipe:?}"));
        }
        if let Some(accepted) = &accepted {
            let key = format!("{:?} {}", accepted.layout.form, set.len());
            *tally.accepted.entry(key).or_default() += 1;
        }
        let asks = calls(&mut random, accepted.as_ref());
        differ(*stored, image, &asks, tally)?;
        differ_blocks(*stored, 0, image, &fetches(&mut random, &set))?;
        // Of an accepted set every block is compared, of any other some.
        if accepted.is_some() {
            match stored {
                Stored::Strip => Strip::open(image).map(|deck| differ_turned(&mut random, *stored, image, &deck)),
                Stored::Indexed => Indexed::open(image).map(|deck| differ_turned(&mut random, *stored, image, &deck)),
            }
            .unwrap_or(Ok(()))?;
        } else {
            differ_blocks(*stored, 1, image, &fetches(&mut random, &set))?;
            differ_blocks(*stored, 2, image, &fetches(&mut random, &set))?;
        }
    }
    if harms == 0
        && let Ok(deck) = Strip::open(&images[0].1)
        && let Ok(accepted) = survey(&mut Lent(&deck))
    {
        turned(&deck, &accepted, &set)?;
    }
    Ok(())
}

fn stored_plainly(stored: Stored, set: &Set) -> Vec<u8> {
    match stored {
        Stored::Strip => strip(set),
        Stored::Indexed => indexed(set, None),
    }
}

fn random_is_plain(seed: u64) -> bool {
    seed % 4 == 3
}

fn marks(n: usize) -> Vec<Blk> {
    vec![Blk::Mark; n]
}

/// Sets at the limits: blocks of a reel, reels of a set, lines of a band.
fn limits(tally: &mut Tally, long: bool) -> Result<(), String> {
    let survey = [Ask { what: SURVEY, ..Ask::default() }];
    for set in [
        vec![],
        vec![vec![]],
        vec![marks(65_535)],
        vec![marks(65_536)],
        vec![marks(1); 9],
        vec![marks(1); 10],
        vec![marks(65_535), marks(65_535), marks(65_536)],
        vec![vec![Blk::Record(vec![1; 5388])], vec![Blk::Record(vec![1; 5389])]],
    ] {
        differ(Stored::Strip, &strip(&set), &survey, tally)?;
        differ(Stored::Indexed, &indexed(&set, None), &survey, tally)?;
        let ends: Vec<Fetch> = (0..12)
            .flat_map(|reel| [0, 1, 2, 65_534, 65_535, 65_536].map(|block| Fetch { reel, block, room: 5_388 }))
            .collect();
        differ_blocks(Stored::Strip, 0, &strip(&set), &ends)?;
        differ_blocks(Stored::Indexed, 0, &indexed(&set, None), &ends)?;
    }
    let of = |form, bands: &[u8], lines, reels| Recipe {
        layout: Layout { form, mission: if bands.contains(&8) || form == Form::Vidicon { 3 } else { 1 }, corrected: true },
        bands: bands.to_vec(),
        lines,
        reels,
        even: false,
        bad: 500,
    };
    let mut recipes =
        vec![of(Form::Sequential, &[5], 8192, 2), of(Form::Sequential, &[5], 8193, 1), of(Form::Interleaved, &[5, 7], 8192, 1)];
    if long {
        recipes.push(of(Form::Vidicon, b"D", 8193, 4));
        recipes.push(of(Form::Interleaved, &[4, 6], 8192, 3));
        recipes.push(of(Form::Interleaved, &[4, 6], 8193, 1));
        recipes.push(of(Form::Interleaved, &[5, 8], 8193, 5));
    }
    for recipe in recipes {
        let mut random = Random::new(7);
        let mut set = written(&mut random, &recipe, true);
        if recipe.layout.form == Form::Interleaved && recipe.lines == 8_192 && recipe.reels == 1 {
            // One line too many, whose first block is bad, of a band that is not present: the count comes first.
            let end = set[0].iter().rposition(|b| matches!(b, Blk::Record(r) if r[5] == IMAGE)).unwrap_or(0);
            set[0].insert(end + 1, Blk::Bad);
        }
        for (stored, image) in [(Stored::Strip, strip(&set)), (Stored::Indexed, indexed(&set, None))] {
            let asks = calls(&mut random, accepted(stored, &image).as_ref());
            differ(stored, &image, &asks, tally)?;
        }
    }
    Ok(())
}

/// Compares both on the sets of some seeds. False where one differs.
pub fn run(first: u64, count: u64, long: bool) -> bool {
    let mut tally = Tally::default();
    let mut same = true;
    let mut wrong = 0;
    if let Err(difference) = limits(&mut tally, long) {
        println!("at the limits: {difference}");
        same = false;
    }
    for n in first..first + count {
        if let Err(difference) = seed(n, &mut tally) {
            println!("seed {n}: {difference}");
            same = false;
            wrong += 1;
            if wrong == 10 {
                break;
            }
        }
    }
    let list = |pairs: Vec<String>| pairs.join(", ");
    println!("seeds {first} to {}: {}", first + count - 1, if same { "all answers alike" } else { "answers DIFFER" });
    let numbers = tally.numbers.iter().map(|(number, times)| format!("{number}: {times}")).collect();
    let accepted = tally.accepted.iter().map(|(form, times)| format!("{form}: {times}")).collect();
    println!("outcomes, 0 for accepted, else the refusal's number: {}", list(numbers));
    println!("accepted, by form and reels: {}", list(accepted));
    same
}
