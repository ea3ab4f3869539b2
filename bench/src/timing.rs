//! Full scenes, timed: the proved implementation, the Rust one and a plain copy of the same records, in one run.

use crate::bridge::{self, Stored, WantedBlock, WantedLine};
use crate::deck::{Block, Copied, Deck, Kind, LONGEST_RECORD, Lending, Lent, Source};
use crate::image::{Indexed, Strip};
use crate::random::Random;
use crate::reader::Reader;
use crate::sets::{Blk, Recipe, indexed, strip, written};
use crate::survey::{Form, Layout};
use std::hint::black_box;
use std::time::Instant;

/// How often a job is done for one measurement, and how many measurements there are; the quickest counts.
const ROUNDS: u32 = 4;
const REPEATS: u32 = 15;

fn seconds(job: &mut dyn FnMut() -> u64) -> f64 {
    let start = Instant::now();
    black_box(job());
    start.elapsed().as_secs_f64()
}

/// The quickest of several measurements of each job, in seconds. The jobs take turns, so that all meet the same load.
fn quickest<const N: usize>(mut jobs: [&mut dyn FnMut() -> u64; N]) -> [f64; N] {
    let mut best = [f64::INFINITY; N];
    for _ in 0..REPEATS {
        for (best, job) in best.iter_mut().zip(&mut jobs) {
            *best = best.min(seconds(*job));
        }
    }
    best
}

/// What one round more costs, where a job can only be done together with what comes before it.
fn per_round(few: f64, many: f64, rounds: u32) -> f64 {
    (many - few).max(0.0) / f64::from(rounds)
}

/// The two ways of reading all lines.
#[derive(Clone, Copy, PartialEq)]
enum Order {
    ByBand,
    ByLine,
}

fn every_line(bands: &[u8], lines: u32, order: Order) -> Vec<WantedLine> {
    let wanted = |band: &u8, line| WantedLine { line, band: *band };
    match order {
        Order::ByBand => bands.iter().flat_map(|b| (1..=lines).map(move |n| wanted(b, n))).collect(),
        Order::ByLine => (1..=lines).flat_map(|n| bands.iter().map(move |b| wanted(b, n))).collect(),
    }
}

fn read_all<S: Source>(reader: &mut Reader<S>, wanted: &[WantedLine], buffer: &mut [u8]) -> u64 {
    let mut sum = 0;
    for w in wanted {
        sum += u64::from(reader.line(w.band, w.line, buffer).is_ok());
        // Nothing may be left out because it is written over.
        black_box(&mut *buffer);
    }
    sum
}

/// Every record of a deck, copied to one buffer.
fn copy_all<D: Lending>(deck: &D, buffer: &mut [u8]) -> u64 {
    let mut sum = 0;
    for reel in 1..=Lending::reels(deck) {
        let mut block = 1;
        while let Some(seen) = deck.block(reel, block) {
            if let Block::Record(record) = seen {
                buffer[..record.len()].copy_from_slice(record);
                black_box(&mut *buffer);
                sum += 1;
            }
            block += 1;
        }
    }
    sum
}

fn fetch_all<D: Deck>(deck: &D, blocks: &[WantedBlock], buffer: &mut [u8]) -> u64 {
    let mut sum = 0;
    for b in blocks {
        sum += u64::from(matches!(deck.fetch(b.reel, b.block, buffer), Kind::Record(_)));
        black_box(&mut *buffer);
    }
    sum
}

struct Row<'a> {
    job: &'a str,
    ours: f64,
    copied: f64,
    lent: f64,
    copy: f64,
}

fn print(scene: &str, stored: Stored, row: &Row<'_>) {
    let ms = 1e3;
    println!(
        "| {scene} | {} | {} | {:.2} | {:.2} | {:.2} | {:.2} | {:.2} | {:.2} |",
        match stored {
            Stored::Strip => "strip",
            Stored::Indexed => "indexed",
        },
        row.job,
        row.ours * ms,
        row.copied * ms,
        row.lent * ms,
        row.copy * ms,
        row.ours / row.copied,
        row.ours / row.copy,
    );
}

fn jobs<D: Lending>(scene: &str, stored: Stored, image: &[u8], deck: &D, opened: impl Fn(&[u8]) -> u64) {
    let [mut a, mut b, mut c, mut d, mut e] = [(); 5].map(|()| vec![0; LONGEST_RECORD]);
    let many = 1 + ROUNDS;

    let [ours, copied, lent, copy] = quickest([
        &mut || bridge::lines(stored, image, 0, &[], &mut a),
        &mut || opened(black_box(&image.to_vec())),
        &mut || opened(image),
        &mut || black_box(image.to_vec()).len() as u64,
    ]);
    print(scene, stored, &Row { job: "copy and open", ours, copied, lent, copy });

    let [ours_few, ours_many, copied, lent, copy] = quickest([
        &mut || bridge::lines(stored, image, 1, &[], &mut a),
        &mut || bridge::lines(stored, image, many, &[], &mut b),
        &mut || u64::from(Reader::new(Copied::new(deck)).survey().is_ok()),
        &mut || u64::from(Reader::new(Lent(deck)).survey().is_ok()),
        &mut || copy_all(deck, &mut c),
    ]);
    let ours = per_round(ours_few, ours_many, ROUNDS);
    print(scene, stored, &Row { job: "survey", ours, copied, lent, copy });

    let mut copying = Reader::new(Copied::new(deck));
    let mut lending = Reader::new(Lent(deck));
    let _ = (copying.survey(), lending.survey());
    let (bands, lines) = match lending.accepted() {
        Ok(accepted) => (accepted.bands.clone(), accepted.lines),
        Err(_) => panic!("a scene is accepted"),
    };
    let both = [(Order::ByBand, "lines, band by band"), (Order::ByLine, "lines, line by line")];
    for (order, job) in &both[..if bands.len() == 1 { 1 } else { 2 }] {
        let wanted = every_line(&bands, lines, *order);
        let often = wanted.repeat(many as usize);
        let expected = read_all(&mut lending, &wanted, &mut a);
        assert_eq!(expected, bridge::lines(stored, image, 1, &wanted, &mut b), "both deliver as many lines");
        assert_eq!(a, b, "the last line is the same");
        let [ours_few, ours_many, copied, lent, copy] = quickest([
            &mut || bridge::lines(stored, image, 1, &wanted, &mut a),
            &mut || bridge::lines(stored, image, 1, &often, &mut b),
            &mut || read_all(&mut copying, &wanted, &mut c),
            &mut || read_all(&mut lending, &wanted, &mut d),
            &mut || copy_all(deck, &mut e),
        ]);
        let ours = per_round(ours_few, ours_many, ROUNDS);
        print(scene, stored, &Row { job, ours, copied, lent, copy });
    }
}

fn scene(name: &str, form: Form, bands: &[u8], lines: u32, reels: usize) {
    let mission = if bands.contains(&8) || form == Form::Vidicon { 3 } else { 1 };
    let recipe = Recipe {
        layout: Layout { form, mission, corrected: true },
        bands: bands.to_vec(),
        lines,
        reels,
        even: true,
        bad: 0,
    };
    let set = written(&mut Random::new(1), &recipe, true);
    {
        let image = strip(&set);
        let deck = Strip::open(&image).unwrap_or_else(|_| panic!("a scene opens"));
        jobs(name, Stored::Strip, &image, &deck, |bytes| u64::from(Strip::open(bytes).is_ok()));
    }
    let image = indexed(&set, None);
    drop(set);
    let deck = Indexed::open(&image).unwrap_or_else(|_| panic!("a scene opens"));
    jobs(name, Stored::Indexed, &image, &deck, |bytes| u64::from(Indexed::open(bytes).is_ok()));
}

/// Nanoseconds for each block of a strip that is read in order.
fn in_order(blocks: usize, length: usize) {
    let image = strip(&vec![vec![Blk::Record(vec![1; length]); blocks]]);
    let deck = Strip::open(&image).unwrap_or_else(|_| panic!("a strip opens"));
    let [mut a, mut b, mut c, mut d, mut e] = [(); 5].map(|()| vec![0; LONGEST_RECORD]);
    let rounds = (120_000 / blocks) as u32;
    let wanted: Vec<WantedBlock> = (1..=blocks as u32).map(|block| WantedBlock { reel: 1, block }).collect();
    let often = wanted.repeat(1 + rounds as usize);
    // Opening is timed together with the copy of the bytes that comes before it.
    let [open, open_rust, few, many, copied, copy] = quickest([
        &mut || bridge::blocks(Stored::Strip, 0, &image, &[], &mut e),
        &mut || u64::from(Strip::open(black_box(&image.to_vec())).is_ok()),
        &mut || bridge::blocks(Stored::Strip, 0, &image, &wanted, &mut a),
        &mut || bridge::blocks(Stored::Strip, 0, &image, &often, &mut b),
        &mut || fetch_all(&deck, &often[blocks..], &mut c),
        &mut || (0..rounds).map(|_| copy_all(&deck, &mut d)).sum(),
    ]);
    let each = 1e9 / (blocks as f64);
    let ours = per_round(few, many, rounds);
    let (copied, copy) = (copied / f64::from(rounds), copy / f64::from(rounds));
    println!(
        "| {blocks} | {length} | {:.1} | {:.1} | {:.1} | {:.2} | {:.1} | {:.1} |",
        ours * each,
        copied * each,
        copy * each,
        ours / copied,
        open * each,
        open_rust * each,
    );
}

fn plural(n: usize) -> &'static str {
    if n == 1 { "" } else { "s" }
}

pub fn run(full: bool) {
    println!("| scene | image | job | ours ms | Rust ms | Rust, lent ms | copy ms | ours / Rust | ours / copy |");
    println!("|---|---|---|---|---|---|---|---|---|");
    let four = [4, 5, 6, 7];
    for reels in if full { 1..=3 } else { 1..=1 } {
        scene(&format!("BIL, 4 bands, {reels} reel{}", plural(reels)), Form::Interleaved, &four, 2_983, reels);
        scene(&format!("BSQ, 4 bands, {reels} reel{}", plural(reels)), Form::Sequential, &four, 2_983, reels);
    }
    if full {
        scene("BIL, 5 bands, 2 reels", Form::Interleaved, &[4, 5, 6, 7, 8], 2_983, 2);
        scene("BSQ, 5 bands, 2 reels", Form::Sequential, &[4, 5, 6, 7, 8], 2_983, 2);
        scene("BIL, bands 5 and 7, 1 reel", Form::Interleaved, &[5, 7], 2_983, 1);
        scene("RBV, 1 reel", Form::Vidicon, b"A", 5_322, 1);
    }
    println!();
    println!("| blocks | bytes | ours ns | Rust ns | copy ns | ours / Rust | copy and open, ours ns | Rust ns |");
    println!("|---|---|---|---|---|---|---|---|");
    for length in [16, 3_596] {
        for blocks in [1_000, 60_000] {
            in_order(blocks, length);
        }
    }
}
