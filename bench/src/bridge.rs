//! The proved implementation, over the border of C. Its functions stand in the crate `bridge`.

/// A call in numbers, as the other side declares it.
#[repr(C)]
#[derive(Clone, Copy, Debug, Default)]
pub struct Ask {
    pub number: u32,
    pub room: u32,
    pub what: u8,
    pub band: u8,
    pub kind: u8,
}

/// A line of a band.
#[repr(C)]
#[derive(Clone, Copy, Debug)]
pub struct WantedLine {
    pub line: u32,
    pub band: u8,
}

/// A block of a reel.
#[repr(C)]
#[derive(Clone, Copy, Debug)]
pub struct WantedBlock {
    pub reel: u32,
    pub block: u32,
}

/// A block that is asked for, and the length of the buffer for it.
#[repr(C)]
#[derive(Clone, Copy, Debug)]
pub struct Fetch {
    pub reel: u32,
    pub block: u32,
    pub room: u32,
}

/// What is answered where memory does not suffice.
const NO_MEMORY: u64 = u64::MAX;

pub const SURVEY: u8 = 1;
pub const BAND: u8 = 2;
pub const IDENT: u8 = 3;
pub const LINE: u8 = 4;
pub const SHEET: u8 = 5;
pub const TALLY: u8 = 6;

/// The byte that fills a buffer before its call.
pub const FILL: u8 = 165;

/// An answer in numbers: 1 a summary, 2 a code, 3 a length, 4 a tally, 5 a refusal, 6 an image's refusal.
pub type Words = [u64; 6];

mod exported {
    use super::{Ask, Fetch, WantedBlock, WantedLine};

    // A slice goes as a pointer and a length.
    unsafe extern "C" {
        pub fn gehunlo_play(
            form: u8,
            image: *const u8,
            image_length: usize,
            asks: *const Ask,
            asks_length: usize,
            words: *mut u64,
            words_length: usize,
            buffers: *mut u8,
            buffers_length: usize,
        ) -> usize;
        pub fn gehunlo_show(
            form: u8,
            turners: u8,
            image: *const u8,
            image_length: usize,
            fetches: *const Fetch,
            fetches_length: usize,
            words: *mut u64,
            words_length: usize,
            buffers: *mut u8,
            buffers_length: usize,
        ) -> usize;
        pub fn gehunlo_lines(
            form: u8,
            image: *const u8,
            image_length: usize,
            surveys: u32,
            lines: *const WantedLine,
            lines_length: usize,
            buffer: *mut u8,
            buffer_length: usize,
        ) -> u64;
        pub fn gehunlo_blocks(
            form: u8,
            turners: u8,
            image: *const u8,
            image_length: usize,
            blocks: *const WantedBlock,
            blocks_length: usize,
            buffer: *mut u8,
            buffer_length: usize,
        ) -> u64;
    }
}

/// How a set is stored.
#[derive(Clone, Copy, PartialEq, Eq, Debug)]
pub enum Stored {
    Strip = 0,
    Indexed = 1,
}

/// Plays calls to a fresh reader. `None` where memory or room did not suffice.
pub fn play(stored: Stored, image: &[u8], asks: &[Ask], words: &mut [u64], buffers: &mut [u8]) -> Option<usize> {
    // SAFETY: each pointer goes with the length of its slice, and the slices are apart.
    let n = unsafe {
        exported::gehunlo_play(
            stored as u8,
            image.as_ptr(),
            image.len(),
            asks.as_ptr(),
            asks.len(),
            words.as_mut_ptr(),
            words.len(),
            buffers.as_mut_ptr(),
            buffers.len(),
        )
    };
    (n > 0).then_some(n)
}

/// Asks an image for its reels and blocks, through so many turners piled on it, two at most. `None` where memory or room did not suffice.
pub fn show(
    stored: Stored,
    turners: u8,
    image: &[u8],
    fetches: &[Fetch],
    words: &mut [u64],
    buffers: &mut [u8],
) -> Option<usize> {
    // SAFETY: as above.
    let n = unsafe {
        exported::gehunlo_show(
            stored as u8,
            turners,
            image.as_ptr(),
            image.len(),
            fetches.as_ptr(),
            fetches.len(),
            words.as_mut_ptr(),
            words.len(),
            buffers.as_mut_ptr(),
            buffers.len(),
        )
    };
    (n > 0).then_some(n)
}

/// Surveys an image so many times and reads lines from it into one buffer. How many were delivered.
pub fn lines(stored: Stored, image: &[u8], surveys: u32, lines: &[WantedLine], buffer: &mut [u8]) -> u64 {
    // SAFETY: as above.
    let n = unsafe {
        exported::gehunlo_lines(
            stored as u8,
            image.as_ptr(),
            image.len(),
            surveys,
            lines.as_ptr(),
            lines.len(),
            buffer.as_mut_ptr(),
            buffer.len(),
        )
    };
    assert_ne!(n, NO_MEMORY, "memory suffices");
    n
}

/// Fetches blocks of an image into one buffer, through so many turners piled on it, two at most. How many were records.
pub fn blocks(stored: Stored, turners: u8, image: &[u8], blocks: &[WantedBlock], buffer: &mut [u8]) -> u64 {
    // SAFETY: as above.
    let n = unsafe {
        exported::gehunlo_blocks(
            stored as u8,
            turners,
            image.as_ptr(),
            image.len(),
            blocks.as_ptr(),
            blocks.len(),
            buffer.as_mut_ptr(),
            buffer.len(),
        )
    };
    assert_ne!(n, NO_MEMORY, "memory suffices");
    n
}
