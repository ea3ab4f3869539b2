//! A tape set as a deck shows it: reels of blocks, and the two ways to read a block.

/// The longest record that a tape can hold.
pub const LONGEST_RECORD: usize = 5_388;

/// One block of a reel, its bytes lent.
#[derive(Clone, Copy, PartialEq, Eq, Debug)]
pub enum Block<'a> {
    Record(&'a [u8]),
    Mark,
    Bad,
}

/// What a deck answers about a place.
#[derive(Clone, Copy, PartialEq, Eq, Debug)]
pub enum Kind {
    Record(usize),
    Mark,
    Bad,
    Absent,
    Short,
}

/// A deck as a device offers it: records are copied into the caller's buffer.
pub trait Deck {
    fn reels(&self) -> u32;
    fn kind(&self, reel: u32, block: u32) -> Kind;
    fn fetch(&self, reel: u32, block: u32, buffer: &mut [u8]) -> Kind;
}

/// A deck whose records lie in memory and can be lent without a copy.
pub trait Lending {
    fn reels(&self) -> u32;
    fn block(&self, reel: u32, block: u32) -> Option<Block<'_>>;
}

/// Every lending deck is a deck.
impl<T: Lending> Deck for T {
    fn reels(&self) -> u32 {
        Lending::reels(self)
    }

    fn kind(&self, reel: u32, block: u32) -> Kind {
        match self.block(reel, block) {
            None => Kind::Absent,
            Some(Block::Mark) => Kind::Mark,
            Some(Block::Bad) => Kind::Bad,
            Some(Block::Record(bytes)) => Kind::Record(bytes.len()),
        }
    }

    fn fetch(&self, reel: u32, block: u32, buffer: &mut [u8]) -> Kind {
        match self.block(reel, block) {
            None => Kind::Absent,
            Some(Block::Mark) => Kind::Mark,
            Some(Block::Bad) => Kind::Bad,
            Some(Block::Record(bytes)) => match buffer.get_mut(..bytes.len()) {
                None => Kind::Short,
                Some(front) => {
                    front.copy_from_slice(bytes);
                    Kind::Record(bytes.len())
                }
            },
        }
    }
}

/// What the survey and the reader need of a deck: a look at one block, by whatever way.
pub trait Source {
    fn reels(&self) -> u32;
    fn look(&mut self, reel: u32, block: u32) -> Option<Block<'_>>;
}

/// Blocks are looked at through a buffer, as over a real tape.
pub struct Copied<'d, D> {
    deck: &'d D,
    buffer: Box<[u8; LONGEST_RECORD]>,
}

impl<'d, D: Deck> Copied<'d, D> {
    pub fn new(deck: &'d D) -> Self {
        Copied { deck, buffer: Box::new([0; LONGEST_RECORD]) }
    }
}

impl<D: Deck> Source for Copied<'_, D> {
    fn reels(&self) -> u32 {
        self.deck.reels()
    }

    fn look(&mut self, reel: u32, block: u32) -> Option<Block<'_>> {
        match self.deck.fetch(reel, block, &mut self.buffer[..]) {
            Kind::Record(length) => Some(Block::Record(&self.buffer[..length])),
            Kind::Mark => Some(Block::Mark),
            Kind::Bad => Some(Block::Bad),
            Kind::Absent | Kind::Short => None,
        }
    }
}

/// Blocks are looked at where they lie.
pub struct Lent<'d, D>(pub &'d D);

impl<D: Lending> Source for Lent<'_, D> {
    fn reels(&self) -> u32 {
        self.0.reels()
    }

    fn look(&mut self, reel: u32, block: u32) -> Option<Block<'_>> {
        self.0.block(reel, block)
    }
}
