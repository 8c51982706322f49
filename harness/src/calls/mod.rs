//! The calls as a C program makes them: numbers in, buffers lent, one packed number back.
//!
//! `Calls` has one method for each function of include/coppicetune.h. Tests and benchmarks are
//! written over it, so that the same text runs the library (`recorder::Library`) and the plain
//! engine (`Plain`).

mod plain;

pub use crate::plain::{Record, State};
pub use plain::Plain;

/// The engine under test.
pub use crate::recorder::Library as Tested;

/// What a caller lends to the calls of the engine. A call takes of it what its C function takes.
pub struct Lent<'a> {
    pub state: &'a mut State,
    pub table: &'a mut [Record],
    pub work: &'a mut [u8],
    pub image: &'a mut [u8],
}

impl Lent<'_> {
    /// The same once more, for a while.
    pub fn again(&mut self) -> Lent<'_> {
        Lent { state: self.state, table: self.table, work: self.work, image: self.image }
    }
}

/// An engine behind the C interface. Slices stand for a pointer and a length.
pub trait Calls {
    fn place(&self, cards: u64, stripes: u64, layout: u64, block: u64) -> u64;
    fn block_at(&self, cards: u64, stripes: u64, layout: u64, card: u64, stripe: u64) -> u64;
    fn scan(&self, state: &State, image: &[u8]) -> u64;
    /// Opens an array of the numbers that are asked for; a lost mark and a fill place among them play no part.
    fn open(&self, lent: &mut Lent, asked: &State) -> u64;
    fn admit(&self, lent: &mut Lent, write: u64, stripe: u64, mask: u64, payload: &[u8]) -> u64;
    fn step(&self, lent: &mut Lent, record: u64, step: u64) -> u64;
    fn report(&self, state: &mut State, card: u64) -> u64;
    fn start(&self, state: &mut State) -> u64;
    fn rebuild(&self, state: &mut State, table: &[Record], image: &mut [u8]) -> u64;
    fn collect(&self, lent: &mut Lent, record: u64, result: &mut [u8]) -> u64;
    fn check(&self, state: &State, table: &[Record], image: &[u8]) -> u64;
}

/// An answer: its number, 0 if accepted, and two values.
#[derive(Clone, Copy, PartialEq, Eq, Debug)]
pub struct Answer {
    pub number: u64,
    pub first: u64,
    pub second: u64,
}

impl Answer {
    pub fn accepted(first: u64, second: u64) -> Answer {
        Answer { number: 0, first, second }
    }

    pub fn refused(number: u64) -> Answer {
        Answer { number, first: 0, second: 0 }
    }

    /// The three parts of a packed answer: 16 bits, 16 bits and 32 bits, lowest first.
    pub fn of(packed: u64) -> Answer {
        Answer { number: packed & 0xFFFF, first: packed >> 16 & 0xFFFF, second: packed >> 32 }
    }
}

/// Packs an answer: the number, the first value times 2^16, the second times 2^32.
pub fn pack(number: u64, first: u64, second: u64) -> u64 {
    number + (first << 16) + (second << 32)
}
