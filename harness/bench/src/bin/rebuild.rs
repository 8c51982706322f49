//! How long it takes to fill a card: a start and S rebuild steps of the library through its C calls, with an empty table, beside a
//! plain C loop over the same blocks and the plain engine. Same image, same run, taking turns.
//!
//! Run it alone on the machine. It decides nothing: it prints a table, which docs/PERFORMANCE.md keeps.

use harness::calls::{pack, Calls, Plain, Record, State, Tested};
use harness::plain::blocks::make_right;
use harness::plain::NONE;
use harness::random::Random;
use std::hint::black_box;
use std::time::Instant;

extern "C" {
    fn plain_rebuild(cards: usize, stripes: usize, block: usize, out: usize, image: *mut u8);
}

/// The table is empty, and as long as it can be.
const RECORDS: u64 = 8;

/// An array with right parity and one of its cards out.
struct Bench {
    state: State,
    table: Vec<Record>,
    image: Vec<u8>,
}

impl Bench {
    fn new(cards: u64, stripes: u64, block: u64) -> Bench {
        let state =
            State { records: RECORDS, out: cards / 2, ..State::whole(cards, stripes, block) };
        let mut image = Random::new(cards * block).bytes(state.image_length() as usize);
        make_right(&state, &mut image);
        Bench { state, table: vec![Record::default(); RECORDS as usize], image }
    }

    /// Fills the card by the calls, from the start to the last stripe.
    fn fill<C: Calls>(&mut self, calls: &C) {
        let mut state = self.state;
        assert_eq!(calls.start(&mut state), 0);
        for stripe in 0..state.stripes {
            let answer = calls.rebuild(&mut state, &self.table, black_box(&mut self.image));
            assert_eq!(answer, pack(0, stripe, 0));
        }
        assert_eq!(state.out, NONE);
    }

    /// Fills the card by the C loop.
    fn fill_plainly(&mut self) {
        let (cards, stripes, block) = self.state.sizes();
        let image = black_box(&mut self.image).as_mut_ptr();
        unsafe { plain_rebuild(cards, stripes, block, self.state.out as usize, image) }
    }

    /// Spoils the card, has it filled, and looks whether the image is as it was.
    fn tries(&mut self, fill: impl Fn(&mut Bench)) {
        let right = self.image.clone();
        let size = (self.state.stripes * self.state.block) as usize;
        let card = self.state.out as usize * size;
        self.image[card..card + size].fill(0xDD);
        fill(self);
        assert!(self.image == right, "the card is filled with what it held");
    }
}

/// Microseconds for each way to fill: the best of many rounds in which they take turns.
fn measure(bench: &mut Bench, ways: &[&dyn Fn(&mut Bench)]) -> Vec<f64> {
    let repeats = (8_000_000 / bench.image.len()).max(1);
    let mut best = vec![f64::INFINITY; ways.len()];
    for _ in 0..400 {
        for (way, least) in ways.iter().zip(&mut best) {
            let start = Instant::now();
            for _ in 0..repeats {
                way(bench);
            }
            *least = least.min(start.elapsed().as_secs_f64() * 1e6 / repeats as f64);
        }
    }
    best
}

/// One row of the table: the library's time, and for each of the others its time and the library's in proportion to it.
fn row(cards: u64, stripes: u64, block: u64) {
    let mut bench = Bench::new(cards, stripes, block);
    let ways: [&dyn Fn(&mut Bench); 3] =
        [&|bench| bench.fill(&Tested), &|bench| bench.fill_plainly(), &|bench| bench.fill(&Plain)];
    ways.iter().for_each(|way| bench.tries(way));
    let times = measure(&mut bench, &ways);
    print!(
        "| {cards} | {stripes} | {block} | {} KiB | {:.1} µs |",
        bench.image.len() / 1024,
        times[0]
    );
    for time in &times[1..] {
        print!(" {time:.1} µs | {:.2} |", times[0] / time);
    }
    println!();
}

fn main() {
    println!("| N | S | B | image | start and S rebuild steps | plain C | ratio | plain engine | ratio |");
    println!("|---|---|---|---|---|---|---|---|---|");
    for (cards, stripes, block) in [
        (8, 1024, 512),
        (5, 1024, 512),
        (4, 1024, 512),
        (3, 1024, 512),
        (8, 1024, 64),
        (8, 64, 512),
    ] {
        row(cards, stripes, block);
    }
}
