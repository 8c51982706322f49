//! Placements a second, each way and in each layout: the library through its C calls, and the plain engine. Same numbers, same run, taking
//! turns.
//!
//! Run it alone on the machine. It decides nothing: it prints a table, which docs/PERFORMANCE.md keeps. With the words of a row (`placement
//! place 5 8`) it goes through that row once, by the library alone, and prints how many calls it made, for `instructions` to count.

use harness::calls::{Calls, Plain, Tested};
use harness::plain::LAYOUTS;
use harness::random::Random;
use std::hint::black_box;
use std::time::Instant;

const STRIPES: u64 = 1024;

/// What is asked of an array of 1,024 stripes.
#[derive(Clone, Copy, PartialEq, Eq)]
enum Asked {
    /// Where every block is.
    Ascending,
    InNoOrder,
    /// Each only when the answer about the one before is there.
    OneAfterTheOther,
    /// What every card holds in every stripe.
    BlockAt,
}

use Asked::*;

impl Asked {
    fn name(self) -> &'static str {
        match self {
            Ascending => "place",
            InNoOrder => "place, in no order",
            OneAfterTheOther => "place, one after the other",
            BlockAt => "block_at",
        }
    }
}

struct Row {
    asked: Asked,
    layout: u64,
    cards: u64,
}

fn rows() -> impl Iterator<Item = Row> {
    let arrays = [8, 5].into_iter().flat_map(|cards| LAYOUTS.map(|layout| (cards, layout)));
    let each = [Ascending, InNoOrder, OneAfterTheOther, BlockAt];
    arrays.flat_map(move |(cards, layout)| each.map(|asked| Row { asked, layout, cards }))
}

fn total(list: &[u64], mut answer: impl FnMut(u64) -> u64) -> u64 {
    list.iter().fold(0, |sum, &at| sum.wrapping_add(answer(at)))
}

impl Row {
    /// The blocks, or the places by card and stripe, in the order in which they are asked.
    fn list(&self) -> Vec<u64> {
        let each = if self.asked == BlockAt { self.cards } else { self.cards - 1 };
        let mut list: Vec<u64> = (0..each * STRIPES).collect();
        if self.asked == InNoOrder {
            let mut random = Random::new(each);
            for at in (1..list.len()).rev() {
                list.swap(at, random.below(at as u64 + 1) as usize);
            }
        }
        list
    }

    fn place<C: Calls>(&self, calls: &C, block: u64) -> u64 {
        calls.place(black_box(self.cards), STRIPES, black_box(self.layout), block)
    }

    fn block_at<C: Calls>(&self, calls: &C, at: u64) -> u64 {
        let (card, stripe) = (at / STRIPES, at % STRIPES);
        calls.block_at(black_box(self.cards), STRIPES, black_box(self.layout), card, stripe)
    }

    /// Asks all of the list; the sum of the answers.
    fn ask<C: Calls>(&self, calls: &C, list: &[u64]) -> u64 {
        match self.asked {
            Ascending | InNoOrder => total(list, |block| self.place(calls, block)),
            OneAfterTheOther => {
                // The highest bit of an answer is never set, but that is not known before the answer is.
                let mut last = 0;
                total(list, |block| {
                    last = black_box(self.place(calls, block + (last >> 63)));
                    last
                })
            }
            BlockAt => total(list, |at| self.block_at(calls, at)),
        }
    }

    /// Calls a second of the library and of the plain engine: the best of many rounds in which they take turns, and their answers are the same.
    fn measure(&self) -> (f64, f64) {
        let list = self.list();
        let tested = || self.ask(&Tested, &list);
        let plain = || self.ask(&Plain, &list);
        assert_eq!(tested(), plain(), "the answers are the same");
        let round = |run: &dyn Fn() -> u64| {
            let start = Instant::now();
            black_box(run());
            list.len() as f64 / start.elapsed().as_secs_f64()
        };
        (0..4_000)
            .fold((0.0, 0.0), |(a, b): (f64, f64), _| (a.max(round(&tested)), b.max(round(&plain))))
    }
}

fn main() {
    let words: Vec<String> = std::env::args().skip(1).collect();
    if let [name, layout, cards] = &words[..] {
        let number = |word: &String| word.parse().expect("a number");
        let words = (name.as_str(), number(layout), number(cards));
        let named = |row: &Row| (row.asked.name(), row.layout, row.cards) == words;
        let row = rows().find(named).expect("a row of the table");
        let list = row.list();
        black_box(row.ask(&Tested, &list));
        println!("{}", list.len());
        return;
    }
    println!("| call | layout | N | library, million/s | plain engine, million/s | times slower |");
    println!("|---|---|---|---|---|---|");
    for row in rows() {
        let (library, engine) = row.measure();
        println!(
            "| {} | {} | {} | {:.1} | {:.1} | {:.2} |",
            row.asked.name(),
            row.layout,
            row.cards,
            library / 1e6,
            engine / 1e6,
            engine / library
        );
    }
}
