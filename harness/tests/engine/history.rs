//! Random histories, thousands of them, each from its own seed. The environment may name another number of them, as `HISTORIES`.

use crate::story::tell;
use crate::tally::Tally;
use crate::tested;

/// How many histories.
fn stories() -> u64 {
    match std::env::var("HISTORIES") {
        Ok(number) => number.parse().expect("HISTORIES is a number"),
        Err(_) => 6_000,
    }
}

#[test]
fn random_histories() {
    let stories = stories();
    // Two at a time: each half of the seeds has a thread of its own.
    let half = |odd: u64| {
        let mut tally = Tally::default();
        for seed in (0..stories).filter(|seed| seed % 2 == odd) {
            match tell(&tested(), seed, false) {
                Ok(met) => tally.add(&met),
                Err(what) => panic!("{what}"),
            }
        }
        tally
    };
    let mut tally = Tally::default();
    std::thread::scope(|scope| {
        for run in [scope.spawn(|| half(0)), scope.spawn(|| half(1))] {
            match run.join() {
                Ok(met) => tally.add(&met),
                Err(what) => std::panic::resume_unwind(what),
            }
        }
    });
    nothing_was_left_out(&tally);
    each_layout_had_its_part(&tally, stories);
    enough_was_filled(&tally, stories);
}

/// The histories met every graph, every way to choose afresh, every refusal that a caller can bring
/// about in an array that it keeps in order, and a longest request for every N.
fn nothing_was_left_out(tally: &Tally) {
    tally.demand("graph", &[1, 2, 3, 4, 5, 6]);
    tally.demand("finished", &[1, 2, 3, 4, 5, 6]);
    // From graph to graph: 10 times the old one and the new one.
    let afresh = [12, 34, 36, 43, 44, 46, 55, 56];
    tally.demand("afresh", &afresh);
    tally.only("afresh", &afresh);
    tally.demand("longest", &[3, 4, 5, 6, 7, 8]);
    tally.demand("open", &[0, 1, 13]);
    tally.demand("admit", &[0, 4, 5, 6, 7, 8, 9]);
    tally.demand("step", &[0, 4, 5, 10, 11]);
    tally.demand("report", &[0, 4, 5, 12]);
    tally.demand("collect", &[0, 4, 5, 7, 10]);
    tally.demand("check", &[0, 4, 12]);
    tally.demand("scan", &[0, 4, 12, 13]);
    tally.demand("start", &[0, 4, 14, 15]);
    tally.demand("rebuild", &[0, 4, 8, 14]);
}

/// Each layout had its part of the histories, and in each every graph was met, every way to choose afresh and fills to the end.
fn each_layout_had_its_part(tally: &Tally, stories: u64) {
    tally.only("layout", &[4, 5]);
    for layout in [4, 5] {
        tally.at_least("layout", layout, stories / 3);
        tally.at_least("filled to the end, layout", layout, stories / 10);
    }
    for graphs in ["graph, layout 4", "graph, layout 5"] {
        for graph in 1..=6 {
            tally.at_least(graphs, graph, stories / 10);
        }
    }
    for ways in ["afresh, layout 4", "afresh, layout 5"] {
        tally.demand(ways, &[12, 34, 36, 43, 44, 46, 55, 56]);
    }
}

/// So many histories had fresh cards in them, met by requests, by their own death and by the failures of others.
fn enough_was_filled(tally: &Tally, stories: u64) {
    tally.at_least("start", 0, stories);
    tally.at_least("rebuild", 0, 5 * stories);
    tally.at_least("rebuild", 8, stories);
    // A fresh card dies before its first stripe, in the middle, and before its last one.
    for place in 0..=2 {
        tally.at_least("fresh card dies", place, stories / 40);
    }
    // With requests open, and with none.
    tally.at_least("filled to the end", 0, stories / 10);
    tally.at_least("filled to the end", 1, stories / 10);
    tally.at_least("failure of another", 0, stories / 10);
    tally.at_least("failure of the filled", 0, stories / 40);
    for failure in 1..=4 {
        tally.at_least("failure", failure, stories / 40);
    }
    // An array is lost with no fill under way, and in the middle of one.
    tally.at_least("lost", 0, stories / 40);
    tally.at_least("lost", 1, stories / 40);
    // A stripe that is filled counts no card out; one to be filled has the card missing, or its parity.
    let whole = [1, 3, 4, 5];
    tally.only("graph, filled", &whole);
    for graph in whole {
        tally.at_least("graph, filled", graph, stories / 10);
    }
    for graph in 1..=6 {
        tally.at_least("graph, to be filled", graph, stories / 40);
    }
}
