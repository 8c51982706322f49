//! Tables: each clause of soundness broken in turn, no two open records on one stripe, the lowest free record, held stripes.

use harness::graphs::{held, lowest_free, sound};
use harness::plain::record::{self, FINISHED, OPEN};
use harness::plain::{Record, State, NONE};

/// A sound table of eight: open and finished requests of every graph that the state can choose.
fn full(state: &State) -> Vec<Record> {
    let units = state.units();
    (0..8)
        .map(|at| {
            let stripe = at % state.stripes;
            let mask = [1, (1 << units) - 1, 2, (1 << units) - 2][at as usize % 4];
            // Open ones are of stripes 0 to 3, and the finished ones chosen with any card.
            let chosen = match at {
                0 | 2 => state.out_in(stripe),
                4 => (state.out + 1) % state.cards,
                6 => state.out,
                _ => NONE,
            };
            let request = Record {
                phase: OPEN,
                write: (at % 3 > 0) as u64,
                stripe,
                mask,
                chosen,
                ..Record::default()
            };
            let request = Record { graph: request.graph_with(state, chosen), ..request };
            if at < 4 {
                return request;
            }
            Record { phase: FINISHED, done: request.plan(state).steps(), count: 3, ..request }
        })
        .collect()
}

fn states() -> impl Iterator<Item = State> {
    (4..=8u64).flat_map(|cards| {
        let state = State { records: 8, ..State::whole(cards, 4, 16) };
        let out = (0..cards).chain([NONE]).map(move |out| State { out, ..state });
        let filling = (0..4).map(move |fill| State { out: fill, fill, ..state });
        out.chain(filling).flat_map(State::in_both_layouts)
    })
}

/// An open request that was chosen with a card that is not out in its stripe, and so with that card's graph.
fn with_a_card_that_is_in(state: &State, record: &mut Record) {
    let chosen = if state.out_in(record.stripe) == 0 { 1 } else { 0 };
    let graph = record.graph_with(state, chosen);
    *record = Record { phase: OPEN, chosen, graph, done: 0, count: 0, ..*record };
}

/// Ways to break one clause, of the paper's sentence in its order.
type Break = fn(&State, &mut Record);
const BREAKS: &[(&str, Break)] = &[
    ("a free record that is not all zero", |_, r| *r = Record { count: 1, ..Record::default() }),
    ("neither free, open nor finished", |_, r| r.phase = 3),
    ("a kind that is neither", |_, r| r.write = 2),
    ("a stripe beyond the last", |s, r| r.stripe = s.stripes),
    ("no unit", |_, r| r.mask = 0),
    ("a bit at n", |s, r| r.mask |= 1 << s.units()),
    ("no graph", |_, r| r.graph = 0),
    ("a seventh graph", |_, r| r.graph = 7),
    ("another graph than the table's", |_, r| r.graph = r.graph % 6 + 1),
    ("an open one chosen with a card that is in", with_a_card_that_is_in),
    ("chosen with card N", |s, r| r.chosen = s.cards),
    ("chosen with card 254", |_, r| r.chosen = 254),
    ("a done step that no graph has", |s, r| r.done |= 1 << (2 * s.units() + 3)),
    ("more counted than can be", |s, r| r.count = 2 * s.units() + 4),
    ("a finished one that lacks a step", |_, r| {
        r.phase = FINISHED;
        r.done = 0;
    }),
    ("an open one that lacks none", |s, r| {
        r.phase = OPEN;
        r.done = r.plan(s).steps();
    }),
    ("an open one that counts 2n+3", |s, r| {
        r.phase = OPEN;
        r.done = 0;
        r.count = 2 * s.units() + 3;
    }),
];

#[test]
fn each_clause_broken() {
    for state in states() {
        let whole = full(&state);
        assert!(sound(&state, &whole) && record::sound(&state, &whole), "{whole:?} in {state:?}");
        for at in 0..8 {
            for (what, change) in BREAKS {
                let mut table = whole.clone();
                change(&state, &mut table[at]);
                assert!(
                    !record::sound(&state, &table),
                    "{what}: record {at} of {table:?} in {state:?}"
                );
                assert!(!sound(&state, &table), "{what}: record {at} of {table:?} in {state:?}");
            }
        }
    }
}

/// A done step whose forerunner is not done, for each step of each record.
#[test]
fn a_forerunner_that_is_not_done() {
    for state in states() {
        for at in 0..8 {
            let mut table = full(&state);
            let plan = table[at].plan(&state);
            for step in (0..=2 * state.units() + 2).filter(|&step| plan.steps() >> step & 1 == 1) {
                table[at] =
                    Record { phase: OPEN, stripe: table[at].stripe, done: 1 << step, ..table[at] };
                assert_eq!(
                    sound(&state, &table),
                    record::sound(&state, &table),
                    "{table:?} in {state:?}"
                );
            }
        }
    }
}

/// Two open records on one stripe, at every two places; and one open, one finished.
#[test]
fn two_on_one_stripe() {
    for state in (State { records: 8, ..State::whole(8, 64, 16) }).in_both_layouts() {
        let open = Record { phase: OPEN, mask: 1, graph: 1, chosen: NONE, ..Record::default() };
        let finished = Record { phase: FINISHED, done: 1, ..open };
        let apart: Vec<Record> = (0..8).map(|at| Record { stripe: 8 * at, ..open }).collect();
        assert!(sound(&state, &apart));
        for first in 0..8 {
            for second in (0..8).filter(|&second| second != first) {
                let mut table = apart.clone();
                table[second].stripe = table[first].stripe;
                assert!(!sound(&state, &table), "{first} and {second}");
                table[first] = Record { stripe: table[first].stripe, ..finished };
                assert!(sound(&state, &table), "{first} and {second}");
            }
        }
    }
}

/// Of tables of every length up to eight, free, open and finished records in every order: the lowest free record, and which stripes are held.
#[test]
fn free_records_and_held_stripes() {
    let states = (State { records: 8, ..State::whole(8, 8, 16) }).in_both_layouts();
    let open = Record { phase: OPEN, mask: 1, graph: 1, chosen: NONE, ..Record::default() };
    let finished = Record { phase: FINISHED, done: 1, ..open };
    for phases in 0..3usize.pow(8) {
        let table: Vec<Record> = (0..8)
            .map(|at| {
                let stripe = (at as u64 * 5) % 8;
                match phases / 3usize.pow(at) % 3 {
                    0 => Record::default(),
                    1 => Record { stripe, ..open },
                    _ => Record { stripe, ..finished },
                }
            })
            .collect();
        for (length, state) in
            [phases % 9, 8].into_iter().flat_map(|length| states.map(|state| (length, state)))
        {
            let table = &table[..length];
            let free = table.iter().position(|record| record.phase == 0).unwrap_or(length);
            assert!(sound(&state, table), "{table:?}");
            assert_eq!(lowest_free(&state, table), free as u64, "{table:?}");
            for stripe in 0..8 {
                assert_eq!(
                    held(&state, table, stripe),
                    record::held(table, stripe),
                    "{stripe} of {table:?}"
                );
            }
        }
    }
}
