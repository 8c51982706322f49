//! Soundness of one record.

use crate::each::subsets;
use harness::graphs::sound as sound_by_library;
use harness::plain::record::{sound, FINISHED, OPEN};
use harness::plain::{Record, State, NONE};

fn same(state: &State, record: Record) -> bool {
    let plain = sound(state, &[record]);
    assert_eq!(sound_by_library(state, &[record]), plain, "{record:?} in {state:?}");
    plain
}

/// Every request of an array in a state, chosen with any of these cards, its graph the table's, no step done.
pub fn requests(state: &State, cards: &[u64]) -> Vec<Record> {
    let mut all = Vec::new();
    for &chosen in cards {
        for stripe in 0..state.stripes {
            for (mask, write) in (1..1 << state.units()).flat_map(|mask| [(mask, 0), (mask, 1)]) {
                let request = Record {
                    phase: OPEN,
                    write,
                    stripe,
                    mask,
                    graph: 0,
                    chosen,
                    done: 0,
                    count: 0,
                };
                all.push(Record { graph: request.graph_with(state, chosen), ..request });
            }
        }
    }
    all
}

/// Every card out, or none, of an array of N cards and as many stripes in each layout: of layout 5, one stripe of each kind.
pub fn states(cards: u64) -> Vec<State> {
    (0..cards)
        .chain([NONE])
        .map(|out| State { records: 8, out, ..State::whole(cards, cards, 16) })
        .flat_map(State::in_both_layouts)
        .collect()
}

/// The same with a fill under way, at every place.
fn filling(cards: u64) -> Vec<State> {
    let places = |state: State| (0..cards).map(move |fill| State { fill, ..state });
    states(cards).into_iter().filter(|state| state.out != NONE).flat_map(places).collect()
}

/// The cards that a request is chosen with where no fill is under way: none, and the one that is out.
fn chosen_with(state: &State) -> Vec<u64> {
    let mut cards = vec![NONE, state.out];
    cards.dedup();
    cards
}

/// Every set of steps of every request there can be, open and finished, with counts at their limits.
#[test]
fn every_done_set_of_every_request() {
    let mut sound_ones = 0u64;
    for cards in 3..=8 {
        let longest = 2 * (cards - 1) + 3;
        for state in states(cards) {
            for request in requests(&state, &chosen_with(&state)) {
                let steps = request.plan(&state).steps();
                for done in subsets(steps) {
                    let record = Record { done, count: longest - 1, ..request };
                    sound_ones += same(&state, record) as u64;
                }
                for (phase, done, count) in [OPEN, FINISHED]
                    .iter()
                    .flat_map(|&phase| [(phase, 0), (phase, steps)])
                    .flat_map(|(phase, done)| {
                        (longest - 2..=longest + 1).map(move |count| (phase, done, count))
                    })
                {
                    sound_ones += same(&state, Record { phase, done, count, ..request }) as u64;
                }
            }
        }
    }
    assert!(sound_ones > 1_000_000, "{sound_ones} sound records");
}

/// The chosen-with card, in every state with a fill under way at any place or none: an open record's is 255 or the card that is
/// out in its own stripe, a finished one's 255 or any card; no other number is one.
#[test]
fn every_chosen_with_card() {
    for cards in 3..=8 {
        let every: Vec<u64> = (0..cards).chain([NONE]).collect();
        for state in states(cards).into_iter().chain(filling(cards)) {
            for request in requests(&state, &every) {
                let Record { stripe, chosen, .. } = request;
                let filled = state.fill != 65_535 && stripe < state.fill;
                let missing = if filled { NONE } else { state.out };
                let open = chosen == NONE || chosen == missing;
                assert_eq!(same(&state, request), open, "{request:?} in {state:?}");
                let done = request.plan(&state).steps();
                let finished = Record { phase: FINISHED, done, ..request };
                assert!(same(&state, finished), "{finished:?} in {state:?}");
                for chosen in [cards, 254, 256, u64::MAX].iter().filter(|_| chosen == NONE) {
                    let (open, finished) = (
                        Record { chosen: *chosen, ..request },
                        Record { chosen: *chosen, ..finished },
                    );
                    assert!(
                        !same(&state, open) && !same(&state, finished),
                        "{open:?} in {state:?}"
                    );
                }
            }
        }
    }
}

/// Numbers at and beside every limit, and at every width.
fn wild(state: &State) -> Vec<u64> {
    let n = state.units();
    let mut numbers = vec![0, 1 << 32, u64::MAX];
    for limit in [
        1,
        3,
        6,
        n,
        state.cards,
        2 * n + 2,
        2 * n + 3,
        state.stripes,
        1 << n,
        NONE,
        1 << (2 * n + 3),
    ] {
        numbers.extend([limit - 1, limit, limit + 1]);
    }
    numbers
}

/// The record with its number at a place changed.
fn changed(record: Record, place: usize, number: u64) -> Record {
    let mut record = record;
    let fields = [
        &mut record.phase,
        &mut record.write,
        &mut record.stripe,
        &mut record.mask,
        &mut record.graph,
        &mut record.chosen,
        &mut record.done,
        &mut record.count,
    ];
    *fields.into_iter().nth(place).unwrap() = number;
    record
}

/// Each number of every request changed to each wild one, and of the free record too.
#[test]
fn each_field_wild() {
    for cards in 3..=8 {
        for state in states(cards) {
            let numbers = wild(&state);
            let mut records = requests(&state, &chosen_with(&state));
            records.push(Record::default());
            for request in records {
                let steps = if request.phase == OPEN { request.plan(&state).steps() } else { 0 };
                for record in [request, Record { phase: 2 * request.phase, done: steps, ..request }]
                {
                    for place in 0..8 {
                        for &number in &numbers {
                            same(&state, changed(record, place, number));
                        }
                    }
                }
            }
        }
    }
}

/// A state that is beyond the limits: beyond eight cards a table is not looked at, and so not sound, and nothing traps.
#[test]
fn wild_states() {
    let record = Record { phase: OPEN, mask: 1, graph: 1, chosen: NONE, ..Record::default() };
    for cards in [9, 10, 64, 65, 1 << 32, u64::MAX] {
        let state = State { records: 8, out: 0, ..State::whole(cards, u64::MAX, 16) };
        assert!(!sound_by_library(&state, &[record]));
        assert!(!sound_by_library(&state, &[Record::default()]));
    }
    for cards in 0..3 {
        let state = State { records: 8, ..State::whole(cards, 4, 16) };
        assert!(sound_by_library(&state, &[Record::default()]));
        for mask in 0..16 {
            sound_by_library(&state, &[Record { mask, ..record }]);
        }
    }
    // Fill places that no state has: nothing traps, and a free record is sound.
    for fill in [5, 6, 1024, 65_534, 65_536, 1 << 32, u64::MAX] {
        for out in [NONE, 0, 4] {
            let state = State { records: 8, out, fill, ..State::whole(5, 5, 16) };
            assert!(sound_by_library(&state, &[Record::default()]));
            sound_by_library(&state, &[Record { chosen: out, ..record }]);
        }
    }
    // Layouts that no state has: nothing traps, and a free record is sound.
    for layout in [0, 3, 6, 255, (1 << 32) + 4, (1 << 32) + 5, u64::MAX] {
        for out in [NONE, 0, 4] {
            let state = State { records: 8, layout, out, ..State::whole(5, 5, 16) };
            assert!(sound_by_library(&state, &[Record::default()]));
            for stripe in 0..5 {
                sound_by_library(&state, &[Record { stripe, chosen: out, ..record }]);
            }
        }
    }
}

/// What the layout means for a record that was chosen with a card, said by the paper's table: a write of unit 0 in stripe 1 of N = 5,
/// and a read.
#[test]
fn the_layout_decides_the_position() {
    // Position by card: of layout 4 units 0 to 3 and parity, of layout 5 units 1 to 3, parity and unit 0.
    for (layout, writes, reads) in
        [(4, [4, 3, 3, 3, 6], [2, 1, 1, 1, 1]), (5, [3, 3, 3, 6, 4], [1, 1, 1, 1, 2])]
    {
        for out in 0..5 {
            let state = State { records: 8, layout, out, ..State::whole(5, 5, 16) };
            for (write, right) in [(1, writes[out as usize]), (0, reads[out as usize])] {
                for graph in 0..8 {
                    let record = Record {
                        phase: OPEN,
                        write,
                        stripe: 1,
                        mask: 1,
                        graph,
                        chosen: out,
                        ..Record::default()
                    };
                    assert_eq!(same(&state, record), graph == right, "{record:?} in {state:?}");
                }
            }
        }
    }
}
