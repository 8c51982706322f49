//! Wild numbers, and each of them in every number of every call, state and record.

use crate::pair::{Call, Pair, Side};
use crate::story::some_side;
use crate::tested;
use harness::calls::{Plain, Record, State};
use harness::numbers::wild;
use harness::plain::LAYOUTS;
use harness::random::Random;

/// A wild number.
pub fn wild_number(random: &mut Random) -> u64 {
    let number = random.pick(&wild());
    if random.chance(1, 8) {
        random.any()
    } else {
        number
    }
}

/// Leaves a number as it is, moves it by one, or makes it wild.
pub fn maybe_wild(random: &mut Random, number: u64) -> u64 {
    match random.below(10) {
        0 => wild_number(random),
        1 => number.wrapping_add(1),
        2 => number.wrapping_sub(1),
        _ => number,
    }
}

/// A number below `end`, or now and then one that is not.
pub fn mostly_below(random: &mut Random, end: u64) -> u64 {
    let number = random.below(end);
    maybe_wild(random, number)
}

/// A field of a record.
pub fn field(record: &mut Record, at: u64) -> &mut u64 {
    match at {
        0 => &mut record.phase,
        1 => &mut record.write,
        2 => &mut record.stripe,
        3 => &mut record.mask,
        4 => &mut record.graph,
        5 => &mut record.chosen,
        6 => &mut record.done,
        _ => &mut record.count,
    }
}

/// A number of the state.
pub fn number_of(state: &mut State, at: u64) -> &mut u64 {
    match at {
        0 => &mut state.cards,
        1 => &mut state.stripes,
        2 => &mut state.block,
        3 => &mut state.records,
        4 => &mut state.layout,
        5 => &mut state.out,
        6 => &mut state.lost,
        _ => &mut state.fill,
    }
}

/// How many numbers a state has.
pub const NUMBERS: u64 = 8;

/// An open array of five cards and three stripes, with this card out; and one stripe of it filled, if it is to fill.
fn opened(layout: u64, out: u64, filling: bool) -> Side {
    let calls = tested();
    let mut random = Random::new(5);
    let state = State { records: 2, layout, out, ..State::whole(5, 3, 16) };
    let side = some_side(&mut random, state);
    let mut pair = Pair::new(&calls, side);
    let mut events = vec![Call::open(&state)];
    if filling {
        events.extend([Call::Start, Call::Rebuild]);
    }
    for event in events {
        assert_eq!(pair.call(&event, &mut Vec::new()).unwrap().number, 0);
    }
    pair.theirs
}

/// Every wild number in every number of every call and of the state: with no card out, with one, and while it fills, in both layouts.
#[test]
fn every_number_wild() {
    for layout in LAYOUTS {
        for (out, filling) in [(255, false), (2, false), (2, true)] {
            every_number_wild_in(&opened(layout, out, filling));
        }
    }
}

/// The same in this array.
fn every_number_wild_in(base: &Side) {
    let calls = tested();
    let State { cards, stripes, block, records, layout, out, .. } = base.state;
    let try_all = |side: &Side, call: Call| {
        let mut result = vec![0xEE; 70];
        if let Err(what) = Pair::new(&calls, side.clone()).call(&call, &mut result) {
            panic!("{what}");
        }
    };
    for w in wild() {
        let all = [
            Call::Place { cards: w, stripes, layout, block: 7 },
            Call::Place { cards, stripes: w, layout, block: 7 },
            Call::Place { cards, stripes, layout: w, block: 7 },
            Call::Place { cards, stripes, layout, block: w },
            Call::BlockAt { cards: w, stripes, layout, card: 1, stripe: 1 },
            Call::BlockAt { cards, stripes: w, layout, card: 1, stripe: 1 },
            Call::BlockAt { cards, stripes, layout: w, card: 1, stripe: 1 },
            Call::BlockAt { cards, stripes, layout, card: w, stripe: 1 },
            Call::BlockAt { cards, stripes, layout, card: 1, stripe: w },
            Call::Open { cards: w, stripes, block, records, layout, out },
            Call::Open { cards, stripes: w, block, records, layout, out },
            Call::Open { cards, stripes, block: w, records, layout, out },
            Call::Open { cards, stripes, block, records: w, layout, out },
            Call::Open { cards, stripes, block, records, layout: w, out },
            Call::Open { cards, stripes, block, records, layout, out: w },
            Call::Admit { write: 0, stripe: w, mask: 3, payload: vec![] },
            Call::Admit { write: 0, stripe: 0, mask: w, payload: vec![] },
            Call::Admit { write: 1, stripe: w, mask: 3, payload: vec![1; 32] },
            Call::Admit { write: 1, stripe: 0, mask: w, payload: vec![1; 16] },
            Call::Step { record: w, step: 0 },
            Call::Step { record: 0, step: w },
            Call::Report { card: w },
            Call::Collect { record: w },
        ];
        all.into_iter().for_each(|call| try_all(base, call));
        for which in 0..NUMBERS {
            let mut side = base.clone();
            *number_of(&mut side.state, which) = w;
            let all = [
                Call::Scan,
                Call::Check,
                Call::Admit { write: 0, stripe: 0, mask: 1, payload: vec![] },
                Call::Step { record: 0, step: 0 },
                Call::Report { card: 1 },
                Call::Report { card: 2 },
                Call::Start,
                Call::Rebuild,
                Call::Collect { record: 0 },
            ];
            all.into_iter().for_each(|call| try_all(&side, call));
        }
        for which in 0..8 {
            let mut side = base.clone();
            let admit = Call::Admit { write: 0, stripe: 1, mask: 5, payload: vec![] };
            admit.make(&Plain, &mut side, &mut []);
            *field(&mut side.table[0], which) = w;
            let all = [
                Call::Check,
                Call::Admit { write: 0, stripe: 0, mask: 1, payload: vec![] },
                Call::Step { record: 0, step: 0 },
                Call::Rebuild,
                Call::Collect { record: 0 },
            ];
            all.into_iter().for_each(|call| try_all(&side, call));
        }
    }
}

/// Calls that are lent the state, none of which refuses the empty array of a state by 1 but for the state's numbers.
fn lent_the_state() -> [Call; 8] {
    [
        Call::Scan,
        Call::Check,
        Call::Admit { write: 0, stripe: 0, mask: 1, payload: vec![] },
        Call::Step { record: 0, step: 0 },
        Call::Report { card: 0 },
        Call::Start,
        Call::Rebuild,
        Call::Collect { record: 0 },
    ]
}

/// Every layout number that is small, wild or beside 4 and 5 at a width, in arrays with no card out, with one, while it fills, and
/// lost: all but 4 and 5 are refused by 1 in every call that is lent the state, in open and by placement each way, and those are not.
#[test]
fn every_layout_number() {
    let calls = tested();
    let whole = State::whole(4, 3, 16);
    let states = [
        whole,
        State { lost: 1, ..whole },
        State { out: 1, ..whole },
        State { out: 3, fill: 0, ..whole },
        State { out: 1, fill: 2, lost: 1, ..whole },
    ];
    let beside = (0..64).flat_map(|width| [(1u64 << width) | 4, (1u64 << width) | 5]);
    for layout in (0..=600).chain(beside).chain(wild()) {
        let beyond = !(layout == 4 || layout == 5);
        for (cards, stripes) in [(3, 1), (4, 3), (8, 1024)] {
            for place in [
                Call::Place { cards, stripes, layout, block: 0 },
                Call::Place { cards, stripes, layout, block: u64::MAX },
                Call::BlockAt { cards, stripes, layout, card: 0, stripe: 0 },
                Call::BlockAt { cards, stripes, layout, card: cards, stripe: stripes },
            ] {
                let number = place.make(&calls, &mut Side::default(), &mut []).number;
                assert_eq!(number == 1, beyond, "{place:?}");
            }
        }
        for state in states.map(|state| State { layout, ..state }) {
            for call in lent_the_state().into_iter().chain([Call::open(&state)]) {
                let mut pair = Pair::new(&calls, Side::for_state(state));
                let answer = pair.call(&call, &mut Vec::new()).unwrap();
                assert_eq!(answer.number == 1, beyond, "{call:?} of {state:?}: {answer:?}");
                // Another reason to refuse it changes nothing: 1 is tested first.
                let mut pair = Pair::new(&calls, Side { state, ..Side::default() });
                let answer = pair.call(&call, &mut Vec::new()).unwrap();
                assert_eq!(answer.number == 1, beyond, "{call:?} of {state:?}: {answer:?}");
            }
        }
    }
}

/// Every fill place at and beside a limit, in arrays of few stripes and of as many as there can be, with every card out and none: what
/// is beyond is refused by 1 in every call that is lent the state, and what is not is not.
#[test]
fn every_fill_place() {
    let calls = tested();
    let far = [65_534, 65_535, 65_536, 1 << 32, (1 << 32) + 1, 1 << 63, u64::MAX];
    for stripes in [1, 2, 3, 4, 5, 1023, 1024] {
        for out in [255, 0, 1, 2, 3] {
            for fill in [0, 1, stripes - 1, stripes, stripes + 1, 1025].into_iter().chain(far) {
                let state = State { out, fill, ..State::whole(4, stripes, 16) };
                let beyond = fill != 65_535 && (fill >= stripes || out == 255);
                for (state, call) in state
                    .in_both_layouts()
                    .into_iter()
                    .flat_map(|state| lent_the_state().map(|call| (state, call)))
                {
                    let mut pair = Pair::new(&calls, Side::for_state(state));
                    let answer = pair.call(&call, &mut Vec::new()).unwrap();
                    assert_eq!(answer.number == 1, beyond, "{call:?} of {state:?}: {answer:?}");
                }
            }
        }
    }
}
