//! Every order: each request of a small array in all orders of its steps, with each card reported
//! at each moment. After every step the tested engine is compared with the plain one, and at the
//! end the stripe with the row; then the card is filled, and the stripe compared once more.
//!
//! Which card holds a position differs between the layouts; the ways are as many in both.
//!
//! A stripe that is filled counts no card out: what its requests come to when the fresh card dies is the same.

use crate::pair::{Call, Pair, Side};
use crate::tested;
use harness::calls::{Answer, Calls, Record, State};
use harness::plain::blocks::make_right;
use harness::plain::Row;

/// An array of `stripes` stripes with unlike bytes in all places and right parity.
fn array(cards: u64, stripes: u64, layout: u64) -> Side {
    let state = State { layout, ..State::whole(cards, stripes, 16) };
    let mut side = Side::for_state(state);
    for (at, byte) in side.image.iter_mut().enumerate() {
        *byte = (at * 37 + at / 16 * 11) as u8;
    }
    make_right(&state, &mut side.image);
    side
}

/// Goes on from here in every way. `ways` counts those that were gone to the end.
fn go_on(calls: &dyn Calls, here: &Side, row: &Row, steps: u64, ways: &mut u64) {
    let record = here.table[0];
    let units = here.state.units();
    assert!(steps <= 2 * units + 3);
    if record.phase == 2 {
        *ways += 1;
        assert_eq!(record.count, steps);
        assert!(row.agrees(&here.state, &here.image, record.stripe));
        collect(calls, here, row, record);
        fill(calls, here, row, record.stripe);
        return;
    }
    holds(calls, here);
    let mut taken = 0;
    for step in 0..=2 * units + 3 {
        let mut pair = Pair::new(calls, here.clone());
        let answer = pair.call(&Call::Step { record: 0, step }, &mut Vec::new()).unwrap();
        if answer.number == 0 {
            taken += 1;
            go_on(calls, &pair.theirs, row, steps + 1, ways);
        }
    }
    assert_ne!(taken, 0, "an open request can go on");
}

/// Collects the finished request and, if it is a read, holds what it got to the row.
fn collect(calls: &dyn Calls, here: &Side, row: &Row, record: Record) {
    let mut pair = Pair::new(calls, here.clone());
    let mut result = vec![0xEE; 16 * 8];
    let answer = pair.call(&Call::Collect { record: 0 }, &mut result).unwrap();
    assert_eq!((answer.number, answer.first), (0, record.count));
    let read = if record.write == 0 { row.read(record.stripe, record.mask) } else { Vec::new() };
    assert_eq!(result[..read.len()], read);
    assert!(result[read.len()..].iter().all(|&byte| byte == 0xEE));
}

/// Fills the card that is out, with the finished request in its record still; the stripe says what the row says, on every card.
fn fill(calls: &dyn Calls, here: &Side, row: &Row, stripe: u64) {
    let mut pair = Pair::new(calls, here.clone());
    assert_eq!(pair.call(&Call::Start, &mut Vec::new()), Ok(Answer::accepted(0, 0)));
    for filled in 0..here.state.stripes {
        let answer = pair.call(&Call::Rebuild, &mut Vec::new());
        assert_eq!(answer, Ok(Answer::accepted(filled, 0)));
    }
    assert_eq!(pair.theirs.state.out, 255);
    assert!(row.agrees(&pair.theirs.state, &pair.theirs.image, stripe));
}

/// While the request is open its stripe is not filled.
fn holds(calls: &dyn Calls, here: &Side) {
    let fill = here.table[0].stripe;
    let mut pair = Pair::new(calls, Side { state: State { fill, ..here.state }, ..here.clone() });
    assert_eq!(pair.call(&Call::Rebuild, &mut Vec::new()), Ok(Answer::refused(8)));
}

/// The request after each set of its steps in turn, with `card` reported there and its bytes lost.
fn after_reports(calls: &dyn Calls, admitted: &Side, card: u64) -> Vec<Side> {
    let units = admitted.state.units();
    let mut seen = vec![admitted.clone()];
    let mut failed = Vec::new();
    while let Some(here) = seen.get(failed.len()).cloned() {
        failed.push(report(calls, &here, card));
        for step in 0..=2 * units + 2 {
            let mut next = Pair::new(calls, here.clone());
            let answer = next.call(&Call::Step { record: 0, step }, &mut Vec::new()).unwrap();
            if answer.number == 0 && next.theirs.table[0].phase == 1 && !seen.contains(&next.theirs)
            {
                seen.push(next.theirs);
            }
        }
    }
    failed
}

/// Reports the card, which is out in all stripes then, and loses its bytes.
fn report(calls: &dyn Calls, here: &Side, card: u64) -> Side {
    let mut failed = Pair::new(calls, here.clone());
    let reported = failed.call(&Call::Report { card }, &mut Vec::new());
    assert_eq!(reported, Ok(Answer::accepted(0, 0)));
    assert_eq!((failed.theirs.state.out, failed.theirs.state.fill), (card, 65_535));
    let lost = failed.theirs.card(card);
    failed.theirs.image[lost].fill(0xDD);
    failed.theirs
}

/// The array before the request: the card that is going to die is whole, or a fresh one that is filled up to this stripe, with one
/// more to go.
fn before(array: &Side, stripe: u64, card: u64, fresh: bool) -> Side {
    let mut side = array.clone();
    if fresh {
        side.state = State { out: card, fill: stripe + 1, ..side.state };
        let missing = side.missing();
        side.image[missing].fill(0xCC);
    }
    side
}

/// All ways of all requests on one stripe of a layout; how many there are. A fresh card that dies leads to just the same as a whole one.
fn ways_of(cards: u64, stripe: u64, layout: u64) -> u64 {
    let calls = tested();
    let array = array(cards, stripe + 2, layout);
    let mut ways = 0;
    for (write, card) in (0..cards).flat_map(|card| [(0, card), (1, card)]) {
        for mask in 1u64..1 << (cards - 1) {
            let payload: Vec<u8> = match write {
                0 => Vec::new(),
                _ => (0..16 * mask.count_ones()).map(|at| (at * 59 + 7) as u8).collect(),
            };
            let [whole, fresh] = [false, true].map(|fresh| {
                let mut pair = Pair::new(&calls, before(&array, stripe, card, fresh));
                let admit = Call::Admit { write, stripe, mask, payload: payload.clone() };
                assert_eq!(pair.call(&admit, &mut Vec::new()), Ok(Answer::accepted(0, 0)));
                assert_eq!(pair.theirs.table[0].chosen, 255);
                after_reports(&calls, &pair.theirs, card)
            });
            assert!(whole == fresh, "layout {layout}, stripe {stripe}, mask {mask:b}, card {card}");
            let mut row = Row::of(&array.state, &array.image);
            row.write(stripe, if write == 1 { mask } else { 0 }, &payload);
            for here in &whole {
                go_on(&calls, here, &row, here.table[0].count, &mut ways);
            }
        }
    }
    ways
}

#[test]
fn every_order_of_three_cards() {
    for (stripe, layout) in (0..3).flat_map(|stripe| [(stripe, 4), (stripe, 5)]) {
        assert_eq!(ways_of(3, stripe, layout), 308);
    }
}

#[test]
fn every_order_of_four_cards() {
    for (stripe, layout) in (0..4).flat_map(|stripe| [(stripe, 4), (stripe, 5)]) {
        assert_eq!(ways_of(4, stripe, layout), 6_225);
    }
}

#[test]
fn every_order_of_five_cards() {
    for layout in [4, 5] {
        assert_eq!(ways_of(5, 1, layout), 187_248);
    }
}
