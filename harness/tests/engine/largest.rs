//! The smallest and the largest array there can be, and all sizes of a block, in both layouts.

use crate::pair::{Call, Pair};
use crate::story::some_side;
use crate::tested;
use harness::calls::{Answer, State};
use harness::plain::blocks::in_image;
use harness::plain::Row;
use harness::random::Random;

fn call(pair: &mut Pair, call: Call) -> Answer {
    pair.call(&call, &mut Vec::new()).unwrap_or_else(|what| panic!("{what}"))
}

/// A request for all units of the last stripe, from admission to collection; what it read.
fn request(pair: &mut Pair, write: u64, payload: Vec<u8>) -> Vec<u8> {
    let state = pair.theirs.state;
    let (stripe, mask) = (state.stripes - 1, (1 << state.units()) - 1);
    assert_eq!(call(pair, Call::Admit { write, stripe, mask, payload }), Answer::of(0));
    for step in 0..=2 * state.units() + 2 {
        call(pair, Call::Step { record: 0, step });
    }
    let mut result = vec![0; (state.units() * state.block) as usize];
    let collected = pair.call(&Call::Collect { record: 0 }, &mut result).unwrap();
    assert_eq!(collected.number, 0);
    result
}

/// Finds a wrong last byte, then opens, writes the last stripe, loses a card and reads it back; fills a fresh one, loses another
/// and reads it back once more.
fn run(state: State) {
    let calls = tested();
    let mut random = Random::new(state.image_length());
    let side = some_side(&mut random, state);
    let mut row = Row::of(&state, &side.image);
    let mut pair = Pair::new(&calls, side);
    let State { cards, stripes, block, .. } = state;
    let open = Call::open(&state);
    let (stripe, mask) = (stripes - 1, (1 << state.units()) - 1);

    let last = in_image(&state, stripe, 1).end - 1;
    pair.theirs.image[last] ^= 1;
    pair.ours.image[last] ^= 1;
    let wrong = Answer { number: 13, first: stripe, second: block - 1 };
    assert_eq!(call(&mut pair, open.clone()), wrong);
    pair.theirs.image[last] ^= 1;
    pair.ours.image[last] ^= 1;
    assert_eq!(call(&mut pair, open), Answer::of(0));

    let payload = random.bytes((state.units() * block) as usize);
    row.write(stripe, mask, &payload);
    request(&mut pair, 1, payload);
    assert!(row.agrees(&pair.theirs.state, &pair.theirs.image, stripe));
    assert_eq!(call(&mut pair, Call::Check), Answer::of(0));
    for card in [cards - 1, 0] {
        assert_eq!(call(&mut pair, Call::Report { card }), Answer::of(0));
        random.fill(&mut pair.theirs.image[pair.ours.missing()]);
        pair.ours.image.clone_from(&pair.theirs.image);
        assert_eq!(request(&mut pair, 0, Vec::new()), row.read(stripe, mask));
        fill(&mut pair);
    }
}

/// Fills the card that is out to the end; parity is right then.
fn fill(pair: &mut Pair) {
    assert_eq!(call(pair, Call::Start), Answer::of(0));
    for stripe in 0..pair.theirs.state.stripes {
        assert_eq!(call(pair, Call::Rebuild), Answer::accepted(stripe, 0));
    }
    assert_eq!(pair.theirs.state.out, 255);
    assert_eq!(call(pair, Call::Check), Answer::of(0));
}

#[test]
fn the_smallest_and_the_largest_array() {
    let (smallest, largest) =
        (State::whole(3, 1, 16), State { records: 8, ..State::whole(8, 1024, 512) });
    smallest.in_both_layouts().into_iter().for_each(run);
    largest.in_both_layouts().into_iter().for_each(run);
}

#[test]
fn every_size_of_a_block() {
    for cards in 3..=8 {
        for sixteens in 1..=32 {
            let state = State { records: 2, ..State::whole(cards, cards + 1, 16 * sixteens) };
            state.in_both_layouts().into_iter().for_each(run);
        }
    }
}
