//! The scan of an idle array against the independent implementation: the whole answer, on every image and state below.
use harness::calls::{Answer, Calls, Plain, Record, State, Tested};
use harness::numbers::wild;
use harness::plain::blocks::{make_right, on_card};
use harness::random::Random;
use std::collections::BTreeSet;

/// Where a byte of a card's block stands.
fn at(state: &State, card: usize, stripe: usize, byte: usize) -> usize {
    on_card(state, card as u64, stripe as u64).start + byte
}

fn same(state: &State, image: &[u8]) -> Answer {
    let reply = Answer::of(Tested.scan(state, image));
    assert_eq!(
        reply,
        Answer::of(Plain.scan(state, image)),
        "{state:?}, an image of {} bytes",
        image.len()
    );
    reply
}

fn disagrees(stripe: usize, byte: usize) -> Answer {
    Answer { number: 13, first: stripe as u64, second: byte as u64 }
}

fn pick(numbers: &mut Random, bound: usize) -> usize {
    numbers.below(bound as u64) as usize
}

fn right_image(numbers: &mut Random, state: &State) -> Vec<u8> {
    let (cards, stripes, block) = state.sizes();
    let mut image: Vec<u8> = (0..cards * stripes * block).map(|_| numbers.number() as u8).collect();
    make_right(state, &mut image);
    image
}

/// Every legal N with several S and B, in both layouts.
fn shapes() -> Vec<State> {
    let mut shapes = Vec::new();
    for cards in 3..=8 {
        for stripes in [1, 2, 5, 9, 64] {
            for block in [16, 32, 48, 512] {
                shapes.push(State::whole(cards, stripes, block));
            }
        }
        shapes.push(State::whole(cards, 1024, 16));
        shapes.push(State::whole(cards, 1023, 48));
    }
    shapes.push(State::whole(8, 1024, 512));
    shapes.into_iter().flat_map(State::in_both_layouts).collect()
}

#[test]
fn right_images() {
    let mut numbers = Random::new(1);
    for state in shapes() {
        let image = right_image(&mut numbers, &state);
        assert_eq!(same(&state, &image), Answer::accepted(0, 0));
        assert_eq!(same(&state, &vec![0; image.len()]), Answer::accepted(0, 0));
    }
}

#[test]
fn one_damaged_byte() {
    let mut numbers = Random::new(2);
    for state in shapes() {
        let (cards, stripes, block) = state.sizes();
        let mut image = right_image(&mut numbers, &state);
        let (card, stripe, byte) = (cards - 1, stripes - 1, block - 1);
        let mut places = vec![
            (0, 0, 0),
            (card, stripe, byte),
            (0, stripe, byte),
            (card, 0, 0),
            (0, 0, byte),
            (card, stripe, 0),
        ];
        for _ in 0..20 {
            places.push((
                pick(&mut numbers, cards),
                pick(&mut numbers, stripes),
                pick(&mut numbers, block),
            ));
        }
        for (card, stripe, byte) in places {
            let change = 1 << numbers.below(8);
            image[at(&state, card, stripe, byte)] ^= change;
            assert_eq!(same(&state, &image), disagrees(stripe, byte));
            image[at(&state, card, stripe, byte)] ^= change;
        }
    }
}

/// Several damages at different places: the lowest stripe is given, and the lowest byte in it.
#[test]
fn several_damaged_bytes() {
    let mut numbers = Random::new(3);
    for state in shapes() {
        let (cards, stripes, block) = state.sizes();
        let right = right_image(&mut numbers, &state);
        for count in 2..10 {
            let places: BTreeSet<(usize, usize)> = (0..count)
                .map(|_| (pick(&mut numbers, stripes), pick(&mut numbers, block)))
                .collect();
            let mut image = right.clone();
            for &(stripe, byte) in &places {
                image[at(&state, pick(&mut numbers, cards), stripe, byte)] ^= 1 << numbers.below(8);
            }
            let &(stripe, byte) = places.iter().next().expect("there are some");
            assert_eq!(same(&state, &image), disagrees(stripe, byte));
        }
    }
}

/// The same change on two cards at one place leaves the sum as it was.
#[test]
fn damages_that_cancel() {
    let mut numbers = Random::new(4);
    for state in shapes() {
        let (cards, stripes, block) = state.sizes();
        let mut image = right_image(&mut numbers, &state);
        let (stripe, byte) = (pick(&mut numbers, stripes), pick(&mut numbers, block));
        image[at(&state, 0, stripe, byte)] ^= 0x5a;
        image[at(&state, cards - 1, stripe, byte)] ^= 0x5a;
        assert_eq!(same(&state, &image), Answer::accepted(0, 0));
        image[at(&state, 1, stripe, byte)] ^= 0x01;
        assert_eq!(same(&state, &image), disagrees(stripe, byte));
    }
}

#[test]
fn random_images() {
    let mut numbers = Random::new(5);
    for state in shapes() {
        let mut image = right_image(&mut numbers, &state);
        for byte in &mut image {
            *byte ^= (numbers.below(100) == 0) as u8;
        }
        same(&state, &image);
        image.iter_mut().for_each(|byte| *byte = numbers.number() as u8);
        same(&state, &image);
    }
}

/// Parity is the exclusive or of a stripe's units wherever it stands: of any image both layouts answer the same.
#[test]
fn both_layouts_answer_the_same() {
    let mut numbers = Random::new(9);
    for state in shapes().into_iter().filter(|state| state.layout == 4) {
        let five = State { layout: 5, ..state };
        let mut image = right_image(&mut numbers, &state);
        assert_eq!(same(&five, &image), Answer::accepted(0, 0));
        make_right(&five, &mut image);
        assert_eq!(same(&state, &image), Answer::accepted(0, 0));
        for _ in 0..4 {
            let at = pick(&mut numbers, image.len());
            image[at] ^= 1 << numbers.below(8);
            assert_eq!(same(&state, &image), same(&five, &image));
        }
    }
}

#[test]
fn wrong_lengths() {
    let mut numbers = Random::new(6);
    for state in shapes() {
        let (_, _, block) = state.sizes();
        let mut longer = right_image(&mut numbers, &state);
        let len = longer.len();
        longer.resize(len + block, 0);
        for wrong in [0, 1, len - block, len - 1, len + 1, len + block] {
            assert_eq!(same(&state, &longer[..wrong]), Answer::refused(2));
        }
        assert_eq!(same(&state, &longer[1..len]), Answer::refused(2));
    }
}

/// Numbers at the limits, beyond them and wild, two at a time.
#[test]
fn the_limits() {
    let image = vec![0u8; 3 * 2 * 16];
    let mut numbers = wild();
    numbers.extend([24, 32, 48, 496, 511, 512, 513, 528]);
    let with = |mut state: State, field: usize, number: u64| {
        match field {
            0 => state.cards = number,
            1 => state.stripes = number,
            2 => state.block = number,
            3 => state.records = number,
            4 => state.layout = number,
            5 => state.out = number,
            6 => state.lost = number,
            _ => state.fill = number,
        }
        state
    };
    for whole in State::whole(3, 2, 16).in_both_layouts() {
        for (first, second) in (0..8).flat_map(|first| (first..8).map(move |other| (first, other)))
        {
            for &a in &numbers {
                for &b in &numbers {
                    let state = with(with(whole, first, a), second, b);
                    same(&state, &image);
                    same(&state, &image[1..]);
                }
            }
        }
    }
}

/// Each refusal while every later one applies too: the lowest number is given.
#[test]
fn the_lowest_refusal() {
    let mut numbers = Random::new(7);
    for state in shapes() {
        let mut image = right_image(&mut numbers, &state);
        image[0] ^= 1;
        let short = &image[1..];
        let lost = State { out: 0, lost: 1, ..state };
        for beyond in [
            State { cards: state.cards + 6, ..lost },
            State { stripes: 0, ..lost },
            State { stripes: 1025, ..lost },
            State { block: state.block + 8, ..lost },
            State { block: 528, ..lost },
            State { records: 0, ..lost },
            State { records: 9, ..lost },
            State { layout: 0, ..lost },
            State { layout: 3, ..lost },
            State { layout: 6, ..lost },
            State { layout: 255, ..lost },
            State { layout: (1 << 16) + 5, ..lost },
            State { layout: (1 << 32) + 4, ..lost },
            State { layout: (1 << 32) + 5, ..lost },
            State { layout: u64::MAX, ..lost },
            State { out: state.cards, ..lost },
            State { out: 254, ..lost },
            State { out: 256, ..lost },
            State { fill: state.stripes, ..lost },
            State { fill: 65_534, ..lost },
            State { fill: 65_536, ..lost },
            State { fill: u64::MAX, ..lost },
            State { fill: 0, out: 255, ..lost },
            State { fill: state.stripes - 1, out: 255, ..lost },
        ] {
            assert_eq!(same(&beyond, short), Answer::refused(1));
            assert_eq!(same(&beyond, &image), Answer::refused(1));
        }
        assert_eq!(same(&lost, short), Answer::refused(2));
        assert_eq!(same(&lost, &image), Answer::refused(4));
        assert_eq!(same(&State { lost: u64::MAX, ..state }, &image), Answer::refused(4));
        for out in 0..state.cards {
            for fill in [65_535, 0, state.stripes - 1] {
                assert_eq!(same(&State { out, fill, ..state }, &image), Answer::refused(12));
                let lost = State { out, fill, lost: 1, ..state };
                assert_eq!(same(&lost, &image), Answer::refused(4));
                assert_eq!(same(&lost, short), Answer::refused(2));
            }
        }
        for records in 1..=8 {
            assert_eq!(same(&State { records, ..state }, &image), disagrees(0, 0));
        }
    }
}

/// It answers what the scan of an open array answers with nothing open: of right and wrong images, with a card out or none,
/// while it fills, lost, and beyond the limits.
#[test]
fn what_check_answers_with_nothing_open() {
    let mut numbers = Random::new(8);
    let mut given = BTreeSet::new();
    for state in shapes() {
        let mut image = right_image(&mut numbers, &state);
        for _ in 0..12 {
            let state = State {
                records: numbers.between(1, 8),
                layout: numbers.pick(&[4, 4, 4, 5, 5, 5, 3, 6]),
                out: numbers.pick(&[255, 0, state.cards - 1, state.cards]),
                lost: numbers.pick(&[0, 0, 0, 1]),
                fill: numbers.pick(&[65_535, 65_535, 0, state.stripes - 1, state.stripes]),
                ..state
            };
            let table = vec![Record::default(); state.records as usize];
            let lent = image.len() - numbers.below(8) as usize / 7;
            let answer = same(&state, &image[..lent]);
            assert_eq!(
                answer,
                Answer::of(Tested.check(&state, &table, &image[..lent])),
                "{state:?}"
            );
            given.insert(answer.number);
            image[0] ^= numbers.below(2) as u8;
        }
    }
    assert_eq!(given.into_iter().collect::<Vec<_>>(), [0, 1, 2, 4, 12, 13]);
}
