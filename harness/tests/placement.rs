//! Placement, both ways and in both layouts: held to the words of the paper, said here once more, and to the independent implementation.
use harness::calls::{Answer, Calls, Plain, Tested};
use harness::numbers::wild;
use harness::plain::LAYOUTS;
use harness::random::Random;

/// Where the library says that a block is.
fn place(cards: u64, stripes: u64, layout: u64, block: u64) -> Answer {
    Answer::of(Tested.place(cards, stripes, layout, block))
}

/// What the library says that a card holds in a stripe.
fn block_at(cards: u64, stripes: u64, layout: u64, card: u64, stripe: u64) -> Answer {
    Answer::of(Tested.block_at(cards, stripes, layout, card, stripe))
}

/// The answer for a card that holds parity.
fn parity() -> Answer {
    Answer::accepted(1, 0)
}

fn same_place(cards: u64, stripes: u64, layout: u64, block: u64) {
    assert_eq!(
        place(cards, stripes, layout, block),
        Answer::of(Plain.place(cards, stripes, layout, block)),
        "place({cards}, {stripes}, {layout}, {block})"
    );
}

fn same_block_at(cards: u64, stripes: u64, layout: u64, card: u64, stripe: u64) {
    assert_eq!(
        block_at(cards, stripes, layout, card, stripe),
        Answer::of(Plain.block_at(cards, stripes, layout, card, stripe)),
        "block_at({cards}, {stripes}, {layout}, {card}, {stripe})"
    );
}

/// Every block, card and stripe of an array, and some beyond each, in both layouts and with numbers beside them.
fn whole_array(cards: u64, stripes: u64) {
    for layout in 3..=6 {
        for block in 0..cards * stripes + 2 {
            same_place(cards, stripes, layout, block);
        }
        for card in 0..cards + 2 {
            for stripe in 0..stripes + 2 {
                same_block_at(cards, stripes, layout, card, stripe);
            }
        }
    }
}

/// Every N with some S.
fn shapes() -> impl Iterator<Item = (u64, u64)> {
    let sizes = (1..=40).chain([63, 64, 1023, 1024]);
    sizes.flat_map(|stripes| (3..=8).map(move |cards| (cards, stripes)))
}

#[test]
fn examples_of_the_paper() {
    assert_eq!(place(5, 5, 5, 0), Answer::accepted(0, 0));
    assert_eq!(place(5, 5, 5, 7), Answer::accepted(2, 1));
    assert_eq!(place(5, 5, 5, 10), Answer::accepted(0, 2));
    assert_eq!(block_at(5, 5, 5, 3, 1), Answer::accepted(1, 0));
    assert_eq!(place(5, 5, 5, 19), Answer::accepted(4, 4));
    assert_eq!(place(5, 5, 5, 20), Answer::refused(5));
    for (cards, stripes) in [(2, 5), (9, 5), (5, 0), (5, 1025)] {
        for layout in LAYOUTS {
            assert_eq!(place(cards, stripes, layout, 0), Answer::refused(1));
            assert_eq!(block_at(cards, stripes, layout, 0, 0), Answer::refused(1));
        }
    }
}

/// The array of the paper's picture in layout 4: five cards, five stripes.
#[test]
fn five_by_five_in_layout_4() {
    let rows = [[0, 1, 2, 3], [4, 5, 6, 7], [8, 9, 10, 11], [12, 13, 14, 15], [16, 17, 18, 19]];
    for (stripe, row) in (0..).zip(rows) {
        for (card, block) in (0..).zip(row) {
            assert_eq!(place(5, 5, 4, block), Answer::accepted(card, stripe));
            assert_eq!(block_at(5, 5, 4, card, stripe), Answer::accepted(0, block));
        }
        assert_eq!(block_at(5, 5, 4, 4, stripe), parity());
    }
    assert_eq!(place(5, 5, 4, 20), Answer::refused(5));
    assert_eq!(block_at(5, 5, 4, 5, 0), Answer::refused(5));
    assert_eq!(block_at(5, 5, 4, 0, 5), Answer::refused(5));
}

/// Layout 4, in every array: parity is on the last card, unit i on card i, block L on card L mod n in stripe L div n.
#[test]
fn layout_4_in_the_words_of_the_paper() {
    for (cards, stripes) in shapes() {
        let n = cards - 1;
        for stripe in 0..stripes {
            assert_eq!(block_at(cards, stripes, 4, n, stripe), parity());
            for unit in 0..n {
                let block = stripe * n + unit;
                assert_eq!(block_at(cards, stripes, 4, unit, stripe), Answer::accepted(0, block));
                assert_eq!(place(cards, stripes, 4, block), Answer::accepted(unit, stripe));
            }
        }
        for block in 0..n * stripes {
            assert_eq!(place(cards, stripes, 4, block), Answer::accepted(block % n, block / n));
        }
        assert_eq!(place(cards, stripes, 4, n * stripes), Answer::refused(5));
    }
}

/// Layout 5, in every array: parity of stripe s is on card N-1-(s mod N), unit i on card (p+1+i) mod N, and so block L on card L mod N
/// in stripe L div n.
#[test]
fn layout_5_in_the_words_of_the_paper() {
    for (cards, stripes) in shapes() {
        let n = cards - 1;
        for stripe in 0..stripes {
            let p = cards - 1 - stripe % cards;
            assert_eq!(block_at(cards, stripes, 5, p, stripe), parity());
            for unit in 0..n {
                let (card, block) = ((p + 1 + unit) % cards, stripe * n + unit);
                assert_eq!(block_at(cards, stripes, 5, card, stripe), Answer::accepted(0, block));
                assert_eq!(place(cards, stripes, 5, block), Answer::accepted(card, stripe));
            }
        }
        for block in 0..n * stripes {
            assert_eq!(place(cards, stripes, 5, block), Answer::accepted(block % cards, block / n));
        }
        assert_eq!(place(cards, stripes, 5, n * stripes), Answer::refused(5));
    }
}

/// The layouts agree in stripe 0 and in every N-th after it, and nowhere else.
#[test]
fn where_the_layouts_agree() {
    for (cards, stripes) in shapes() {
        for stripe in 0..stripes {
            let same = (0..cards).all(|card| {
                block_at(cards, stripes, 4, card, stripe)
                    == block_at(cards, stripes, 5, card, stripe)
            });
            assert_eq!(same, stripe % cards == 0, "N = {cards}, stripe {stripe}");
        }
    }
}

#[test]
fn every_array_of_up_to_64_stripes() {
    for cards in 3..=8 {
        for stripes in 1..=64 {
            whole_array(cards, stripes);
        }
    }
}

#[test]
fn the_limits() {
    for cards in 0..=10 {
        for stripes in [0, 1, 2, 1022, 1023, 1024, 1025, 1026] {
            whole_array(cards, stripes);
        }
    }
}

#[test]
fn wild_numbers_everywhere() {
    let numbers = wild();
    for &cards in &numbers {
        for &stripes in &numbers {
            for &third in &numbers {
                for layout in LAYOUTS {
                    same_place(cards, stripes, layout, third);
                    for &fourth in &numbers {
                        same_block_at(cards, stripes, layout, third, fourth);
                    }
                }
            }
        }
    }
}

/// A layout that is neither 4 nor 5 is refused by 1, whatever the other numbers are.
#[test]
fn wild_layouts_everywhere() {
    let numbers = wild();
    let beside = (0..64).flat_map(|width| [(1u64 << width) | 4, (1u64 << width) | 5]);
    let layouts: Vec<u64> = numbers.iter().copied().chain(beside).collect();
    for &layout in layouts.iter().filter(|&layout| !LAYOUTS.contains(layout)) {
        for &cards in &numbers {
            for &stripes in &numbers {
                for third in [0, 1, cards, u64::MAX] {
                    assert_eq!(place(cards, stripes, layout, third), Answer::refused(1));
                    for fourth in [0, 1, stripes, u64::MAX] {
                        let there = block_at(cards, stripes, layout, third, fourth);
                        assert_eq!(there, Answer::refused(1));
                    }
                }
            }
        }
    }
}

#[test]
fn scattered_numbers() {
    let mut scatter = Random::new(1);
    for _ in 0..200_000 {
        let (cards, stripes) = (3 + scatter.below(6), 1 + scatter.below(1024));
        for layout in [4, 5, scatter.below(9), scatter.any()] {
            same_place(cards, stripes, layout, scatter.below(8 * 1024));
            same_block_at(cards, stripes, layout, scatter.below(9), scatter.below(1100));
            same_place(scatter.any(), scatter.any(), layout, scatter.any());
            same_block_at(scatter.any(), scatter.any(), layout, scatter.any(), scatter.any());
        }
    }
}

/// Every block is found where it is placed, and every card of every stripe holds parity or a block that is placed there.
#[test]
fn each_way_is_the_other_s_inverse() {
    for ((cards, stripes), layout) in
        shapes().flat_map(|shape| LAYOUTS.map(|layout| (shape, layout)))
    {
        for block in 0..(cards - 1) * stripes {
            let at = place(cards, stripes, layout, block);
            let there = block_at(cards, stripes, layout, at.first, at.second);
            assert_eq!(there, Answer::accepted(0, block));
        }
        for stripe in 0..stripes {
            let mut parities = 0;
            for card in 0..cards {
                let there = block_at(cards, stripes, layout, card, stripe);
                if there == parity() {
                    parities += 1;
                } else {
                    let back = place(cards, stripes, layout, there.second);
                    assert_eq!(back, Answer::accepted(card, stripe));
                }
            }
            assert_eq!(parities, 1, "N = {cards}, layout {layout}, stripe {stripe}");
        }
    }
}
