//! Fresh cards, told by hand: the bytes are worked out from the paper.
//!
//! N = 4, S = 4, units 11, 22, 44 and parity 77 in every stripe. In layout 5 card 1 holds unit 1 of stripe 0, unit 2
//! of stripe 1, parity of stripe 2 and unit 0 of stripe 3: 22, 44, 77, 11. In layout 4 it holds unit 1 of each: 22, 22, 22, 22.

use crate::pair::Call;
use crate::scene::Scene;
use crate::tested;
use harness::calls::{Answer, Calls};
use harness::plain::LAYOUTS;

/// What card 1 holds, by the layout.
fn card_1(layout: u64) -> [u8; 4] {
    if layout == 4 {
        [0x22, 0x22, 0x22, 0x22]
    } else {
        [0x22, 0x44, 0x77, 0x11]
    }
}

/// The array with this card out, its bytes all DD.
fn with_card_out(calls: &dyn Calls, layout: u64, out: u64, held: [u8; 4]) -> Scene<'_> {
    let mut scene = Scene::new(calls, layout, 4, &[0x11, 0x22, 0x44]);
    assert_eq!(card(&scene, out as usize), held);
    assert_eq!(scene.call(Call::Report { card: out }), Answer::accepted(0, 0));
    scene.decay(0xDD);
    scene
}

/// The array with card 1 out, its bytes all DD.
fn with_card_1_out(calls: &dyn Calls, layout: u64) -> Scene<'_> {
    with_card_out(calls, layout, 1, card_1(layout))
}

/// The byte of each of a card's blocks, by stripe.
fn card(scene: &Scene, card: usize) -> [u8; 4] {
    [0, 1, 2, 3].map(|stripe| scene.pair.theirs.image[(card * 4 + stripe) * 16])
}

/// The card that is out, and the stripe to be filled next.
fn out_and_fill(scene: &Scene) -> (u64, u64) {
    (scene.state().out, scene.state().fill)
}

#[test]
fn a_card_is_filled_stripe_by_stripe() {
    is_filled_stripe_by_stripe(5, 1, [0x22, 0x44, 0x77, 0x11]);
}

/// In layout 4 a card holds one unit of all stripes, and the last card all parity.
#[test]
fn a_card_of_layout_4_is_filled_stripe_by_stripe() {
    is_filled_stripe_by_stripe(4, 0, [0x11, 0x11, 0x11, 0x11]);
    is_filled_stripe_by_stripe(4, 1, [0x22, 0x22, 0x22, 0x22]);
    is_filled_stripe_by_stripe(4, 2, [0x44, 0x44, 0x44, 0x44]);
    is_filled_stripe_by_stripe(4, 3, [0x77, 0x77, 0x77, 0x77]);
}

/// A card of a layout that held these bytes is filled with them, one stripe after another.
fn is_filled_stripe_by_stripe(layout: u64, out: u64, held: [u8; 4]) {
    let calls = tested();
    let mut scene = with_card_out(&calls, layout, out, held);
    let holds = |scene: &Scene| card(scene, out as usize);
    assert_eq!(out_and_fill(&scene), (out, 65_535));
    assert_eq!(scene.call(Call::Rebuild), Answer::refused(14));
    scene.start();
    assert_eq!(out_and_fill(&scene), (out, 0));
    assert_eq!(scene.call(Call::Start), Answer::refused(15));
    for (end, filled) in [
        (1, [held[0], 0xDD, 0xDD, 0xDD]),
        (2, [held[0], held[1], 0xDD, 0xDD]),
        (3, [held[0], held[1], held[2], 0xDD]),
    ] {
        scene.rebuild_to(end);
        assert_eq!((out_and_fill(&scene), holds(&scene)), ((out, end), filled));
        assert_eq!(scene.scan(), Answer::refused(12));
        assert_eq!(scene.call(Call::Scan), Answer::refused(12));
    }
    scene.rebuild_to(4);
    assert_eq!((out_and_fill(&scene), holds(&scene)), ((255, 65_535), held));
    assert_eq!(scene.scan(), Answer::accepted(0, 0));
    assert_eq!(scene.call(Call::Scan), Answer::accepted(0, 0));
    assert_eq!(scene.call(Call::Rebuild), Answer::refused(14));
    assert_eq!(scene.call(Call::Start), Answer::refused(14));
}

#[test]
fn an_array_of_one_stripe_is_filled_by_one_step() {
    let calls = tested();
    for layout in LAYOUTS {
        let mut scene = Scene::new(&calls, layout, 1, &[0x11, 0x22]);
        scene.fail(0, 2);
        scene.decay(0xDD);
        scene.start();
        scene.rebuild_to(1);
        assert_eq!(out_and_fill(&scene), (255, 65_535));
        assert_eq!(scene.on_card(0, 2), 0x33);
        assert_eq!(scene.scan(), Answer::accepted(0, 0));
    }
}

/// Layout 4: card 1 has unit 1 of every stripe, so the write of that unit goes by parity alone where it is not filled.
#[test]
fn writes_go_on_while_a_card_of_layout_4_fills() {
    let calls = tested();
    let mut scene = with_card_1_out(&calls, 4);
    scene.start();
    scene.rebuild_to(1);

    // Stripe 0 is filled: a small write, which reads and writes the fresh card. 77 + 22 + 33 = 66.
    let record = scene.write(0, &[(1, 0x33)]);
    assert_eq!((scene.record(record).graph, scene.record(record).chosen), (3, 255));
    for step in [1, 3, 4, 6, 8] {
        scene.step(record, step);
    }
    assert_eq!((card(&scene, 1)[0], card(&scene, 3)[0]), (0x33, 0x66));

    // Stripe 1 is not: 11 + 55 + 44 = 00 goes to card 3, and nothing to card 1.
    let record = scene.write(1, &[(1, 0x55)]);
    assert_eq!((scene.record(record).graph, scene.record(record).chosen), (4, 1));
    for step in [0, 2, 4, 8] {
        scene.step(record, step);
    }
    assert_eq!((card(&scene, 1)[1], card(&scene, 3)[1]), (0xDD, 0x00));
    scene.rebuild_to(2);
    assert_eq!(card(&scene, 1), [0x33, 0x55, 0xDD, 0xDD]);

    // Stripe 2: unit 0 is written beside the missing one. 77 + 11 + 99 = FF.
    let record = scene.write(2, &[(0, 0x99)]);
    assert_eq!((scene.record(record).graph, scene.record(record).chosen), (3, 1));
    for step in [0, 3, 4, 5, 8] {
        scene.step(record, step);
    }
    assert_eq!((card(&scene, 0)[2], card(&scene, 3)[2]), (0x99, 0xFF));
    scene.rebuild_to(4);
    assert_eq!(card(&scene, 0), [0x11, 0x11, 0x99, 0x11]);
    assert_eq!(card(&scene, 1), [0x33, 0x55, 0x22, 0x22]);
    assert_eq!(card(&scene, 2), [0x44, 0x44, 0x44, 0x44]);
    assert_eq!(card(&scene, 3), [0x66, 0x00, 0xFF, 0x77]);
    assert_eq!(scene.scan(), Answer::accepted(0, 0));
}

/// Layout 4: with the last card out, every write of every stripe is of graph 6 until the stripe is filled.
#[test]
fn writes_go_on_while_the_parity_card_of_layout_4_fills() {
    let calls = tested();
    let mut scene = with_card_out(&calls, 4, 3, [0x77; 4]);
    scene.start();
    for stripe in 0..4 {
        let byte = 0x90 + stripe as u8;
        let record = scene.write(stripe, &[(0, byte)]);
        assert_eq!((scene.record(record).graph, scene.record(record).chosen), (6, 3));
        scene.step(record, 5);
        assert_eq!(card(&scene, 0)[stripe as usize], byte);
        scene.rebuild_to(stripe + 1);
        assert_eq!(card(&scene, 3)[stripe as usize], byte ^ 0x66);
        let record = scene.write(stripe, &[(2, 0x0F)]);
        assert_eq!((scene.record(record).graph, scene.record(record).chosen), (3, 255));
        scene.finish(record);
        assert_eq!(card(&scene, 3)[stripe as usize], byte ^ 0x22 ^ 0x0F);
        for record in 0..2 {
            scene.collect(record);
        }
    }
    assert_eq!(scene.scan(), Answer::accepted(0, 0));
}

/// Layout 5: writes between the rebuild steps, behind the fill place and before it; then card 2 fails.
#[test]
fn writes_go_on_while_a_card_fills() {
    let calls = tested();
    let mut scene = with_card_1_out(&calls, 5);
    scene.start();
    scene.rebuild_to(1);

    // Stripe 0 is filled: a small write, which reads and writes the fresh card. 77 + 22 + 33 = 66.
    let record = scene.write(0, &[(1, 0x33)]);
    assert_eq!((scene.record(record).graph, scene.record(record).chosen), (3, 255));
    for step in [1, 3, 4, 6, 8] {
        scene.step(record, step);
    }
    assert_eq!((scene.on_card(0, 1), scene.on_card(0, 3)), (0x33, 0x66));

    // Stripe 1 is not: unit 2 is on card 1, so it is written by parity alone. 11 + 22 + 55 = 66.
    let record = scene.write(1, &[(2, 0x55)]);
    assert_eq!((scene.record(record).graph, scene.record(record).chosen), (4, 1));
    for step in [0, 1, 4, 8] {
        scene.step(record, step);
    }
    assert_eq!((scene.on_card(1, 2), scene.on_card(1, 3)), (0xDD, 0x66));
    scene.rebuild_to(2);
    assert_eq!(scene.on_card(1, 2), 0x55);

    // Stripe 2 has its parity on card 1: unit 0 is written alone. 99 + 22 + 44 = FF.
    let record = scene.write(2, &[(0, 0x99)]);
    assert_eq!((scene.record(record).graph, scene.record(record).chosen), (6, 1));
    scene.step(record, 5);
    scene.rebuild_to(3);
    assert_eq!(card(&scene, 1), [0x33, 0x55, 0xFF, 0xDD]);

    scene.rebuild_to(4);
    assert_eq!(scene.scan(), Answer::accepted(0, 0));
    assert_eq!(scene.call(Call::Report { card: 2 }), Answer::accepted(0, 0));
    scene.decay(0xEE);
    for (stripe, row) in
        [[0x11, 0x33, 0x44], [0x11, 0x22, 0x55], [0x99, 0x22, 0x44], [0x11, 0x22, 0x44]]
            .into_iter()
            .enumerate()
    {
        assert_eq!(scene.read_back(stripe as u64, 0b111), row, "stripe {stripe}");
    }
}

/// A held stripe is not filled: in the middle of a write its blocks imply a unit that never was.
#[test]
fn a_held_stripe_is_not_filled() {
    let calls = tested();
    for layout in LAYOUTS {
        let mut scene = with_card_1_out(&calls, layout);
        scene.start();
        let record = scene.write(0, &[(0, 0x12)]);
        assert_eq!(scene.record(record).graph, 3);
        for step in [0, 3, 4, 5] {
            assert_eq!(scene.call(Call::Rebuild), Answer::refused(8));
            scene.step(record, step);
        }
        // Unit 0 is new and parity is old: 12 + 44 + 77 is 21, where 22 is right.
        assert_eq!(scene.unit(0, 1), 0x21);
        assert_eq!(scene.call(Call::Rebuild), Answer::refused(8));
        scene.step(record, 8);
        // Finished, and not yet collected: it holds nothing.
        scene.rebuild_to(1);
        assert_eq!(card(&scene, 1)[0], 0x22);
        assert_eq!(scene.collect(record), 5);
        assert_eq!(scene.read_back(0, 0b111), [0x12, 0x22, 0x44]);
    }
}

/// The fresh card dies after two stripes, in the middle of a write of one that was filled.
#[test]
fn a_fresh_card_dies() {
    let calls = tested();
    for layout in LAYOUTS {
        let mut scene = with_card_1_out(&calls, layout);
        assert_eq!(scene.call(Call::Report { card: 1 }), Answer::refused(12));
        scene.start();
        scene.rebuild_to(2);
        let record = scene.write(0, &[(1, 0x33)]);
        for step in [1, 3, 4] {
            scene.step(record, step);
        }
        assert_eq!(scene.call(Call::Report { card: 1 }), Answer::accepted(0, 0));
        assert_eq!(out_and_fill(&scene), (1, 65_535));
        assert_eq!(scene.call(Call::Report { card: 1 }), Answer::refused(12));
        assert_eq!(scene.call(Call::Rebuild), Answer::refused(14));
        scene.decay(0xEE);
        // Unit 1 of stripe 0 is missing again: graph 4 reads units 0 and 2, and parity is 11 + 33 + 44.
        assert_eq!(scene.afresh(record, 6), 4);
        for step in [0, 2, 4, 8] {
            scene.step(record, step);
        }
        assert_eq!(scene.on_card(0, 3), 0x66);
        assert_eq!(scene.collect(record), 3 + 1 + 4);
        // Out in all stripes: also where it was filled and nothing was written.
        assert_eq!(scene.read_back(1, 0b111), [0x11, 0x22, 0x44]);

        // The next fresh card is filled from the first stripe on.
        scene.start();
        scene.rebuild_to(4);
        let [_, one, two, three] = card_1(layout);
        assert_eq!(card(&scene, 1), [0x33, one, two, three]);
        assert_eq!(scene.scan(), Answer::accepted(0, 0));
    }
}

/// Another card that is reported in the middle of a fill: the array is lost, and nothing else changes.
#[test]
fn another_card_dies_during_a_fill() {
    let calls = tested();
    for layout in LAYOUTS {
        let mut scene = with_card_1_out(&calls, layout);
        scene.start();
        scene.rebuild_to(3);
        assert_eq!(scene.call(Call::Report { card: 0 }), Answer::accepted(0, 0));
        assert_eq!((out_and_fill(&scene), scene.state().lost), ((1, 3), 1));
        for call in [Call::Rebuild, Call::Start, Call::Report { card: 1 }, Call::Check, Call::Scan]
        {
            assert_eq!(scene.call(call.clone()), Answer::refused(4), "{call:?}");
        }
    }
}

/// Each card fails in its turn and is filled, twice around, with a write between; nothing is lost.
#[test]
fn one_card_after_another() {
    let calls = tested();
    for layout in LAYOUTS {
        let mut scene = Scene::new(&calls, layout, 4, &[0x11, 0x22, 0x44]);
        let mut row = [0x11, 0x22, 0x44];
        for round in 0..8u8 {
            let unit = round as u64 % 3;
            assert_eq!(scene.call(Call::Report { card: round as u64 % 4 }), Answer::accepted(0, 0));
            scene.decay(0xD0 + round);
            scene.start();
            scene.rebuild_to(2);
            for stripe in 0..4 {
                let record = scene.write(stripe, &[(unit, 0xA0 + round)]);
                scene.finish(record);
                scene.collect(record);
            }
            row[unit as usize] = 0xA0 + round;
            scene.rebuild_to(4);
            assert_eq!(scene.scan(), Answer::accepted(0, 0), "round {round}");
            for stripe in 0..4 {
                assert_eq!(scene.read_back(stripe, 0b111), row, "round {round}, stripe {stripe}");
                assert_eq!(scene.on_card(stripe, 3), row[0] ^ row[1] ^ row[2]);
            }
        }
    }
}

/// A finished record keeps the card that it was chosen with, whatever card is out later; the table stays sound.
#[test]
fn finished_records_outlive_their_cards() {
    let calls = tested();
    for layout in LAYOUTS {
        let mut scene = with_card_1_out(&calls, layout);
        let first = scene.read(0, 0b010);
        assert_eq!((scene.record(first).graph, scene.record(first).chosen), (2, 1));
        scene.finish(first);
        scene.start();
        scene.rebuild_to(4);
        scene.fail(0, 2);
        scene.decay(0xEE);
        let second = scene.read(0, 0b110);
        assert_eq!((scene.record(second).graph, scene.record(second).chosen), (2, 2));
        scene.finish(second);
        assert_eq!(scene.scan(), Answer::refused(12));
        scene.collect(first);
        assert_eq!(scene.result[..16], [0x22; 16]);
        scene.collect(second);
        assert_eq!(scene.result[..32], [[0x22; 16], [0x44; 16]].concat());
    }
}
