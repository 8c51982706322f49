//! Version one to three, never again: their scenarios, with the bytes that are right.
//!
//! Where the paper gives the wrong bytes of an old version, the same scenario is also worked out
//! here as that version did it, so that the run is seen to meet the old mistake.

use crate::scene::Scene;
use crate::tested;
use harness::plain::placement::card_at;

/// Each layout, in the stripe where both place alike and in one where they do not.
const CORNERS: [(u64, u64); 4] = [(4, 0), (4, 1), (5, 0), (5, 1)];

#[test]
fn two_writes_never_share_a_stripe() {
    // As it was: both read parity 77 before either wrote it.
    let first = 0x77 ^ 0x11 ^ 0x12;
    let second = 0x77 ^ 0x22 ^ 0x33;
    assert_eq!((first, second), (0x74, 0x66));
    assert_eq!(0x12 ^ 0x33 ^ second, 0x47);

    for (layout, stripe, last_of_first) in CORNERS
        .into_iter()
        .flat_map(|(layout, at)| [(layout, at, [0, 3, 4, 5, 8]), (layout, at, [3, 0, 5, 4, 8])])
    {
        let calls = tested();
        let mut scene = Scene::new(&calls, layout, 4, &[0x11, 0x22, 0x44]);
        let one = scene.write(stripe, &[(0, 0x12)]);
        for step in last_of_first {
            assert_eq!(scene.ask_write(stripe, &[(1, 0x33)]).number, 8);
            scene.step(one, step);
        }
        let other = scene.write(stripe, &[(1, 0x33)]);
        scene.finish(other);
        assert_eq!(scene.on_card(stripe, 3), 0x65);
        assert_eq!(scene.scan().number, 0);
        scene.fail(stripe, 2);
        assert_eq!(scene.unit(stripe, 2), 0x44);
        assert_eq!(scene.read_back(stripe, 0b100), [0x44]);
        assert_eq!(scene.read_back(stripe, 0b111), [0x12, 0x33, 0x44]);
    }
}

#[test]
fn a_small_write_is_not_tried_again_as_a_small_write() {
    // N = 6: units 0 and 1 are written by graph 3. Unit 0 is on its card when unit 1's card dies.
    let old = [0x01, 0x02, 0x04, 0x08, 0x10];
    let (new_0, new_1) = (0xA0, 0xB0);
    let right = new_0 ^ new_1 ^ 0x04 ^ 0x08 ^ 0x10;
    // As it was: the second try takes unit 0, already new, for the old unit.
    let stale = 0x1F ^ new_0 ^ new_0 ^ old[1] ^ new_1;
    assert_ne!(stale, right);

    for (layout, stripe) in CORNERS {
        let calls = tested();
        let mut scene = Scene::new(&calls, layout, 6, &old);
        let record = scene.write(stripe, &[(0, new_0), (1, new_1)]);
        assert_eq!(scene.record(record).graph, 3);
        for step in [0, 1, 5, 7] {
            scene.step(record, step);
        }
        scene.fail(stripe, 1);
        assert_eq!(scene.afresh(record, 8), 4);
        scene.finish(record);
        assert_eq!(scene.on_card(stripe, 5), right);
        assert_eq!(scene.read_back(stripe, 0b11111), [new_0, new_1, 0x04, 0x08, 0x10]);
    }
}

#[test]
fn a_small_write_that_loses_an_untouched_card_goes_on() {
    // No step of graph 3 is on that card, so nothing is tried again; the lost unit stays as it was.
    for (layout, stripe) in CORNERS {
        let calls = tested();
        let mut scene = Scene::new(&calls, layout, 6, &[0x01, 0x02, 0x04, 0x08, 0x10]);
        let record = scene.write(stripe, &[(0, 0xA0)]);
        for step in [0, 7] {
            scene.step(record, step);
        }
        scene.fail(stripe, 3);
        for step in [5, 6, 12] {
            scene.step(record, step);
        }
        assert_eq!(scene.collect(record), 5);
        assert_eq!(scene.read_back(stripe, 0b11111), [0xA0, 0x02, 0x04, 0x08, 0x10]);
    }
}

#[test]
fn graph_4_writes_nothing_before_its_reads_end() {
    // N = 5: units 0 and 1 are written by graph 4, units 2 and 3 are read first.
    for (layout, stripe) in CORNERS {
        let calls = tested();
        let mut scene = Scene::new(&calls, layout, 5, &[0x11, 0x22, 0x44, 0x08]);
        let record = scene.write(stripe, &[(0, 0xA0), (1, 0xB0)]);
        assert_eq!(scene.record(record).graph, 4);
        scene.step(record, 2);
        for early in [5, 6, 7, 10] {
            assert_eq!(scene.ask_step(record, early).number, 11);
        }
        assert_eq!((scene.on_card(stripe, 0), scene.on_card(stripe, 1)), (0x11, 0x22));
        // Unit 3 dies unread, and graph 3 goes over data that nobody altered.
        scene.fail(stripe, 3);
        assert_eq!(scene.afresh(record, 3), 3);
        scene.finish(record);
        assert_eq!(scene.on_card(stripe, 4), 0xA0 ^ 0xB0 ^ 0x44 ^ 0x08);
        assert_eq!(scene.unit(stripe, 3), 0x08);
        assert_eq!(scene.read_back(stripe, 0b1111), [0xA0, 0xB0, 0x44, 0x08]);
    }
}

/// The byte that each card holds in stripe 1 of N = 4, S = 4.
fn cards_of_stripe_1(scene: &Scene) -> [u8; 4] {
    [0, 1, 2, 3].map(|card| scene.pair.theirs.image[(card * 4 + 1) * 16])
}

#[test]
fn a_unit_number_is_no_card_number() {
    // In stripe 1 of N = 4 parity is on card 2, and units 0, 1, 2 are on cards 3, 0, 1.
    let calls = tested();
    let mut scene = Scene::new(&calls, 5, 4, &[0x11, 0x22, 0x44]);
    assert_eq!([0, 1, 2, 3].map(|position| card_at(&scene.state(), 1, position)), [3, 0, 1, 2]);
    let record = scene.write(1, &[(1, 0x33)]);
    scene.finish(record);
    assert_eq!(cards_of_stripe_1(&scene), [0x33, 0x44, 0x66, 0x11]);
    // With card 1 out, unit 2 of stripe 1 is missing, and not unit 1.
    scene.fail(1, 2);
    assert_eq!(scene.pair.theirs.state.out, 1);
    let record = scene.write(1, &[(1, 0x55)]);
    assert_eq!(scene.record(record).graph, 3);
    scene.finish(record);
    assert_eq!(scene.read_back(1, 0b111), [0x11, 0x55, 0x44]);
}

#[test]
fn in_layout_4_a_unit_number_is_its_card_number() {
    // In stripe 1 of N = 4 parity is on card 3, as in every other, and units 0, 1, 2 are on cards 0, 1, 2.
    let calls = tested();
    let mut scene = Scene::new(&calls, 4, 4, &[0x11, 0x22, 0x44]);
    let record = scene.write(1, &[(1, 0x33)]);
    scene.finish(record);
    assert_eq!(cards_of_stripe_1(&scene), [0x11, 0x33, 0x44, 0x66]);
    // With card 1 out, unit 1 of stripe 1 is missing: 11 + 44 + 55 is 00.
    scene.fail(1, 1);
    assert_eq!(scene.state().out, 1);
    let record = scene.write(1, &[(1, 0x55)]);
    assert_eq!(scene.record(record).graph, 4);
    scene.finish(record);
    assert_eq!(cards_of_stripe_1(&scene), [0x11, 0x33, 0x44, 0x00]);
    assert_eq!(scene.read_back(1, 0b111), [0x11, 0x55, 0x44]);
    // And a write of another unit goes by the old parity: 00 + 44 + 66 is 22.
    let record = scene.write(1, &[(2, 0x66)]);
    assert_eq!(scene.record(record).graph, 3);
    scene.finish(record);
    assert_eq!(cards_of_stripe_1(&scene), [0x11, 0x33, 0x66, 0x22]);
    assert_eq!(scene.read_back(1, 0b111), [0x11, 0x55, 0x66]);
}
