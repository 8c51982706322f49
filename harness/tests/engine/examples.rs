//! The checked examples of document 01, starred ones too, by the calls. Those of placement are of layout 5; the others are run in both
//! layouts and in every stripe, since the paper says them of positions.

use crate::pair::{Call, Side};
use crate::scene::Scene;
use crate::tested;
use harness::calls::{Answer, Calls, Record, State};
use harness::plain::LAYOUTS;

fn answer(number: u64, first: u64, second: u64) -> Answer {
    Answer { number, first, second }
}

#[test]
fn blocks_are_where_the_paper_says() {
    let calls = tested();
    let place = |block| Answer::of(calls.place(5, 5, 5, block));
    assert_eq!(place(0), answer(0, 0, 0));
    assert_eq!(place(7), answer(0, 2, 1));
    assert_eq!(place(10), answer(0, 0, 2));
    assert_eq!(place(19), answer(0, 4, 4));
    assert_eq!(place(20), answer(5, 0, 0));
    assert_eq!(Answer::of(calls.block_at(5, 5, 5, 3, 1)), answer(0, 1, 0));
}

#[test]
fn the_layout_of_five_by_five() {
    let calls = tested();
    let parity = None;
    let rows = [
        [Some(0), Some(1), Some(2), Some(3), parity],
        [Some(5), Some(6), Some(7), parity, Some(4)],
        [Some(10), Some(11), parity, Some(8), Some(9)],
        [Some(15), parity, Some(12), Some(13), Some(14)],
        [parity, Some(16), Some(17), Some(18), Some(19)],
    ];
    for (stripe, row) in rows.iter().enumerate() {
        for (card, block) in row.iter().enumerate() {
            let (stripe, card) = (stripe as u64, card as u64);
            let there = Answer::of(calls.block_at(5, 5, 5, card, stripe));
            match *block {
                Some(block) => {
                    assert_eq!(there, answer(0, 0, block));
                    assert_eq!(Answer::of(calls.place(5, 5, 5, block)), answer(0, card, stripe));
                }
                None => assert_eq!(there, answer(0, 1, 0)),
            }
        }
    }
}

#[test]
fn placement_both_ways_for_every_shape() {
    let calls = tested();
    for (cards, layout) in (3..=8).flat_map(|cards| [(cards, 4), (cards, 5)]) {
        for stripes in [1, 2, cards, 2 * cards + 1, 1024] {
            for block in 0..(cards - 1) * stripes {
                let there = Answer::of(calls.place(cards, stripes, layout, block));
                assert_eq!(there.number, 0);
                let (card, stripe) = (there.first, there.second);
                let back = Answer::of(calls.block_at(cards, stripes, layout, card, stripe));
                assert_eq!(back, answer(0, 0, block));
            }
        }
    }
}

/// Both layouts, each with every stripe of an array of so many.
fn everywhere(stripes: u64) -> impl Iterator<Item = (u64, u64)> {
    LAYOUTS.into_iter().flat_map(move |layout| (0..stripes).map(move |stripe| (layout, stripe)))
}

/// The graph that a write of these units gets in every stripe of N = 5, with this position's card out.
fn has_graph(units: &[u64], out: Option<u64>, graph: u64) {
    let calls = tested();
    for (layout, stripe) in everywhere(5) {
        let mut scene = Scene::new(&calls, layout, 5, &[1, 2, 3, 4]);
        if let Some(position) = out {
            scene.fail(stripe, position);
        }
        let new: Vec<(u64, u8)> = units.iter().map(|&unit| (unit, 9)).collect();
        let record = scene.write(stripe, &new);
        assert_eq!(scene.record(record).graph, graph, "layout {layout}, stripe {stripe}");
    }
}

#[test]
fn graphs_are_chosen_as_the_paper_says() {
    has_graph(&[0], None, 3);
    has_graph(&[0, 1], None, 4);
    has_graph(&[0, 1, 2, 3], None, 5);
    has_graph(&[2], Some(2), 4);
    has_graph(&[0, 1, 3], Some(2), 3);
    has_graph(&[0, 1, 2, 3], Some(4), 6);
}

#[test]
fn limits() {
    let calls = tested();
    let opened = |asked: State| {
        let before = State::whole(4, 4, 32);
        let mut side = Side { state: before, table: vec![Record::default()], ..Side::default() };
        let answer = calls.open(&mut side.lent(), &asked);
        assert_eq!(side.state, before);
        answer
    };
    for (cards, stripes, block) in [(2, 5, 16), (9, 5, 16), (5, 5, 24), (5, 0, 16), (5, 1025, 16)] {
        for asked in State::whole(cards, stripes, block).in_both_layouts() {
            assert_eq!(opened(asked), 1);
            if block == 16 {
                assert_eq!(calls.place(cards, stripes, asked.layout, 0), 1);
                assert_eq!(calls.block_at(cards, stripes, asked.layout, 0, 0), 1);
            }
        }
    }
}

#[test]
fn masks() {
    let calls = tested();
    for (layout, stripe) in everywhere(5) {
        let mut scene = Scene::new(&calls, layout, 5, &[1, 2, 3, 4]);
        let mut ask =
            |mask| scene.call(Call::Admit { write: 0, stripe, mask, payload: Vec::new() });
        assert_eq!(ask(0).number, 6);
        assert_eq!(ask(16).number, 6);
        assert_eq!(ask(15).number, 0);
    }
}

#[test]
fn a_small_write_keeps_parity() {
    let calls = tested();
    for (layout, stripe) in everywhere(4) {
        let mut scene = Scene::new(&calls, layout, 4, &[0x11, 0x22, 0x44]);
        assert_eq!(scene.on_card(stripe, 3), 0x77);
        let record = scene.write(stripe, &[(1, 0x33)]);
        assert_eq!(scene.record(record).graph, 3);
        scene.finish(record);
        assert_eq!(scene.on_card(stripe, 3), 0x66);
        assert_eq!(scene.on_card(stripe, 1), 0x33);
        assert_eq!(scene.scan().number, 0);
    }
}

#[test]
fn a_dead_masked_unit_means_graph_4() {
    let calls = tested();
    for (layout, stripe) in everywhere(4) {
        let mut scene = Scene::new(&calls, layout, 4, &[0x11, 0x22, 0x44]);
        let record = scene.write(stripe, &[(1, 0x33)]);
        for step in [1, 3, 4] {
            scene.step(record, step);
        }
        scene.fail(stripe, 1);
        assert_eq!(scene.afresh(record, 6), 4);
        scene.finish(record);
        assert_eq!(scene.on_card(stripe, 3), 0x66);
        assert_eq!(scene.unit(stripe, 1), 0x33);
        assert_eq!(scene.read_back(stripe, 0b010), [0x33]);
    }
}

#[test]
fn a_full_write_whose_last_step_meets_a_dead_card() {
    let calls = tested();
    for (layout, stripe) in everywhere(3) {
        let mut scene = Scene::new(&calls, layout, 3, &[0x11, 0x22]);
        let record = scene.write(stripe, &[(0, 0x55), (1, 0x66)]);
        for step in [3, 6, 4] {
            scene.step(record, step);
        }
        scene.fail(stripe, 1);
        assert_eq!(scene.afresh(record, 5), 5);
        for step in [3, 4, 6] {
            scene.step(record, step);
        }
        assert_eq!(scene.collect(record), 7);
        assert_eq!(scene.read_back(stripe, 0b11), [0x55, 0x66]);
    }
}
