//! Tables that are sound or nearly so, whether or not a run can lead to them.

use crate::pair::{Call, Pair, Side};
use crate::story::some_state;
use crate::tested;
use crate::wild::some_admit;
use harness::calls::{Calls, Plain, Record, State};
use harness::plain::record::sound;
use harness::random::Random;

/// A record that is nearly sound: each field is legal in itself, most fit together.
pub fn likely_record(random: &mut Random, state: &State) -> Record {
    let units = state.units();
    let mut record = Record {
        phase: random.between(0, 2),
        write: random.below(2),
        stripe: random.below(state.stripes),
        mask: random.between(1, (1 << units) - 1),
        graph: 0,
        chosen: 255,
        done: 0,
        count: random.between(0, 2 * units + 3),
    };
    if record.phase == 0 {
        return if random.chance(9, 10) { Record::default() } else { record };
    }
    record.chosen = likely_card(random, state, &record);
    record.graph = record.graph_with(state, record.chosen);
    let plan = record.plan(state);
    // Steps that are ready one after another, all of them or up to some point.
    let steps = if record.phase == 2 { 2 * units + 3 } else { random.below(2 * units + 3) };
    for _ in 0..steps {
        let ready: Vec<u64> =
            (0..=2 * units + 2).filter(|&step| plan.ready(record.done, step)).collect();
        if ready.is_empty() {
            break;
        }
        record.done |= 1 << random.pick(&ready);
    }
    if record.phase == 1 && record.done == plan.steps() {
        record.phase = 2;
    }
    record
}

/// A card that a record may have been chosen with: mostly one that is sound.
fn likely_card(random: &mut Random, state: &State, record: &Record) -> u64 {
    let any = random.below(state.cards);
    match random.below(16) {
        0 => any,
        1 => state.out,
        2..=7 => 255,
        _ if record.phase == 2 => any,
        _ => state.out_in(record.stripe),
    }
}

/// Records that fit together or nearly do: as many sound tables as others, reachable or not.
#[test]
fn likely_tables() {
    let calls = tested();
    let mut random = Random::new(77);
    let mut sound_ones = 0;
    for round in 0..60_000 {
        let mut state = some_state(&mut random);
        state.stripes = random.between(1, 20);
        state.block = 16;
        if state.out != 255 && random.chance(2, 3) {
            state.fill = random.below(state.stripes);
        }
        let mut side = Side::for_state(state);
        for record in &mut side.table {
            *record = likely_record(&mut random, &state);
        }
        let call = match round % 5 {
            0 => Call::Check,
            1 => some_admit(&mut random, &state),
            2 => Call::Step {
                record: random.below(state.records),
                step: random.below(2 * state.cards + 1),
            },
            3 => Call::Rebuild,
            _ => Call::Collect { record: random.below(state.records) },
        };
        sound_ones += sound(&state, &side.table) as u64;
        if let Err(what) = Pair::new(&calls, side).call(&call, &mut vec![0xEE; 200]) {
            panic!("round {round}: {what}");
        }
    }
    assert!((10_000..50_000).contains(&sound_ones), "{sound_ones} sound tables");
}

/// Every set of done steps, of every graph that an array of four to six cards can choose, in both layouts.
#[test]
fn every_set_of_done_steps() {
    let calls = tested();
    let arrays = (4..=6).flat_map(|cards| State::whole(cards, 2, 16).in_both_layouts());
    for whole in arrays {
        let State { cards, layout, .. } = whole;
        let units = whole.units();
        for (out, stripe) in (0..cards).chain([255]).flat_map(|out| [(out, 0), (out, 1)]) {
            // In stripe 0 both layouts place alike.
            if stripe == 0 && (cards == 6 || layout == 4) {
                continue;
            }
            let state = State { out, lost: 1, ..whole };
            let image = vec![0; state.image_length() as usize];
            for (mask, write) in (1..1 << units).flat_map(|mask| [(mask, 0), (mask, 1)]) {
                let mut record = Record { stripe, mask, write, chosen: out, ..Record::default() };
                record.graph = record.graph_with(&state, out);
                for done in 0..1 << (2 * units + 4) {
                    let phase = if done == record.plan(&state).steps() { 2 } else { 1 };
                    let record = [Record { phase, done, ..record }];
                    let theirs = calls.check(&state, &record, &image);
                    let ours = Plain.check(&state, &record, &image);
                    assert_eq!(theirs, ours, "{record:?} with {out} out in layout {layout}");
                }
            }
        }
    }
}

/// The chosen-with card of a request with all steps of its graph done or none, in every state with a card out, a fill at any
/// place, or neither: an open one's is 255 or the card that is out in its own stripe, a finished one's 255 or any card.
#[test]
fn every_chosen_with_card() {
    let calls = tested();
    for state in (3..=8).flat_map(every_fill).flat_map(State::in_both_layouts) {
        let image = vec![0; state.image_length() as usize];
        for (stripe, write) in (0..state.stripes).flat_map(|stripe| [(stripe, 0), (stripe, 1)]) {
            for chosen in (0..=state.cards).chain([254, 255, 256, u64::MAX]) {
                let known = if chosen <= state.cards { chosen % state.cards } else { 255 };
                let record = Record { write, stripe, mask: 1, chosen, ..Record::default() };
                let record = Record { graph: record.graph_with(&state, known), ..record };
                let steps = Record { chosen: known, ..record }.plan(&state).steps();
                let to_fill = state.fill <= stripe || state.fill == 65_535;
                let missing = if to_fill { state.out } else { 255 };
                let open = chosen == 255 || chosen == missing;
                let finished = chosen == 255 || chosen < state.cards;
                for (phase, done, sound) in [(1, 0, open), (2, steps, finished)] {
                    let record = Record { phase, done, ..record };
                    let answer = calls.check(&state, &[record], &image);
                    assert_eq!(answer, if sound { 4 } else { 3 }, "{record:?} in {state:?}");
                }
            }
        }
    }
}

/// Lost arrays of N cards and N stripes: no card out, or each, with no fill under way or one at every place.
fn every_fill(cards: u64) -> impl Iterator<Item = State> {
    let whole = State { lost: 1, ..State::whole(cards, cards, 16) };
    let places =
        move |out| (0..cards).chain([65_535]).map(move |fill| State { out, fill, ..whole });
    (0..cards).flat_map(places).chain([whole])
}

/// Every record there can be, for N = 3, in both layouts: of one stripe with each card out and none, and of two of which one is filled.
#[test]
fn every_record_of_three_cards() {
    let calls = tested();
    let mut sound_ones = 0;
    // A lost array refuses with 4 only if the table is sound, and looks at nothing else.
    let lost = |stripes| State { lost: 1, ..State::whole(3, stripes, 16) };
    let one = [255, 0, 1, 2].map(|out| State { out, ..lost(1) });
    let two = [0, 1, 2].map(|out| State { out, fill: 1, ..lost(2) });
    for state in one.into_iter().chain(two).flat_map(State::in_both_layouts) {
        let image = vec![0; state.image_length() as usize];
        for numbers in 0..4u64 * 3 * 2 * 6 * 8 * 5 {
            let mut rest = numbers;
            let mut next = |end| {
                let digit = rest % end;
                rest /= end;
                digit
            };
            let (phase, write, stripe) = (next(4), next(3), next(2));
            let (mask, graph) = (next(6), next(8));
            let chosen = [255, 0, 1, 2, 3][next(5) as usize];
            for done in 0..256 {
                for count in [0, 1, 6, 7, 8] {
                    let record = Record { phase, write, stripe, mask, graph, chosen, done, count };
                    let theirs = calls.check(&state, &[record], &image);
                    let ours = Plain.check(&state, &[record], &image);
                    assert_eq!(theirs, ours, "{record:?} in {state:?}");
                    sound_ones += (ours == 4) as u64;
                }
            }
        }
    }
    assert!(sound_ones > 100, "{sound_ones} sound records");
}
