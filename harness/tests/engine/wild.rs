//! Wild input: tables with one field changed or of noise, buffers of other lengths, wild numbers in
//! every argument. The tested engine answers as the plain one does, and a refusal alters nothing.

use crate::numbers::{field, maybe_wild, mostly_below, number_of, wild_number, NUMBERS};
use crate::pair::{Call, Pair, Side};
use crate::story::Story;
use crate::tables::likely_record;
use crate::tally::Tally;
use crate::tested;
use harness::calls::{Calls, Plain, Record, State};
use harness::plain::LAYOUTS;
use harness::random::Random;

/// Changes a table in one of many ways, or leaves it.
fn alter_table(random: &mut Random, state: &State, table: &mut [Record]) {
    let at = random.below(table.len() as u64) as usize;
    let which = random.below(8);
    let bit = 1 << random.below(20);
    match random.below(12) {
        0 | 1 => *field(&mut table[at], which) ^= bit,
        2 => *field(&mut table[at], which) = wild_number(random),
        3 => *field(&mut table[at], which) = random.below(20),
        4 => {
            let near = *field(&mut table[at], which);
            *field(&mut table[at], which) = maybe_wild(random, near);
        }
        5 => table[at] = table[random.below(table.len() as u64) as usize],
        6 => table[at] = Record::default(),
        7 => {
            for number in 0..8 {
                *field(&mut table[at], number) = random.any();
            }
        }
        8 | 9 => {
            for record in table.iter_mut() {
                *record = likely_record(random, state);
            }
        }
        _ => {}
    }
}

/// Makes a list one shorter, one longer, empty or twice as long.
fn alter_length<T: Copy + Default>(random: &mut Random, list: &mut Vec<T>) {
    match random.below(4) {
        0 => {
            list.pop();
        }
        1 => list.push(T::default()),
        2 => list.clear(),
        _ => list.resize(2 * list.len(), T::default()),
    }
}

/// Changes what is lent for an array of this state: the table, a number of the state, a length; or
/// nothing.
fn alter_side(random: &mut Random, state: &State, side: &mut Side) {
    match random.below(12) {
        _ if side.table.is_empty() || side.image.is_empty() => {}
        0..=4 => alter_table(random, state, &mut side.table),
        5 => {
            let which = random.below(NUMBERS);
            *number_of(&mut side.state, which) = wild_number(random);
        }
        6 => match random.below(3) {
            0 => alter_length(random, &mut side.image),
            1 => alter_length(random, &mut side.table),
            _ => alter_length(random, &mut side.work),
        },
        7 => {
            side.state.out = random.below(state.cards);
        }
        8 => {
            let at = random.below(side.image.len() as u64) as usize;
            side.image[at] ^= 1 << random.below(8);
        }
        9 => {
            // A fill place with a card out, or none; mostly below S.
            let card = random.below(state.cards);
            side.state.out = random.pick(&[state.out, card]);
            side.state.fill = mostly_below(random, state.stripes);
        }
        // The other layout, in which a record that was chosen with a card may have another graph.
        10 => side.state.layout = 9 - state.layout,
        _ => {}
    }
}

/// A request that may or may not make sense for these numbers.
pub fn some_admit(random: &mut Random, state: &State) -> Call {
    let units = state.units();
    let write = random.below(2);
    let stripe = mostly_below(random, state.stripes);
    let mask = random.between(1, (1 << units) - 1);
    let mask = maybe_wild(random, mask);
    let right = if write == 1 { mask.count_ones() as u64 * state.block } else { 0 };
    let length = match random.below(10) {
        0 => right + 1,
        1 => right.saturating_sub(1),
        2 => 2 * right,
        3 => 0,
        _ => right,
    };
    Call::Admit { write, stripe, mask, payload: random.bytes(length as usize) }
}

/// Any call, with numbers that are wild now and then.
fn some_call(random: &mut Random, state: &State) -> Call {
    let cards = random.between(3, 8);
    let stripes = random.between(1, 1024);
    let layout = random.pick(&LAYOUTS);
    match random.below(11) {
        0 => Call::Place {
            cards: maybe_wild(random, cards),
            stripes: maybe_wild(random, stripes),
            layout: maybe_wild(random, layout),
            block: mostly_below(random, cards * stripes),
        },
        1 => Call::BlockAt {
            cards: maybe_wild(random, cards),
            stripes: maybe_wild(random, stripes),
            layout: maybe_wild(random, layout),
            card: mostly_below(random, cards),
            stripe: mostly_below(random, stripes),
        },
        2 => Call::Scan,
        3 => Call::Open {
            cards: maybe_wild(random, state.cards),
            stripes: maybe_wild(random, state.stripes),
            block: maybe_wild(random, state.block),
            records: maybe_wild(random, state.records),
            layout: maybe_wild(random, state.layout),
            out: maybe_wild(random, state.out),
        },
        4 => some_admit(random, state),
        5 => Call::Step {
            record: mostly_below(random, state.records),
            step: mostly_below(random, 2 * state.cards + 1),
        },
        6 => Call::Report { card: mostly_below(random, state.cards) },
        7 => Call::Collect { record: mostly_below(random, state.records) },
        8 => Call::Start,
        9 => Call::Rebuild,
        _ => Call::Check,
    }
}

/// What an array lends in the middle of a random history.
fn mid_story(seed: u64) -> Side {
    let mut story = Story::begin(&Plain, seed, true).unwrap();
    for _ in 0..seed % 97 {
        story.turn().unwrap();
    }
    story.side().clone()
}

/// Wild calls around one moment of one history.
fn around(calls: &dyn Calls, seed: u64, tally: &mut Tally) -> Result<(), String> {
    let mut random = Random::new(seed ^ 0xABCD);
    let base = mid_story(seed);
    for _ in 0..300 {
        let mut side = base.clone();
        alter_side(&mut random, &base.state, &mut side);
        if random.chance(1, 4) {
            alter_side(&mut random, &base.state, &mut side);
        }
        let call = some_call(&mut random, &base.state);
        let mut result = random.bytes(base.state.image_length().min(4096) as usize);
        result.truncate(random.below(result.len() as u64 + 1) as usize);
        let answer = Pair::new(calls, side).call(&call, &mut result)?;
        tally.note(call.name(), answer.number);
    }
    Ok(())
}

#[test]
fn wild_calls() {
    let calls = tested();
    let mut tally = Tally::default();
    for seed in 0..1500 {
        if let Err(what) = around(&calls, seed, &mut tally) {
            panic!("seed {seed}: {what}");
        }
    }
    // Each call gave every number that it can give, and no other.
    let can_give: [(&'static str, &[u64]); 11] = [
        ("place", &[0, 1, 5]),
        ("block_at", &[0, 1, 5]),
        ("open", &[0, 1, 2, 13]),
        ("admit", &[0, 1, 2, 3, 4, 5, 6, 7, 8, 9]),
        ("step", &[0, 1, 2, 3, 4, 5, 10, 11]),
        ("report", &[0, 1, 4, 5, 12]),
        ("start", &[0, 1, 4, 14, 15]),
        ("rebuild", &[0, 1, 2, 3, 4, 8, 14]),
        ("collect", &[0, 1, 2, 3, 4, 5, 7, 10]),
        ("check", &[0, 1, 2, 3, 4, 12, 13]),
        ("scan", &[0, 1, 2, 4, 12, 13]),
    ];
    for (call, numbers) in can_give {
        tally.demand(call, numbers);
        tally.only(call, numbers);
    }
}
