//! Arrays to begin a story with.

use crate::pair::Side;
use harness::calls::State;
use harness::plain::blocks::make_right;
use harness::plain::LAYOUTS;
use harness::random::Random;

/// Numbers of an array of moderate size: any N, few stripes, any B, any K, either layout.
pub fn some_state(random: &mut Random) -> State {
    let cards = random.between(3, 8);
    let sixteens = match random.below(4) {
        0 | 1 => 1,
        2 => random.between(2, 4),
        _ => random.between(1, 32),
    };
    let stripes = if random.chance(1, 20) { random.between(20, 40) } else { random.between(1, 10) };
    let records = random.between(1, 8);
    let layout = random.pick(&LAYOUTS);
    let out = if random.chance(1, 4) { random.below(cards) } else { 255 };
    State { records, layout, out, ..State::whole(cards, stripes, 16 * sixteens) }
}

/// Buffers for these numbers, filled with noise, but with right parity in every stripe.
pub fn some_side(random: &mut Random, state: State) -> Side {
    let mut side = Side::for_state(state);
    random.fill(&mut side.image);
    random.fill(&mut side.work);
    make_right(&state, &mut side.image);
    for record in &mut side.table {
        record.phase = random.below(4);
        record.count = random.number();
    }
    let missing = side.missing();
    random.fill(&mut side.image[missing]);
    side
}
