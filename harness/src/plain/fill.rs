//! A fresh card in the dead one's place, filled stripe by stripe.

use super::blocks::{on_card, stripe_sum};
use super::engine::{image_fits, table_fits};
use super::placement::position_on;
use super::record::{held, sound, Record};
use super::refusal::{demand, Refusal};
use super::state::{State, NONE, NO_FILL};

/// Begins to fill the card that is out, at stripe 0.
pub fn start(state: &mut State) -> Result<(), Refusal> {
    demand(state.within_limits(), Refusal::Limits)?;
    demand(state.lost == 0, Refusal::Lost)?;
    demand(state.out != NONE, Refusal::NothingToFill)?;
    demand(!state.filling(), Refusal::Filling)?;
    state.fill = 0;
    Ok(())
}

/// Infers the card's block of one stripe, writes it and moves on; answers the stripe. After the last
/// stripe no card is out.
pub fn rebuild(state: &mut State, table: &[Record], image: &mut [u8]) -> Result<u64, Refusal> {
    demand(state.within_limits(), Refusal::Limits)?;
    demand(image_fits(state, image) && table_fits(state, table), Refusal::Length)?;
    demand(sound(state, table), Refusal::Unsound)?;
    demand(state.lost == 0, Refusal::Lost)?;
    demand(!state.filling() || !held(table, state.fill), Refusal::Held)?;
    demand(state.filling(), Refusal::NothingToFill)?;

    let stripe = state.fill;
    let missing = position_on(state, stripe, state.out);
    let others = (0..state.cards).filter(|&position| position != missing);
    let inferred = stripe_sum(state, image, stripe, others);
    image[on_card(state, state.out, stripe)].copy_from_slice(inferred.bytes(state));
    state.fill += 1;
    if state.fill == state.stripes {
        state.fill = NO_FILL;
        state.out = NONE;
    }
    Ok(stripe)
}
