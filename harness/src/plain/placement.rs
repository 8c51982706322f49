//! Placement, both ways, in either layout.
//!
//! A *position* of a stripe is one of its N blocks: position i below n is unit i, and position n is
//! parity. In layout 4 every position is on the card of its own number. In layout 5, counting on from the
//! parity card, position i is on card (p + 1 + i) mod N, and with i = n that is the parity card itself; so
//! one rule places units and parity alike.

use super::refusal::{demand, Refusal};
use super::state::{State, LEVEL_4};

/// Where a logical block is.
#[derive(Clone, Copy, PartialEq, Eq, Debug)]
pub struct Place {
    pub card: u64,
    pub stripe: u64,
}

/// What a card holds in a stripe.
#[derive(Clone, Copy, PartialEq, Eq, Debug)]
pub enum Role {
    Block(u64),
    Parity,
}

/// Layout 5: stripe s has its parity on card p = N-1-(s mod N).
fn rotated(cards: u64, stripe: u64) -> u64 {
    cards - 1 - stripe % cards
}

/// The card that holds a position of a stripe. Layout 4: unit i is on card i, parity on the last card.
/// Layout 5: unit i is on card (p+1+i) mod N.
pub fn card_at(state: &State, stripe: u64, position: u64) -> u64 {
    match state.layout {
        LEVEL_4 => position,
        _ => (rotated(state.cards, stripe) + 1 + position) % state.cards,
    }
}

/// The position of a stripe that a card holds: the other way.
pub fn position_on(state: &State, stripe: u64, card: u64) -> u64 {
    match state.layout {
        LEVEL_4 => card,
        _ => (card + state.cards - (rotated(state.cards, stripe) + 1)) % state.cards,
    }
}

/// An array of N, S and a layout that are within their limits; B is taken as 16, K as 1, and no card is out.
fn array(cards: u64, stripes: u64, layout: u64) -> Result<State, Refusal> {
    let state = State { layout, ..State::whole(cards, stripes, 16) };
    demand(state.within_limits(), Refusal::Limits)?;
    Ok(state)
}

/// Logical block L, from 0 to n·S-1, is unit L mod n of stripe L div n.
pub fn place(cards: u64, stripes: u64, layout: u64, block: u64) -> Result<Place, Refusal> {
    let state = array(cards, stripes, layout)?;
    let units = state.units();
    demand(block < units * stripes, Refusal::Range)?;
    let stripe = block / units;
    Ok(Place { card: card_at(&state, stripe, block % units), stripe })
}

/// The logical block on a card in a stripe, or parity.
pub fn block_at(
    cards: u64,
    stripes: u64,
    layout: u64,
    card: u64,
    stripe: u64,
) -> Result<Role, Refusal> {
    let state = array(cards, stripes, layout)?;
    demand(card < cards && stripe < stripes, Refusal::Range)?;
    let units = state.units();
    let position = position_on(&state, stripe, card);
    Ok(if position == units { Role::Parity } else { Role::Block(stripe * units + position) })
}

#[cfg(test)]
mod tests {
    use super::*;

    #[test]
    fn both_ways_agree() {
        for state in (3..=8).flat_map(|cards| State::whole(cards, 50, 16).in_both_layouts()) {
            for (stripe, position) in
                (0..50).flat_map(|stripe| (0..state.cards).map(move |position| (stripe, position)))
            {
                let card = card_at(&state, stripe, position);
                assert!(card < state.cards);
                assert_eq!(position_on(&state, stripe, card), position);
            }
        }
    }

    #[test]
    fn parity_is_where_each_layout_has_it() {
        for state in (3..=8).flat_map(|cards| State::whole(cards, 50, 16).in_both_layouts()) {
            for stripe in 0..50 {
                let last = state.cards - 1;
                let moved = if state.layout == 4 { 0 } else { stripe % state.cards };
                assert_eq!(card_at(&state, stripe, last), last - moved);
            }
        }
    }
}
