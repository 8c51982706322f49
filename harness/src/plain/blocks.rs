//! Blocks: where they stand in the image and in the work store, and their sums.

use super::placement::card_at;
use super::record::{held, Record};
use super::refusal::Refusal;
use super::state::State;
use std::ops::Range;

/// The place of a card's block of a stripe in the image: card 0's blocks by stripe, then card 1's,
/// and so on.
pub fn on_card(state: &State, card: u64, stripe: u64) -> Range<usize> {
    part((card * state.stripes + stripe) * state.block, state.block)
}

/// The place of a stripe's position in the image.
pub fn in_image(state: &State, stripe: u64, position: u64) -> Range<usize> {
    on_card(state, card_at(state, stripe, position), stripe)
}

/// The place of a record's block to write; that of position n is for computed parity.
pub fn to_write(state: &State, record: u64, position: u64) -> Range<usize> {
    part((record * 2 * state.cards + position) * state.block, state.block)
}

/// The place of a record's block read; that of position n is for parity.
pub fn was_read(state: &State, record: u64, position: u64) -> Range<usize> {
    part((record * 2 * state.cards + state.cards + position) * state.block, state.block)
}

fn part(start: u64, length: u64) -> Range<usize> {
    start as usize..(start + length) as usize
}

/// A parity sum. It starts from 512 zero bytes, of which the first B are used.
pub struct Sum([u8; 512]);

impl Default for Sum {
    fn default() -> Sum {
        Sum([0; 512])
    }
}

impl Sum {
    pub fn add(&mut self, block: &[u8]) {
        for (sum, byte) in self.0.iter_mut().zip(block) {
            *sum ^= byte;
        }
    }

    pub fn bytes(&self, state: &State) -> &[u8] {
        &self.0[..state.block as usize]
    }
}

/// The exclusive or of these positions of a stripe.
pub fn stripe_sum(
    state: &State,
    image: &[u8],
    stripe: u64,
    positions: impl Iterator<Item = u64>,
) -> Sum {
    let mut sum = Sum::default();
    for position in positions {
        sum.add(&image[in_image(state, stripe, position)]);
    }
    sum
}

/// Parity is right in every stripe that no open request holds.
pub fn parity_is_right(state: &State, table: &[Record], image: &[u8]) -> Result<(), Refusal> {
    for stripe in (0..state.stripes).filter(|&stripe| !held(table, stripe)) {
        let sum = stripe_sum(state, image, stripe, 0..state.cards);
        if let Some(byte) = sum.bytes(state).iter().position(|&byte| byte != 0) {
            return Err(Refusal::Parity { stripe, byte: byte as u64 });
        }
    }
    Ok(())
}

/// Gives every stripe the parity that is right for its units.
pub fn make_right(state: &State, image: &mut [u8]) {
    for stripe in 0..state.stripes {
        let parity = stripe_sum(state, image, stripe, 0..state.units());
        image[in_image(state, stripe, state.units())].copy_from_slice(parity.bytes(state));
    }
}
