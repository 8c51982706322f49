//! The array as its user sees it: a row of n·S blocks that are read and written at once.

use super::blocks::{in_image, stripe_sum};
use super::graph::members;
use super::placement::position_on;
use super::state::{State, NONE};

/// The row. Block L is unit L mod n of stripe L div n.
#[derive(Clone, PartialEq, Eq, Debug)]
pub struct Row {
    units: u64,
    block: u64,
    bytes: Vec<u8>,
}

impl Row {
    /// The row that an image stands for: each unit as it is, one on the card that is out in its stripe
    /// as the other blocks of the stripe imply.
    pub fn of(state: &State, image: &[u8]) -> Row {
        let mut bytes = Vec::with_capacity((state.units() * state.stripes * state.block) as usize);
        for stripe in 0..state.stripes {
            for unit in 0..state.units() {
                bytes.extend_from_slice(&unit_in(state, image, stripe, unit));
            }
        }
        Row { units: state.units(), block: state.block, bytes }
    }

    /// A unit of a stripe.
    pub fn unit(&self, stripe: u64, unit: u64) -> &[u8] {
        let start = ((stripe * self.units + unit) * self.block) as usize;
        &self.bytes[start..start + self.block as usize]
    }

    /// The units of a mask, ascending.
    pub fn read(&self, stripe: u64, mask: u64) -> Vec<u8> {
        members(mask).flat_map(|unit| self.unit(stripe, unit).to_vec()).collect()
    }

    /// Replaces the units of a mask, ascending.
    pub fn write(&mut self, stripe: u64, mask: u64, payload: &[u8]) {
        for (unit, new) in members(mask).zip(payload.chunks_exact(self.block as usize)) {
            let start = ((stripe * self.units + unit) * self.block) as usize;
            self.bytes[start..start + self.block as usize].copy_from_slice(new);
        }
    }

    /// The stripe on the cards says what the row says: each unit on a working card, the unit on the
    /// card that is out in it by inference, and with no card out in it parity is right.
    pub fn agrees(&self, state: &State, image: &[u8], stripe: u64) -> bool {
        let units = (0..self.units)
            .all(|unit| unit_in(state, image, stripe, unit) == self.unit(stripe, unit));
        let sum = stripe_sum(state, image, stripe, 0..state.cards);
        units && (state.out_in(stripe) != NONE || sum.bytes(state).iter().all(|&byte| byte == 0))
    }
}

/// A unit as the cards have it, or, on the card that is out in its stripe, as the others imply it.
pub fn unit_in(state: &State, image: &[u8], stripe: u64, unit: u64) -> Vec<u8> {
    let out = state.out_in(stripe);
    if out != NONE && position_on(state, stripe, out) == unit {
        let others = (0..state.cards).filter(|&position| position != unit);
        stripe_sum(state, image, stripe, others).bytes(state).to_vec()
    } else {
        image[in_image(state, stripe, unit)].to_vec()
    }
}
