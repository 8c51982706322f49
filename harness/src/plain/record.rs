//! Request records and tables of them.

use super::graph::{choose, Plan};
use super::state::{State, NONE};

pub const FREE: u64 = 0;
pub const OPEN: u64 = 1;
pub const FINISHED: u64 = 2;

/// One request. A free record is all zero.
#[repr(C)]
#[derive(Clone, Copy, PartialEq, Eq, Debug, Default)]
pub struct Record {
    /// Free, open or finished: 0, 1, 2.
    pub phase: u64,
    /// Read or write: 0, 1.
    pub write: u64,
    pub stripe: u64,
    /// Bit i is unit i.
    pub mask: u64,
    /// 1 to 6.
    pub graph: u64,
    /// The card that was out when the graph was chosen, or 255.
    pub chosen: u64,
    /// Bit j is step j.
    pub done: u64,
    /// Accepted steps since admission.
    pub count: u64,
}

impl Record {
    /// The graph laid out for this request.
    pub fn plan(&self, state: &State) -> Plan {
        let missing = state.position_of(self.stripe, self.chosen);
        Plan::new(state.units(), self.graph, self.mask, missing)
    }

    /// The graph that the table chooses for this request while `card` is out.
    pub fn graph_with(&self, state: &State, card: u64) -> u64 {
        let missing = state.position_of(self.stripe, card);
        choose(state.units(), self.write == 1, self.mask, missing)
    }

    /// The number of units in the mask: m.
    pub fn ones(&self) -> u64 {
        self.mask.count_ones() as u64
    }

    /// The chosen-with card of an open record is 255 or the card that is out in its own stripe; that of a
    /// finished one is 255 or any card.
    fn chosen_fits(&self, state: &State) -> bool {
        let known = if self.phase == OPEN {
            self.chosen == state.out_in(self.stripe)
        } else {
            self.chosen < state.cards
        };
        self.chosen == NONE || known
    }

    /// This record may stand in a table of an array in this state.
    fn sound(&self, state: &State) -> bool {
        if self.phase == FREE {
            return *self == Record::default();
        }
        let legal = self.phase <= FINISHED
            && self.write <= 1
            && self.stripe < state.stripes
            && mask_fits(state, self.mask)
            && self.chosen_fits(state)
            && self.graph == self.graph_with(state, self.chosen);
        if !legal {
            return false;
        }
        let plan = self.plan(state);
        let complete = self.done == plan.steps();
        let longest = 2 * state.units() + 3;
        let ended_in_time = if self.phase == OPEN {
            !complete && self.count < longest
        } else {
            complete && self.count <= longest
        };
        ended_in_time && plan.allows(self.done)
    }
}

/// The mask is not zero and has no bit at n or above.
pub fn mask_fits(state: &State, mask: u64) -> bool {
    mask != 0 && mask >> state.units() == 0
}

/// An open request holds the stripe.
pub fn held(table: &[Record], stripe: u64) -> bool {
    table.iter().any(|record| record.phase == OPEN && record.stripe == stripe)
}

/// Every record is sound, and no two open ones share a stripe.
pub fn sound(state: &State, table: &[Record]) -> bool {
    table.iter().all(|record| record.sound(state))
        && table
            .iter()
            .enumerate()
            .all(|(at, record)| record.phase != OPEN || !held(&table[..at], record.stripe))
}
