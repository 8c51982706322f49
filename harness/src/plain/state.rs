//! The numbers of an array, and their limits.

use super::placement::position_on;

/// The card out when none is.
pub const NONE: u64 = 255;

/// The fill place when no fill is under way.
pub const NO_FILL: u64 = 65_535;

/// The layout of older boxes, RAID level 4: parity on the last card, unit i on card i.
pub const LEVEL_4: u64 = 4;

/// The layout of document 01, RAID level 5: parity rotated.
pub const LEVEL_5: u64 = 5;

/// Both layouts.
pub const LAYOUTS: [u64; 2] = [LEVEL_4, LEVEL_5];

/// The state of an array, as the caller keeps it.
#[repr(C)]
#[derive(Clone, Copy, PartialEq, Eq, Debug, Default)]
pub struct State {
    /// N, 3 to 8.
    pub cards: u64,
    /// S, 1 to 1,024.
    pub stripes: u64,
    /// B, 16 to 512, a multiple of 16.
    pub block: u64,
    /// K, 1 to 8.
    pub records: u64,
    /// 4 or 5.
    pub layout: u64,
    /// The card that is out, or 255.
    pub out: u64,
    /// Not 0 once a second card was reported.
    pub lost: u64,
    /// The stripe to be filled next, or 65,535.
    pub fill: u64,
}

impl State {
    /// An array of layout 5 with one record and no card out.
    pub fn whole(cards: u64, stripes: u64, block: u64) -> State {
        State {
            cards,
            stripes,
            block,
            records: 1,
            layout: LEVEL_5,
            out: NONE,
            lost: 0,
            fill: NO_FILL,
        }
    }

    /// The same in each layout.
    pub fn in_both_layouts(self) -> [State; 2] {
        LAYOUTS.map(|layout| State { layout, ..self })
    }

    /// N, S, B, K, the layout, the card out and the fill place are all within their limits.
    pub fn within_limits(&self) -> bool {
        (3..=8).contains(&self.cards)
            && (1..=1024).contains(&self.stripes)
            && (16..=512).contains(&self.block)
            && self.block % 16 == 0
            && (1..=8).contains(&self.records)
            && LAYOUTS.contains(&self.layout)
            && (self.out < self.cards || self.out == NONE)
            && (!self.filling() || (self.fill < self.stripes && self.out != NONE))
    }

    /// A fill is under way.
    pub fn filling(&self) -> bool {
        self.fill != NO_FILL
    }

    /// The card that is out in a stripe, or 255: a stripe that is filled already counts no card out.
    pub fn out_in(&self, stripe: u64) -> u64 {
        if self.filling() && stripe < self.fill {
            NONE
        } else {
            self.out
        }
    }

    /// n, the number of data units in a stripe.
    pub fn units(&self) -> u64 {
        self.cards - 1
    }

    /// N, S and B as lengths.
    pub fn sizes(&self) -> (usize, usize, usize) {
        (self.cards as usize, self.stripes as usize, self.block as usize)
    }

    pub fn image_length(&self) -> u64 {
        self.cards * self.stripes * self.block
    }

    pub fn work_length(&self) -> u64 {
        2 * self.cards * self.block * self.records
    }

    /// The position of the stripe that is on this card; none for card 255.
    pub fn position_of(&self, stripe: u64, card: u64) -> Option<u64> {
        if card == NONE {
            None
        } else {
            Some(position_on(self, stripe, card))
        }
    }
}
