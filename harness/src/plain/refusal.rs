//! The fifteen refusals.

/// Why a call was refused. Lower numbers are tested first (collect tests 10 before 7).
#[derive(Clone, Copy, PartialEq, Eq, Debug)]
pub enum Refusal {
    /// N, S, B or K is beyond its limits, the layout is neither 4 nor 5, the card out is neither below N
    /// nor 255, or there is a fill place that is not below S or with no card out.
    Limits,
    /// The image, table or work store is of another length.
    Length,
    /// The table is not sound.
    Unsound,
    /// The array is lost.
    Lost,
    /// A block, card, stripe or record number is out of range.
    Range,
    /// The mask is zero or has a bit at n or above.
    Mask,
    /// The payload or the result buffer does not suit the request.
    Buffer,
    /// The stripe is held: the one asked for (admit), or the one to be filled next (rebuild).
    Held,
    /// No record is free.
    Full,
    /// The record is not open (step) or not finished (collect).
    Phase,
    /// The step is not in the graph, is done, or lacks one that must come before.
    Step,
    /// That card is already out and no fill is under way (report), or a card is out (scan).
    Out,
    /// Parity disagrees; this is the lowest stripe and the lowest byte in it where it does.
    Parity { stripe: u64, byte: u64 },
    /// No card is out (start), or no fill was begun (rebuild).
    NothingToFill,
    /// A fill is under way already (start).
    Filling,
}

impl Refusal {
    /// The paper's number.
    pub fn number(self) -> u64 {
        match self {
            Refusal::Limits => 1,
            Refusal::Length => 2,
            Refusal::Unsound => 3,
            Refusal::Lost => 4,
            Refusal::Range => 5,
            Refusal::Mask => 6,
            Refusal::Buffer => 7,
            Refusal::Held => 8,
            Refusal::Full => 9,
            Refusal::Phase => 10,
            Refusal::Step => 11,
            Refusal::Out => 12,
            Refusal::Parity { .. } => 13,
            Refusal::NothingToFill => 14,
            Refusal::Filling => 15,
        }
    }
}

/// Refuses with `why` unless the condition holds.
pub fn demand(condition: bool, why: Refusal) -> Result<(), Refusal> {
    if condition {
        Ok(())
    } else {
        Err(why)
    }
}
