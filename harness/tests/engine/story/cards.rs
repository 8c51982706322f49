//! What happens to the cards: scans, reports, and decay of what is missing.

use super::Story;
use crate::pair::Call;
use harness::calls::{Answer, State};
use harness::plain::NO_FILL;
use std::ops::Range;

impl Story<'_> {
    /// With no card out, both scans pass; the one that is lent no table does if nothing is open.
    pub(super) fn scan(&mut self) -> Result<(), String> {
        let state = self.state();
        let answer = self.call(Call::Check)?;
        let expected = match state {
            State { lost: 1, .. } => 4,
            State { out: 255, .. } => 0,
            _ => 12,
        };
        self.expect(answer == Answer::of(expected), "a scan finds parity right")?;
        let idle = self.call(Call::Scan)?;
        let same = idle == answer || (!self.open_records().is_empty() && idle.number == 13);
        self.expect(same, "an idle scan finds parity right if nothing is open")
    }

    /// Some of the bytes that are missing turn to noise.
    pub(super) fn decay(&mut self) {
        let missing = self.pair.theirs.missing();
        if missing.is_empty() {
            return;
        }
        let start = missing.start + self.random.below(missing.len() as u64) as usize;
        let end = (start + self.random.between(1, 600) as usize).min(missing.end);
        self.spoil(start..end);
    }

    /// All bytes that are missing turn to noise.
    pub(super) fn decay_all(&mut self) {
        self.spoil(self.pair.theirs.missing());
    }

    /// Puts noise there, on both sides or on the tested one alone.
    fn spoil(&mut self, bytes: Range<usize>) {
        let noise = self.random.bytes(bytes.len());
        self.pair.theirs.image[bytes.clone()].copy_from_slice(&noise);
        if !self.pair.decays_apart {
            self.pair.ours.image[bytes].copy_from_slice(&noise);
        }
    }

    /// Reports a card; another one than that which is out seldom, as it ends the story.
    pub(super) fn report(&mut self) -> Result<(), String> {
        let state = self.state();
        let another = state.out != 255 && self.random.chance(1, 12);
        let card = match self.random.below(8) {
            0 => self.random.pick(&[state.cards, 255, 256]),
            _ if state.out == 255 || another => self.random.below(state.cards),
            _ => state.out,
        };
        self.report_of(card)
    }

    /// Reports this card.
    pub(super) fn report_of(&mut self, card: u64) -> Result<(), String> {
        let state = self.state();
        let expected = match card {
            _ if state.lost != 0 => 4,
            _ if card >= state.cards => 5,
            _ if card == state.out && !state.filling() => 12,
            _ => 0,
        };
        let answer = self.call(Call::Report { card })?;
        self.expect(answer == Answer::of(expected), "report answers what is foreseen")?;
        if answer.number == 0 {
            self.note_failure(card);
            self.known = match state.out {
                255 => State { out: card, ..state },
                out if out == card => State { fill: NO_FILL, ..state },
                _ => State { lost: 1, ..state },
            };
            self.state_is_known()?;
            if self.random.chance(1, 2) {
                self.decay_all();
            }
        }
        Ok(())
    }

    /// Notes what sort of failure this report is of.
    fn note_failure(&mut self, card: u64) {
        let State { stripes, out, fill, .. } = self.state();
        let filling = self.state().filling();
        if out == 255 {
            self.failures += 1;
            self.tally.note("failure", self.failures.min(5));
            if let Some(filled) = self.filled {
                let what =
                    if filled == card { "failure of the filled" } else { "failure of another" };
                self.tally.note(what, 0);
            }
        } else if out == card {
            let place = if fill == 0 { 0 } else { 1 + (fill + 1 == stripes) as u64 };
            self.tally.note("fresh card dies", place);
        } else {
            self.tally.note("lost", filling as u64);
        }
    }
}
