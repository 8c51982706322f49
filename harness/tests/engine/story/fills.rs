//! Fresh cards: started, and filled stripe by stripe while requests go on.

use super::Story;
use crate::pair::Call;
use harness::calls::{Answer, State};
use harness::plain::NO_FILL;

impl Story<'_> {
    /// One thing that a caller with fresh cards at hand may do, a senseless one now and then.
    pub(super) fn see_to_a_card(&mut self) -> Result<(), String> {
        let state = self.state();
        match self.random.below(20) {
            0 => self.start(),
            1 => self.rebuild(),
            2 => self.report(),
            3 => {
                self.decay_all();
                Ok(())
            }
            _ if state.out == 255 => self.step(),
            _ if state.filling() => self.rebuild(),
            _ => self.start(),
        }
    }

    /// Begins a fill; refused where no card is out or one is under way.
    pub(super) fn start(&mut self) -> Result<(), String> {
        let expected = match self.state() {
            State { lost: 1, .. } => 4,
            State { out: 255, .. } => 14,
            State { fill: NO_FILL, .. } => 0,
            _ => 15,
        };
        let answer = self.call(Call::Start)?;
        self.expect(answer == Answer::of(expected), "start answers what is foreseen")?;
        if expected == 0 {
            self.known.fill = 0;
            if self.random.chance(1, 2) {
                self.decay_all();
            }
        }
        self.state_is_known()
    }

    /// Fills a stripe; while a fill is under way that is refused where the stripe is held, and only there.
    pub(super) fn rebuild(&mut self) -> Result<(), String> {
        let state = self.state();
        let expected = match state {
            State { lost: 1, .. } => Answer::refused(4),
            State { fill: NO_FILL, .. } => Answer::refused(14),
            _ if self.held(state.fill) => Answer::refused(8),
            _ => Answer::accepted(state.fill, 0),
        };
        let answer = self.call(Call::Rebuild)?;
        self.expect(answer == expected, "a rebuild step answers what is foreseen")?;
        if answer.number == 0 {
            let last = state.fill + 1 == state.stripes;
            self.known.fill = state.fill + 1;
            if last {
                self.known = State { out: 255, fill: NO_FILL, ..state };
                self.filled = Some(state.out);
                self.tally.note("filled to the end, layout", state.layout);
                self.tally.note("filled to the end", self.open_records().len().min(1) as u64);
            }
        }
        self.state_is_known()
    }

    /// With nothing open: S rebuild steps after a start leave no card out, and parity is right. Now and
    /// then another card fails then.
    pub(super) fn fill_up(&mut self) -> Result<(), String> {
        let state = self.state();
        if state.out == 255 {
            return Ok(());
        }
        if !state.filling() {
            self.start()?;
        }
        for _ in self.state().fill..state.stripes {
            self.rebuild()?;
            self.idle_stripes_agree()?;
        }
        self.expect(self.state().out == 255, "after the last stripe no card is out")?;
        self.scan()?;
        if self.random.chance(1, 2) {
            let another = (state.out + self.random.between(1, state.cards - 1)) % state.cards;
            self.report_of(another)?;
            self.decay_all();
        }
        self.idle_stripes_agree()
    }
}
