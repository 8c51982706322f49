//! What a confused caller may ask for; most of it is refused.

use super::{Request, Story};
use crate::pair::Call;

impl Story<'_> {
    /// Any step number, of any record, and some that there are not.
    pub(super) fn senseless_step(&mut self) -> Result<(), String> {
        let record = self.random.below(self.state().records + 1);
        let step = self.random.below(2 * self.state().units() + 5);
        self.take(record, step).map(|_| ())
    }

    /// A record that is not finished, or there is not, or with too small a buffer.
    pub(super) fn senseless_collect(&mut self) -> Result<(), String> {
        let record = self.random.below(self.state().records + 1);
        let known = self.requests.get(record as usize).and_then(|request| request.as_ref());
        let outcome = known.and_then(|request| request.outcome.as_ref());
        let length = match outcome {
            // A write gives nothing, and is collected properly.
            Some(outcome) if outcome.is_empty() => return self.collect_at(record),
            Some(outcome) => self.random.below(outcome.len() as u64),
            None => self.random.below(600),
        };
        let mut result = self.random.bytes(length as usize);
        let answer = self.call_with(Call::Collect { record }, &mut result)?;
        self.expect(answer.number != 0, "nothing is collected")
    }

    pub(super) fn senseless_admit(&mut self) -> Result<(), String> {
        let state = self.state();
        let stripe = self.random.below(state.stripes + 1);
        let mask = self.random.below(2 << state.units());
        let right = mask.count_ones() as u64 * state.block;
        let length = self.random.pick(&[0, right, right + 1, right.saturating_sub(1)]);
        let write = self.random.below(2);
        let payload = self.random.bytes(length as usize);
        let free = self.requests.iter().position(|request| request.is_none());
        let call = Call::Admit { write, stripe, mask, payload: payload.clone() };
        let answer = self.call(call)?;
        if answer.number == 0 {
            // It made sense after all.
            let request =
                Request { write: write == 1, stripe, mask, payload, steps: 0, outcome: None };
            self.expect(free == Some(answer.first as usize), "the lowest free record is taken")?;
            self.requests[answer.first as usize] = Some(request);
        }
        Ok(())
    }
}
