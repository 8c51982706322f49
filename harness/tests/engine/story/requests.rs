//! Requests: admitted, stepped in any order that works, collected.

use super::{Request, Story};
use crate::pair::Call;
use harness::calls::Answer;
use harness::plain::Record;

/// The one name or the other, by the layout.
fn in_layout(layout: u64, four: &'static str, five: &'static str) -> &'static str {
    if layout == 4 {
        four
    } else {
        five
    }
}

impl Story<'_> {
    pub(super) fn some_mask(&mut self) -> u64 {
        let all = (1 << self.state().units()) - 1;
        match self.random.below(4) {
            0 => all,
            1 => 1 << self.random.below(self.state().units()),
            _ => self.random.between(1, all),
        }
    }

    pub(super) fn admit(&mut self) -> Result<(), String> {
        let state = self.state();
        let (write, stripe) = (self.random.chance(2, 3), self.random.below(state.stripes));
        let mask = self.some_mask();
        let length = if write { mask.count_ones() as usize * state.block as usize } else { 0 };
        let payload = self.random.bytes(length);
        let free = self.requests.iter().position(|request| request.is_none());
        let expected = match free {
            _ if state.lost != 0 => 4,
            _ if self.held(stripe) => 8,
            None => 9,
            Some(_) => 0,
        };
        let call = Call::Admit { write: write as u64, stripe, mask, payload: payload.clone() };
        let answer = self.call(call)?;
        self.expect(answer.number == expected, "admit answers what the caller foresees")?;
        if let (0, Some(free)) = (answer.number, free) {
            self.expect(answer.first == free as u64, "the lowest free record is taken")?;
            let graph = self.record(answer.first).graph;
            self.tally.note("graph", graph);
            self.tally.note(in_layout(state.layout, "graph, layout 4", "graph, layout 5"), graph);
            if state.filling() {
                let place =
                    if stripe < state.fill { "graph, filled" } else { "graph, to be filled" };
                self.tally.note(place, graph);
            }
            self.requests[free] =
                Some(Request { write, stripe, mask, payload, steps: 0, outcome: None });
        }
        Ok(())
    }

    /// The steps that a record is ready for, if it is open.
    pub(super) fn ready(&self, record: u64) -> Vec<u64> {
        let (state, record) = (self.state(), self.record(record));
        if record.phase != 1 {
            return Vec::new();
        }
        let plan = record.plan(&state);
        (0..=2 * state.units() + 2).filter(|&step| plan.ready(record.done, step)).collect()
    }

    pub(super) fn step(&mut self) -> Result<(), String> {
        let open = self.open_records();
        if open.is_empty() {
            return Ok(());
        }
        let record = self.random.pick(&open);
        let ready = self.ready(record);
        self.expect(!ready.is_empty(), "an open request is ready for a step")?;
        let step = self.random.pick(&ready);
        let answer = self.take(record, step)?;
        let expected = if self.state().lost != 0 { 4 } else { 0 };
        self.expect(answer.number == expected, "a step that is ready is accepted")
    }

    /// Takes a step and, if it is accepted, adds to the caller's knowledge.
    pub(super) fn take(&mut self, record: u64, step: u64) -> Result<Answer, String> {
        let graph = self.pair.theirs.table.get(record as usize).map(|record| record.graph);
        let answer = self.call(Call::Step { record, step })?;
        if answer.number != 0 {
            return Ok(answer);
        }
        let now = self.record(record);
        if answer.first != 0 {
            let (layout, ways) = (self.state().layout, 10 * graph.unwrap_or(0) + answer.first);
            self.tally.note("afresh", ways);
            self.tally.note(in_layout(layout, "afresh, layout 4", "afresh, layout 5"), ways);
            self.expect(now.graph == answer.first, "the answer names the new graph")?;
        }
        let longest = 2 * self.state().units() + 3;
        let request = match &mut self.requests[record as usize] {
            Some(request) => request,
            None => return Err("a step was accepted of a record that nobody took".to_string()),
        };
        request.steps += 1;
        let within = request.steps <= longest;
        if now.phase == 2 {
            self.tally.note("finished", now.graph);
            if request.steps == longest {
                self.tally.note("longest", self.state().cards);
            }
            self.finish(record);
        }
        self.expect(within, "no request takes more than 2n+3 steps")?;
        Ok(answer)
    }

    /// A request has finished: a write is in the row at once, a read has what the row says.
    pub(super) fn finish(&mut self, record: u64) {
        let request = self.requests[record as usize].as_mut().unwrap();
        if request.write {
            self.row.write(request.stripe, request.mask, &request.payload);
            request.outcome = Some(Vec::new());
        } else {
            request.outcome = Some(self.row.read(request.stripe, request.mask));
        }
    }

    pub(super) fn collect(&mut self) -> Result<(), String> {
        let finished: Vec<u64> = (0..self.requests.len() as u64)
            .filter(|&at| {
                self.requests[at as usize]
                    .as_ref()
                    .map_or(false, |request| request.outcome.is_some())
            })
            .collect();
        if finished.is_empty() {
            return Ok(());
        }
        let record = self.random.pick(&finished);
        self.collect_at(record)
    }

    /// Collects a record into a buffer that is now and then larger than it need be.
    pub(super) fn collect_at(&mut self, record: u64) -> Result<(), String> {
        let outcome = self.requests[record as usize].as_ref().unwrap().outcome.clone().unwrap();
        let spare = if self.random.chance(1, 2) { self.random.below(40) as usize } else { 0 };
        let mut result = self.random.bytes(outcome.len() + spare);
        let filled = result.clone();
        let answer = self.call_with(Call::Collect { record }, &mut result)?;
        if self.state().lost != 0 {
            return self.expect(answer.number == 4, "a lost array gives nothing back");
        }
        let request = self.requests[record as usize].take().unwrap();
        self.expect(answer.number == 0, "a finished request is collected")?;
        self.expect(answer.first == request.steps, "the count is the accepted steps")?;
        self.expect(result[..outcome.len()] == outcome, "a read gives what the row says")?;
        self.expect(result[outcome.len()..] == filled[outcome.len()..], "bytes behind stay")?;
        self.expect(self.record(record) == Record::default(), "the record is free")
    }
}
