//! The impostors of document 01 and some more, among them such as fill a card wrongly, so that the histories are seen to find them.
//!
//! Each is the plain engine with one thing bent. Compared call by call, none gets through a story;
//! those that document 01 names do not either when they are held to the caller's knowledge alone.

use crate::story::tell;
use harness::calls::{Answer, Calls, Lent, Plain, Record, State};
use harness::plain::NO_FILL;
use std::cell::Cell;

#[derive(Clone, Copy, PartialEq, Eq, Debug)]
enum Bend {
    /// Nothing is bent.
    Honest,
    /// Refuses everything.
    RefusesAll,
    /// Answers a constant, and does nothing.
    Constant,
    /// Finishes requests and writes nothing.
    WritesNothing,
    /// Works for the first request and pretends later.
    PretendsLater,
    /// The step count is invented.
    InventsCount,
    /// Two requests may share a stripe.
    SharesStripes,
    /// Collect clears the rest of the buffer.
    ClearsRest,
    /// A refused admission has already copied its payload.
    CopiesEarly,
    /// Scan does not pass over held stripes.
    ScansHeld,
    /// A degraded read gives what the dead card holds.
    TrustsTheDead,
    /// A rebuild step writes nothing and moves on.
    FillsNothing,
    /// A rebuild step fills a stripe that is held.
    FillsHeld,
    /// From the start on no stripe counts the fresh card out.
    TrustsTheFresh,
    /// A stripe that is filled counts the card out still.
    FearsTheFilled,
    /// The fill goes on after the fresh card's report.
    FillsTheDead,
    /// The fresh card's report is refused.
    DeniesTheDeath,
    /// After the last stripe the card is out as before.
    NeverWhole,
}

/// All that are bent.
const BENT: [Bend; 17] = [
    Bend::RefusesAll,
    Bend::Constant,
    Bend::WritesNothing,
    Bend::PretendsLater,
    Bend::InventsCount,
    Bend::SharesStripes,
    Bend::ClearsRest,
    Bend::CopiesEarly,
    Bend::ScansHeld,
    Bend::TrustsTheDead,
    Bend::FillsNothing,
    Bend::FillsHeld,
    Bend::TrustsTheFresh,
    Bend::FearsTheFilled,
    Bend::FillsTheDead,
    Bend::DeniesTheDeath,
    Bend::NeverWhole,
];

struct Impostor {
    bend: Bend,
    admitted: Cell<u64>,
}

impl Impostor {
    fn new(bend: Bend) -> Impostor {
        Impostor { bend, admitted: Cell::new(0) }
    }

    /// The fixed answer of one that does no work at all.
    fn fixed(&self) -> Option<u64> {
        match self.bend {
            Bend::RefusesAll => Some(1),
            Bend::Constant => Some(0),
            _ => None,
        }
    }

    /// The state as this one believes it to be while a card fills, if it believes something else than it is.
    fn believed(&self, state: &State) -> Option<State> {
        match self.bend {
            Bend::TrustsTheFresh if state.filling() => {
                Some(State { out: 255, fill: NO_FILL, ..*state })
            }
            Bend::FearsTheFilled if state.filling() => Some(State { fill: NO_FILL, ..*state }),
            _ => None,
        }
    }
}

/// The table with open requests on this stripe made finished ones, which hold nothing.
fn let_go(table: &[Record], stripe: u64) -> Vec<Record> {
    let finished =
        Record { phase: 2, write: 0, stripe, mask: 1, graph: 1, chosen: 255, done: 1, count: 1 };
    let holds = |record: &Record| record.phase == 1 && record.stripe == stripe;
    table.iter().map(|record| if holds(record) { finished } else { *record }).collect()
}

impl Calls for Impostor {
    fn place(&self, cards: u64, stripes: u64, layout: u64, block: u64) -> u64 {
        Plain.place(cards, stripes, layout, block)
    }

    fn block_at(&self, cards: u64, stripes: u64, layout: u64, card: u64, stripe: u64) -> u64 {
        Plain.block_at(cards, stripes, layout, card, stripe)
    }

    fn scan(&self, state: &State, image: &[u8]) -> u64 {
        self.fixed().unwrap_or_else(|| Plain.scan(state, image))
    }

    fn open(&self, lent: &mut Lent, asked: &State) -> u64 {
        self.fixed().unwrap_or_else(|| Plain.open(lent, asked))
    }

    fn admit(&self, lent: &mut Lent, write: u64, stripe: u64, mask: u64, payload: &[u8]) -> u64 {
        if let Some(fixed) = self.fixed() {
            return fixed;
        }
        if let Some(mut state) = self.believed(lent.state) {
            let mut bent = Lent { state: &mut state, ..lent.again() };
            return Plain.admit(&mut bent, write, stripe, mask, payload);
        }
        let mut answer = Plain.admit(lent, write, stripe, mask, payload);
        if self.bend == Bend::SharesStripes && answer == 8 {
            let mut others = let_go(lent.table, stripe);
            let mut shared = Lent { table: &mut others, ..lent.again() };
            answer = Plain.admit(&mut shared, write, stripe, mask, payload);
            let taken = Answer::of(answer);
            if taken.number == 0 {
                lent.table[taken.first as usize] = others[taken.first as usize];
            }
        }
        if self.bend == Bend::CopiesEarly && answer == 9 {
            let front = payload.len().min(lent.work.len());
            lent.work[..front].copy_from_slice(&payload[..front]);
        }
        if Answer::of(answer).number == 0 {
            self.admitted.set(self.admitted.get() + 1);
        }
        answer
    }

    fn step(&self, lent: &mut Lent, record: u64, step: u64) -> u64 {
        if let Some(fixed) = self.fixed() {
            return fixed;
        }
        let pretends = match self.bend {
            Bend::WritesNothing => true,
            Bend::PretendsLater => self.admitted.get() > 1,
            _ => false,
        };
        if pretends {
            let mut image = lent.image.to_vec();
            return Plain.step(&mut Lent { image: &mut image, ..lent.again() }, record, step);
        }
        if self.bend == Bend::TrustsTheDead && lent.state.out != 255 {
            let mut healthy = State { out: 255, ..*lent.state };
            let mut trusting = Lent { state: &mut healthy, ..lent.again() };
            let answer = Plain.step(&mut trusting, record, step);
            if Answer::of(answer).number == 0 {
                return answer;
            }
        }
        if let Some(mut state) = self.believed(lent.state) {
            return Plain.step(&mut Lent { state: &mut state, ..lent.again() }, record, step);
        }
        Plain.step(lent, record, step)
    }

    fn report(&self, state: &mut State, card: u64) -> u64 {
        if let Some(fixed) = self.fixed() {
            return fixed;
        }
        match self.bend {
            Bend::FillsTheDead if card == state.out => Plain.report(&mut state.clone(), card),
            Bend::DeniesTheDeath if card == state.out && state.lost == 0 => 12,
            _ => Plain.report(state, card),
        }
    }

    fn start(&self, state: &mut State) -> u64 {
        self.fixed().unwrap_or_else(|| Plain.start(state))
    }

    fn rebuild(&self, state: &mut State, table: &[Record], image: &mut [u8]) -> u64 {
        if let Some(fixed) = self.fixed() {
            return fixed;
        }
        let before = *state;
        match self.bend {
            Bend::FillsNothing => Plain.rebuild(state, table, &mut image.to_vec()),
            Bend::FillsHeld => Plain.rebuild(state, &let_go(table, before.fill), image),
            Bend::NeverWhole => {
                let answer = Plain.rebuild(state, table, image);
                state.out = before.out;
                answer
            }
            _ => Plain.rebuild(state, table, image),
        }
    }

    fn collect(&self, lent: &mut Lent, record: u64, result: &mut [u8]) -> u64 {
        if let Some(fixed) = self.fixed() {
            return fixed;
        }
        let request = lent.table.get(record as usize).copied();
        let answer = Plain.collect(lent, record, result);
        let Answer { number, first: count, .. } = Answer::of(answer);
        if number == 0 && self.bend == Bend::ClearsRest {
            let units =
                request.filter(|request| request.write == 0).map_or(0, |request| request.ones());
            result[(units * lent.state.block) as usize..].fill(0);
        }
        if number == 0 && self.bend == Bend::InventsCount {
            return (count.max(2) - 1) << 16;
        }
        answer
    }

    fn check(&self, state: &State, table: &[Record], image: &[u8]) -> u64 {
        if let Some(fixed) = self.fixed() {
            return fixed;
        }
        match self.bend {
            Bend::ScansHeld if Plain.check(state, table, image) == 0 => Plain.scan(state, image),
            _ => Plain.check(state, table, image),
        }
    }
}

/// Some story among the first few shows the impostor up.
fn found(bend: Bend, alone: bool) -> bool {
    (0..200).any(|seed| tell(&Impostor::new(bend), seed, alone).is_err())
}

#[test]
fn none_gets_through_a_comparison() {
    for bend in BENT {
        assert!(found(bend, false), "{bend:?} got through");
    }
    assert!(!found(Bend::Honest, false));
}

#[test]
fn the_callers_knowledge_is_enough() {
    // What a refused admission leaves in the work store, no caller looks at.
    for bend in BENT.into_iter().filter(|&bend| bend != Bend::CopiesEarly) {
        assert!(found(bend, true), "{bend:?} got through");
    }
    assert!(!found(Bend::Honest, true));
}
