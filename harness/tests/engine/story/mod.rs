//! One random history of an array, from its opening on.
//!
//! The caller's knowledge is kept apart from both engines: a plain row, the numbers of the state, and for
//! each request what was asked and how many steps were accepted. What the tested engine does is held to
//! this knowledge and, call by call, to the plain engine.

mod arrays;
mod cards;
mod fills;
mod requests;
mod senseless;

use crate::pair::{Call, Pair, Side};
use crate::tally::Tally;
pub use arrays::{some_side, some_state};
use harness::calls::{Answer, Calls, State};
use harness::plain::{Record, Row};
use harness::random::Random;

/// What the caller knows of a request that it has not collected.
struct Request {
    write: bool,
    stripe: u64,
    mask: u64,
    payload: Vec<u8>,
    /// Accepted steps.
    steps: u64,
    /// Once finished: what collect has to put into the result buffer.
    outcome: Option<Vec<u8>>,
}

pub struct Story<'a> {
    pair: Pair<'a>,
    random: Random,
    row: Row,
    /// The state as the caller's own book has it.
    known: State,
    requests: Vec<Option<Request>>,
    /// Of a hundred turns, those that go to a fresh card.
    haste: u64,
    /// The cards that failed one after another, the one out at the opening among them.
    failures: u64,
    /// The card that was filled to the end last.
    filled: Option<u64>,
    pub tally: Tally,
}

impl<'a> Story<'a> {
    /// Opens an array of random numbers with random bytes.
    pub fn begin(calls: &'a dyn Calls, seed: u64, alone: bool) -> Result<Story<'a>, String> {
        let mut random = Random::new(seed);
        let state = some_state(&mut random);
        let mut side = some_side(&mut random, state);
        let row = Row::of(&state, &side.image);
        // What the caller's state holds before opening does not matter.
        side.state = State { cards: random.number(), fill: random.number(), ..State::default() };
        let haste = random.pick(&[0, 3, 12, 40]);
        let mut pair = Pair::new(calls, side);
        pair.alone = alone;
        let mut story = Story {
            pair,
            random,
            row,
            known: state,
            requests: (0..state.records).map(|_| None).collect(),
            haste,
            failures: (state.out != 255) as u64,
            filled: None,
            tally: Tally::default(),
        };
        story.tally.note("layout", state.layout);
        story.open_in_no_layout(state)?;
        story.open_wrongly(state)?;
        let opened = story.call(Call::open(&state))?;
        story.expect(opened.number == 0, "the array opens")?;
        story.state_is_known()?;
        story.pair.decays_apart = story.random.chance(1, 2);
        Ok(story)
    }

    /// Now and then asks for a layout that there is not: that is refused.
    fn open_in_no_layout(&mut self, state: State) -> Result<(), String> {
        if !self.random.chance(1, 8) {
            return Ok(());
        }
        let layout = self.random.pick(&[0, 3, 6, 255, (1 << 32) + 4, (1 << 32) + 5, u64::MAX]);
        let answer = self.call(Call::open(&State { layout, ..state }))?;
        self.expect(answer == Answer::refused(1), "there is no such layout")
    }

    /// Now and then spoils one byte first: it is found if no card is out, and put back.
    fn open_wrongly(&mut self, state: State) -> Result<(), String> {
        if !self.random.chance(1, 3) {
            return Ok(());
        }
        let State { stripes, block, out, .. } = state;
        let at = self.random.below(state.image_length()) as usize;
        let flip = self.random.between(1, 255) as u8;
        self.pair.theirs.image[at] ^= flip;
        self.pair.ours.image[at] ^= flip;
        let before = self.pair.theirs.table.clone();
        let answer = self.call(Call::open(&state))?;
        if out == 255 {
            let stripe = at as u64 / block % stripes;
            let found = Answer { number: 13, first: stripe, second: at as u64 % block };
            self.expect(answer == found, "open finds the byte that is wrong")?;
            self.expect(self.pair.theirs.table == before, "and leaves the table")?;
        }
        self.pair.theirs.image[at] ^= flip;
        self.pair.ours.image[at] ^= flip;
        Ok(())
    }

    fn state(&self) -> State {
        self.known
    }

    /// The engine's state is the one that the caller's book has.
    fn state_is_known(&self) -> Result<(), String> {
        let same = self.pair.theirs.state == self.known;
        self.expect(
            same,
            &format!("the state is as foreseen, and not {:?}", self.pair.theirs.state),
        )
    }

    fn record(&self, record: u64) -> Record {
        self.pair.theirs.table[record as usize]
    }

    /// What the array lends at this point of the story.
    pub fn side(&self) -> &Side {
        &self.pair.theirs
    }

    fn expect(&self, condition: bool, what: &str) -> Result<(), String> {
        if condition {
            Ok(())
        } else {
            Err(format!("not so: {what}; {:?}", self.state()))
        }
    }

    fn call(&mut self, call: Call) -> Result<Answer, String> {
        self.call_with(call, &mut Vec::new())
    }

    fn call_with(&mut self, call: Call, result: &mut Vec<u8>) -> Result<Answer, String> {
        let answer = self.pair.call(&call, result)?;
        self.tally.note(call.name(), answer.number);
        Ok(answer)
    }

    /// One thing that a caller may do, a senseless one now and then.
    pub fn turn(&mut self) -> Result<(), String> {
        let hasty = self.random.below(100) < self.haste;
        match self.random.below(100) {
            _ if hasty => self.see_to_a_card()?,
            0..=17 => self.admit()?,
            18..=69 => self.step()?,
            70..=75 => self.senseless_step()?,
            76..=84 => self.collect()?,
            85..=88 => self.senseless_collect()?,
            89..=91 => self.scan()?,
            92..=97 => self.decay(),
            98 => self.senseless_admit()?,
            _ => self.report()?,
        }
        self.state_is_known()?;
        self.idle_stripes_agree()
    }

    /// Every stripe that no open request holds says what the row says: on every card, where none is out in it.
    fn idle_stripes_agree(&self) -> Result<(), String> {
        if self.state().lost != 0 {
            return Ok(());
        }
        let state = self.state();
        let idle = (0..state.stripes).filter(|&stripe| !self.held(stripe));
        for stripe in idle {
            let agrees = self.row.agrees(&state, &self.pair.theirs.image, stripe);
            self.expect(agrees, "an idle stripe agrees with the row")?;
        }
        Ok(())
    }

    /// The records of requests that are not finished, by the caller's knowledge.
    fn open_records(&self) -> Vec<u64> {
        let is_open = |request: &Option<Request>| {
            request.as_ref().map_or(false, |request| request.outcome.is_none())
        };
        (0..self.requests.len() as u64).filter(|&at| is_open(&self.requests[at as usize])).collect()
    }

    /// By the caller's knowledge, a request that is not finished is on this stripe.
    fn held(&self, stripe: u64) -> bool {
        let mut open = self.requests.iter().flatten().filter(|request| request.outcome.is_none());
        open.any(|request| request.stripe == stripe)
    }

    /// Lets everything that is open come to its end, collects it, fills a card that is out now and then,
    /// and reads the whole row back.
    pub fn end(&mut self) -> Result<(), String> {
        if self.state().lost != 0 {
            return Ok(());
        }
        while !self.open_records().is_empty() {
            self.step()?;
        }
        self.idle_stripes_agree()?;
        for record in 0..self.state().records {
            if self.requests[record as usize].is_some() {
                self.collect_at(record)?;
            }
        }
        if self.random.chance(1, 2) {
            self.fill_up()?;
        }
        for stripe in 0..self.state().stripes {
            let mask = (1 << self.state().units()) - 1;
            let admit = Call::Admit { write: 0, stripe, mask, payload: Vec::new() };
            let answer = self.call(admit)?;
            self.expect(answer.number == 0, "a read of an idle array is admitted")?;
            self.requests[answer.first as usize] = Some(Request {
                write: false,
                stripe,
                mask,
                payload: Vec::new(),
                steps: 0,
                outcome: None,
            });
            while !self.open_records().is_empty() {
                self.step()?;
            }
            self.collect_at(answer.first)?;
        }
        Ok(())
    }
}

/// Tells a whole story; what it met, or what went wrong. An engine that is alone is held to the
/// caller's knowledge only.
pub fn tell(calls: &dyn Calls, seed: u64, alone: bool) -> Result<Tally, String> {
    let run = || {
        let mut story = Story::begin(calls, seed, alone)?;
        for _ in 0..story.random.between(20, 400) {
            story.turn()?;
        }
        story.end()?;
        Ok(std::mem::take(&mut story.tally))
    };
    run().map_err(|what: String| format!("seed {seed}: {what}"))
}
