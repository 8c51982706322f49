//! Two engines on the same input, compared after every call.

use harness::calls::{Answer, Calls, Lent, Plain, Record, State};

/// Everything that a caller lends.
#[derive(Clone, PartialEq, Eq, Debug, Default)]
pub struct Side {
    pub state: State,
    pub table: Vec<Record>,
    pub work: Vec<u8>,
    pub image: Vec<u8>,
}

impl Side {
    /// Buffers of the right lengths for these numbers, all zero, not yet opened.
    pub fn for_state(state: State) -> Side {
        Side {
            state,
            table: vec![Record::default(); state.records as usize],
            work: vec![0; state.work_length() as usize],
            image: vec![0; state.image_length() as usize],
        }
    }

    /// All of it, lent.
    pub fn lent(&mut self) -> Lent<'_> {
        let Side { state, table, work, image } = self;
        Lent { state, table, work, image }
    }

    /// The bytes that a card holds in the image.
    pub fn card(&self, card: u64) -> std::ops::Range<usize> {
        let size = (self.state.stripes * self.state.block) as usize;
        card as usize * size..(card as usize + 1) * size
    }
}

/// One call, with its arguments.
#[derive(Clone, Debug)]
pub enum Call {
    Place { cards: u64, stripes: u64, layout: u64, block: u64 },
    BlockAt { cards: u64, stripes: u64, layout: u64, card: u64, stripe: u64 },
    Scan,
    Open { cards: u64, stripes: u64, block: u64, records: u64, layout: u64, out: u64 },
    Admit { write: u64, stripe: u64, mask: u64, payload: Vec<u8> },
    Step { record: u64, step: u64 },
    Report { card: u64 },
    Start,
    Rebuild,
    Collect { record: u64 },
    Check,
}

impl Call {
    /// Opens an array of this state's numbers.
    pub fn open(state: &State) -> Call {
        let State { cards, stripes, block, records, layout, out, .. } = *state;
        Call::Open { cards, stripes, block, records, layout, out }
    }

    /// Its place in tables of what was seen.
    pub fn name(&self) -> &'static str {
        match self {
            Call::Place { .. } => "place",
            Call::BlockAt { .. } => "block_at",
            Call::Scan => "scan",
            Call::Open { .. } => "open",
            Call::Admit { .. } => "admit",
            Call::Step { .. } => "step",
            Call::Report { .. } => "report",
            Call::Start => "start",
            Call::Rebuild => "rebuild",
            Call::Collect { .. } => "collect",
            Call::Check => "check",
        }
    }

    /// Makes the call.
    pub fn make(&self, calls: &dyn Calls, side: &mut Side, result: &mut [u8]) -> Answer {
        let lent = &mut side.lent();
        Answer::of(match *self {
            Call::Place { cards, stripes, layout, block } => {
                calls.place(cards, stripes, layout, block)
            }
            Call::BlockAt { cards, stripes, layout, card, stripe } => {
                calls.block_at(cards, stripes, layout, card, stripe)
            }
            Call::Scan => calls.scan(lent.state, lent.image),
            Call::Open { cards, stripes, block, records, layout, out } => {
                let whole = State::whole(cards, stripes, block);
                calls.open(lent, &State { records, layout, out, ..whole })
            }
            Call::Admit { write, stripe, mask, ref payload } => {
                calls.admit(lent, write, stripe, mask, payload)
            }
            Call::Step { record, step } => calls.step(lent, record, step),
            Call::Report { card } => calls.report(lent.state, card),
            Call::Start => calls.start(lent.state),
            Call::Rebuild => calls.rebuild(lent.state, lent.table, lent.image),
            Call::Collect { record } => calls.collect(lent, record, result),
            Call::Check => calls.check(lent.state, lent.table, lent.image),
        })
    }
}

/// What the tested engine has, what the plain engine has, and what was there before the last call.
pub struct Pair<'a> {
    tested: &'a dyn Calls,
    pub theirs: Side,
    pub ours: Side,
    before: Side,
    /// The bytes that are missing may differ between the two sides.
    pub decays_apart: bool,
    /// The tested engine is run alone and compared with nothing.
    pub alone: bool,
}

impl<'a> Pair<'a> {
    pub fn new(tested: &'a dyn Calls, side: Side) -> Pair<'a> {
        Pair {
            tested,
            theirs: side.clone(),
            ours: side,
            before: Side::default(),
            decays_apart: false,
            alone: false,
        }
    }

    /// Makes the call on both sides; says what differs, if anything does. A result buffer comes in
    /// filled by the caller and goes out as the tested engine left it.
    pub fn call(&mut self, call: &Call, result: &mut Vec<u8>) -> Result<Answer, String> {
        if self.alone {
            return Ok(call.make(self.tested, &mut self.theirs, result));
        }
        self.before.clone_from(&self.theirs);
        let filled = result.clone();
        let mut our_result = filled.clone();
        let theirs = call.make(self.tested, &mut self.theirs, result);
        let ours = call.make(&Plain, &mut self.ours, &mut our_result);
        let told =
            |what: &str| Err(format!("{what} after {call:?}: {theirs:?}, plain engine {ours:?}"));
        if theirs != ours {
            return told("answers differ");
        }
        if *result != our_result {
            return told("result buffers differ");
        }
        if let Some(what) = self.difference() {
            return told(&what);
        }
        if theirs.number != 0 && (self.theirs != self.before || *result != filled) {
            return told("a refused call altered something");
        }
        Ok(theirs)
    }

    /// The first thing in which the two sides differ.
    fn difference(&self) -> Option<String> {
        let (theirs, ours) = (&self.theirs, &self.ours);
        if theirs.state != ours.state {
            return Some(format!("states differ, {:?} and {:?},", theirs.state, ours.state));
        }
        if theirs.table != ours.table {
            return Some(format!("tables differ, {:?} and {:?},", theirs.table, ours.table));
        }
        if theirs.work != ours.work {
            return Some("work stores differ".to_string());
        }
        let skipped = if self.decays_apart { ours.missing() } else { 0..0 };
        let same = theirs.image.len() == ours.image.len()
            && theirs.image[..skipped.start] == ours.image[..skipped.start]
            && theirs.image[skipped.end..] == ours.image[skipped.end..];
        (!same).then(|| "images differ".to_string())
    }
}

impl Side {
    /// The bytes of the card that is out, in the stripes that are not filled.
    pub fn missing(&self) -> std::ops::Range<usize> {
        if self.state.out >= self.state.cards {
            return 0..0;
        }
        let card = self.card(self.state.out);
        let filled = if self.state.filling() { self.state.fill * self.state.block } else { 0 };
        card.start + filled as usize..card.end
    }
}
