//! Impostors that follow another layout than the state's, in one call or in all, so that the histories are seen to find them.
//!
//! Each is the plain engine otherwise. None gets through a story when it is compared call by call, nor when it is held to the
//! caller's knowledge alone.

use crate::story::tell;
use harness::calls::{Answer, Calls, Lent, Plain, Record, State};
use harness::plain::LAYOUTS;

#[derive(Clone, Copy, Debug)]
enum Bend {
    /// Places every array as in this layout, in every call.
    Follows(u64),
    /// The same in this call alone.
    FollowsIn(u64, &'static str),
    /// Leaves the other layout in the state where this call is accepted.
    Turns(&'static str),
}

struct Mislaid(Bend);

impl Mislaid {
    /// The layout that is followed in a call on an array of this layout.
    fn followed(&self, name: &str, layout: u64) -> u64 {
        match self.0 {
            Bend::Follows(other) => other,
            Bend::FollowsIn(other, bent) if bent == name => other,
            _ => layout,
        }
    }

    /// The layout that a call on an array of this layout leaves.
    fn left(&self, name: &str, layout: u64, answer: u64) -> u64 {
        match self.0 {
            Bend::Turns(bent) if bent == name && Answer::of(answer).number == 0 => 9 - layout,
            _ => layout,
        }
    }

    /// Makes a call on a state with the layout that is followed, and leaves the one that is left.
    fn make(&self, name: &str, state: &mut State, call: impl FnOnce(&mut State) -> u64) -> u64 {
        let layout = state.layout;
        state.layout = self.followed(name, layout);
        let answer = call(state);
        state.layout = self.left(name, layout, answer);
        answer
    }
}

impl Calls for Mislaid {
    fn place(&self, cards: u64, stripes: u64, layout: u64, block: u64) -> u64 {
        Plain.place(cards, stripes, layout, block)
    }

    fn block_at(&self, cards: u64, stripes: u64, layout: u64, card: u64, stripe: u64) -> u64 {
        Plain.block_at(cards, stripes, layout, card, stripe)
    }

    fn scan(&self, state: &State, image: &[u8]) -> u64 {
        self.make("scan", &mut state.clone(), |state| Plain.scan(state, image))
    }

    fn open(&self, lent: &mut Lent, asked: &State) -> u64 {
        let answer = Plain.open(lent, asked);
        if answer == 0 {
            lent.state.layout = self.left("open", asked.layout, answer);
        }
        answer
    }

    fn admit(&self, lent: &mut Lent, write: u64, stripe: u64, mask: u64, payload: &[u8]) -> u64 {
        let Lent { state, table, work, image } = lent.again();
        self.make("admit", state, |state| {
            Plain.admit(&mut Lent { state, table, work, image }, write, stripe, mask, payload)
        })
    }

    fn step(&self, lent: &mut Lent, record: u64, step: u64) -> u64 {
        let Lent { state, table, work, image } = lent.again();
        self.make("step", state, |state| {
            Plain.step(&mut Lent { state, table, work, image }, record, step)
        })
    }

    fn report(&self, state: &mut State, card: u64) -> u64 {
        self.make("report", state, |state| Plain.report(state, card))
    }

    fn start(&self, state: &mut State) -> u64 {
        self.make("start", state, |state| Plain.start(state))
    }

    fn rebuild(&self, state: &mut State, table: &[Record], image: &mut [u8]) -> u64 {
        self.make("rebuild", state, |state| Plain.rebuild(state, table, image))
    }

    fn collect(&self, lent: &mut Lent, record: u64, result: &mut [u8]) -> u64 {
        let Lent { state, table, work, image } = lent.again();
        self.make("collect", state, |state| {
            Plain.collect(&mut Lent { state, table, work, image }, record, result)
        })
    }

    fn check(&self, state: &State, table: &[Record], image: &[u8]) -> u64 {
        self.make("check", &mut state.clone(), |state| Plain.check(state, table, image))
    }
}

/// All that are bent. Open and the scan of an idle array ask for no position, and report and start for nothing but the state, so that
/// another layout in those calls alone is none.
fn bends() -> impl Iterator<Item = Bend> {
    let every = LAYOUTS.into_iter().map(Bend::Follows);
    let single = ["admit", "step", "rebuild", "collect", "check"]
        .into_iter()
        .flat_map(|name| LAYOUTS.map(|layout| Bend::FollowsIn(layout, name)));
    let turns = ["open", "step", "report", "start", "rebuild"].into_iter().map(Bend::Turns);
    every.chain(single).chain(turns)
}

/// Some story among the first few shows the impostor up.
fn found(bend: Bend, alone: bool) -> bool {
    (0..200).any(|seed| tell(&Mislaid(bend), seed, alone).is_err())
}

#[test]
fn none_gets_through_a_comparison() {
    for bend in bends() {
        assert!(found(bend, false), "{bend:?} got through");
    }
}

#[test]
fn the_callers_knowledge_is_enough() {
    for bend in bends() {
        assert!(found(bend, true), "{bend:?} got through");
    }
}

/// Where it makes no difference nobody finds it: a scan of an idle array by the other layout.
#[test]
fn an_idle_scan_by_the_other_layout_is_none() {
    for layout in LAYOUTS {
        assert!(!found(Bend::FollowsIn(layout, "scan"), false));
    }
}
