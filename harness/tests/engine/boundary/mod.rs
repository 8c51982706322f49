//! Every refusal of every call at its boundary, alone and together with each later one.
//!
//! The expected numbers are the paper's, not the plain engine's. A fault is one change to a call
//! that would be accepted; it lies just beyond a limit, and next to it the call is accepted still.
//! All of it is asked in both layouts.

mod array;
mod faults;
mod fill;
mod requests;

use crate::pair::Pair;
use crate::tested;
use faults::{Ask, Fault};
use harness::plain::LAYOUTS;

/// The calls' own numbers, changed in place.
macro_rules! change {
    ($ask:ident, $call:ident { $($field:ident = $value:expr),* }) => {
        if let Call::$call { $($field,)* .. } = &mut $ask.call { $(*$field = $value;)* }
    };
}

use change;

/// Each fault alone gives its number, and any two give the one that is tested first; in both layouts.
fn lowest_wins(accepted: Ask, faults: &[Fault]) {
    LAYOUTS
        .into_iter()
        .for_each(|layout| lowest_wins_in(accepted.clone().in_layout(layout), faults));
}

/// The same in the layout of this call.
fn lowest_wins_in(accepted: Ask, faults: &[Fault]) {
    let calls = tested();
    let asked = |ask: &Ask| {
        let mut result = ask.result.clone();
        let mut pair = Pair::new(&calls, ask.side.clone());
        pair.call(&ask.call, &mut result).unwrap_or_else(|what| panic!("{what}")).number
    };
    assert_eq!(asked(&accepted), 0, "{:?}", accepted.call);
    for (at, first) in faults.iter().enumerate() {
        let mut alone = accepted.clone();
        (first.make)(&mut alone);
        assert_eq!(asked(&alone), first.number, "{} in {}", first.what, accepted.call.name());
        for second in faults[at..].iter().filter(|second| second.number != first.number) {
            let mut both = accepted.clone();
            (second.make)(&mut both);
            (first.make)(&mut both);
            let place = accepted.call.name();
            assert_eq!(asked(&both), first.number, "{} and {} in {place}", first.what, second.what);
        }
    }
}

/// These changes are still within the limits, in both layouts.
fn still_accepted(accepted: Ask, changes: &[fn(&mut Ask)]) {
    let calls = tested();
    for (at, change) in changes.iter().enumerate() {
        for layout in LAYOUTS {
            let mut ask = accepted.clone().in_layout(layout);
            change(&mut ask);
            let mut result = ask.result.clone();
            let answer = Pair::new(&calls, ask.side).call(&ask.call, &mut result).unwrap();
            assert_eq!(answer.number, 0, "change {at} of {:?} in layout {layout}", accepted.call);
        }
    }
}
