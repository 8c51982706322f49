//! What a set of runs has met: so that a test can demand that nothing was left out.

use std::collections::BTreeMap;

#[derive(Default, Debug)]
pub struct Tally {
    seen: BTreeMap<(&'static str, u64), u64>,
}

impl Tally {
    pub fn note(&mut self, what: &'static str, number: u64) {
        *self.seen.entry((what, number)).or_default() += 1;
    }

    pub fn count(&self, what: &'static str, number: u64) -> u64 {
        self.seen.get(&(what, number)).copied().unwrap_or(0)
    }

    /// Adds what another run has met.
    pub fn add(&mut self, other: &Tally) {
        for (&what, &times) in &other.seen {
            *self.seen.entry(what).or_default() += times;
        }
    }

    /// Each of these numbers was met at least once.
    pub fn demand(&self, what: &'static str, numbers: &[u64]) {
        for &number in numbers {
            assert_ne!(self.count(what, number), 0, "{what} {number} was never met");
        }
    }

    /// This number was met so many times at least.
    pub fn at_least(&self, what: &'static str, number: u64, times: u64) {
        let met = self.count(what, number);
        assert!(met >= times, "{what} {number} was met {met} times, and not {times}");
    }

    /// No other number was met.
    pub fn only(&self, what: &'static str, numbers: &[u64]) {
        for (&(name, number), _) in self.seen.iter().filter(|((name, _), _)| *name == what) {
            assert!(numbers.contains(&number), "{name} gave {number}");
        }
    }
}
