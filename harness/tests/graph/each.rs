//! Every request there can be, and subsets of its steps.

use harness::graphs::Asked;
use harness::plain::graph::{choose, Plan};

/// A request's graph, asked of the library and laid out plainly.
pub struct Chosen {
    pub units: u64,
    pub write: bool,
    pub mask: u64,
    pub missing: Option<u64>,
    pub graph: u64,
}

impl Chosen {
    pub fn asked(&self) -> Asked {
        Asked {
            units: self.units,
            graph: self.graph,
            mask: self.mask,
            missing: self.missing.unwrap_or(self.units + 1),
        }
    }

    pub fn plan(&self) -> Plan {
        Plan::new(self.units, self.graph, self.mask, self.missing)
    }
}

/// Every request of an array of N cards, 3 to 8: read or write, every mask, every position missing or none.
pub fn every_request(mut run: impl FnMut(&Chosen)) {
    for units in 2..=7 {
        for missing in (0..=units).map(Some).chain([None]) {
            for (mask, write) in (1..1 << units).flat_map(|mask| [(mask, false), (mask, true)]) {
                let graph = choose(units, write, mask, missing);
                run(&Chosen { units, write, mask, missing, graph });
            }
        }
    }
}

/// Every subset of a set, the empty one and the whole among them.
pub fn subsets(set: u64) -> impl Iterator<Item = u64> {
    let mut next = Some(0);
    std::iter::from_fn(move || {
        let this: u64 = next?;
        next = if this == set { None } else { Some(this.wrapping_sub(set) & set) };
        Some(this)
    })
}
