//! The six graphs: which one a request gets, its steps, and what must come before each step.
//!
//! Sets of positions and sets of steps are numbers with one bit for each member.

pub const PLAIN_READ: u64 = 1;
pub const DEGRADED_READ: u64 = 2;
pub const SMALL_WRITE: u64 = 3;
pub const RECONSTRUCT_WRITE: u64 = 4;
pub const LARGE_WRITE: u64 = 5;
pub const PARITY_FAILED: u64 = 6;

/// The set of the numbers below `end`.
fn all_below(end: u64) -> u64 {
    (1 << end) - 1
}

/// The set of this one number.
fn only(member: u64) -> u64 {
    1 << member
}

fn has(set: u64, member: u64) -> bool {
    set >> member & 1 == 1
}

/// Every member of `part` is in `whole`.
fn within(part: u64, whole: u64) -> bool {
    part & !whole == 0
}

/// The members of a set, ascending.
pub fn members(set: u64) -> impl Iterator<Item = u64> {
    let mut rest = set;
    std::iter::from_fn(move || {
        if rest == 0 {
            return None;
        }
        let lowest = rest.trailing_zeros() as u64;
        rest &= rest - 1;
        Some(lowest)
    })
}

/// The paper's table: the graph for a request on a stripe of n units, of which position `missing`
/// is on the card that is out.
pub fn choose(units: u64, write: bool, mask: u64, missing: Option<u64>) -> u64 {
    let ones = mask.count_ones() as u64;
    let parity_out = missing == Some(units);
    let unit_out = missing.filter(|&position| position < units);
    let in_mask = unit_out.map_or(false, |x| has(mask, x));
    match (write, in_mask) {
        (false, true) => DEGRADED_READ,
        (false, false) => PLAIN_READ,
        (true, _) if parity_out => PARITY_FAILED,
        (true, _) if ones == units => LARGE_WRITE,
        (true, true) => RECONSTRUCT_WRITE,
        (true, false) if unit_out.is_some() => SMALL_WRITE,
        (true, false) if 2 * ones < units => SMALL_WRITE,
        (true, false) => RECONSTRUCT_WRITE,
    }
}

/// What a step does. Positions n are parity.
#[derive(Clone, Copy, PartialEq, Eq, Debug)]
pub enum Action {
    Read(u64),
    Sum,
    Write(u64),
}

/// A graph laid out for one request: which positions it reads, whether it sums, which it writes.
#[derive(Clone, Copy)]
pub struct Plan {
    units: u64,
    graph: u64,
    pub reads: u64,
    sums: bool,
    writes: u64,
}

impl Plan {
    /// The steps of a graph. None is on the card that was out when it was chosen, so position
    /// `missing` is neither read nor written.
    pub fn new(units: u64, graph: u64, mask: u64, missing: Option<u64>) -> Plan {
        let every_unit = all_below(units);
        let parity = only(units);
        let (reads, sums, writes) = match graph {
            PLAIN_READ => (mask, false, 0),
            DEGRADED_READ => (every_unit | parity, true, 0),
            SMALL_WRITE => (mask | parity, true, mask | parity),
            RECONSTRUCT_WRITE => (every_unit & !mask, true, mask | parity),
            LARGE_WRITE => (0, true, every_unit | parity),
            PARITY_FAILED => (0, false, mask),
            _ => unreachable!("graphs are 1 to 6"),
        };
        let there = !missing.map_or(0, only);
        Plan { units, graph, reads: reads & there, sums, writes: writes & there }
    }

    /// The step that sums.
    fn sum(&self) -> u64 {
        self.units + 1
    }

    /// The first of the writing steps, that of unit 0.
    fn first_write(&self) -> u64 {
        self.units + 2
    }

    /// All steps of the graph.
    pub fn steps(&self) -> u64 {
        let sum = if self.sums { only(self.sum()) } else { 0 };
        self.reads | sum | self.writes << self.first_write()
    }

    /// What a step of the graph does.
    pub fn action(&self, step: u64) -> Action {
        if step <= self.units {
            Action::Read(step)
        } else if step == self.sum() {
            Action::Sum
        } else {
            Action::Write(step - self.first_write())
        }
    }

    /// The steps that must come before a step of the graph.
    pub fn before(&self, step: u64) -> u64 {
        match self.action(step) {
            Action::Read(_) => 0,
            Action::Sum => self.reads,
            Action::Write(position) if position == self.units => only(self.sum()),
            Action::Write(unit) => match self.graph {
                SMALL_WRITE => only(unit),
                RECONSTRUCT_WRITE => self.reads,
                _ => 0,
            },
        }
    }

    /// The step is in the graph, is not done, and lacks none that must come before.
    pub fn ready(&self, done: u64, step: u64) -> bool {
        step <= 2 * self.units + 2
            && has(self.steps(), step)
            && !has(done, step)
            && within(self.before(step), done)
    }

    /// The done steps belong to the graph, each with those that must come before it.
    pub fn allows(&self, done: u64) -> bool {
        within(done, self.steps()) && members(done).all(|step| within(self.before(step), done))
    }
}
