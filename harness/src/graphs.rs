//! The library's graphs, records and tables by value, through the functions that crate `graph_test` exports for tests alone.
use crate::plain::graph::Action;
use crate::plain::{Record, State};

extern "C" {
    fn graph_test_choose(n: u64, write: bool, mask: u64, x: u64) -> u64;
    fn graph_test_steps(n: u64, g: u64, mask: u64, x: u64) -> u64;
    fn graph_test_ready(n: u64, g: u64, mask: u64, x: u64, done: u64, k: u64) -> bool;
    fn graph_test_complete(n: u64, g: u64, mask: u64, x: u64, done: u64) -> bool;
    fn graph_test_judge(n: u64, g: u64, mask: u64, x: u64, done: u64) -> u64;
    fn graph_test_kind(n: u64, k: u64) -> u64;
    fn graph_test_place(n: u64, k: u64) -> u64;
    fn graph_test_reads(n: u64, g: u64, mask: u64, x: u64) -> u64;
    fn graph_test_taken_news(n: u64, g: u64, mask: u64) -> u64;
    fn graph_test_sums_to_read(g: u64) -> bool;
    fn table_test_sound(
        state: *const u64,
        state_len: usize,
        table: *const u64,
        table_len: usize,
    ) -> bool;
    fn table_test_lowest_free(
        state: *const u64,
        state_len: usize,
        table: *const u64,
        table_len: usize,
    ) -> u64;
    fn table_test_held(
        state: *const u64,
        state_len: usize,
        table: *const u64,
        table_len: usize,
        stripe: u64,
    ) -> bool;
}

/// A graph as the library is asked of it: any numbers at all. `missing` is a position, or above `units` for none.
#[derive(Clone, Copy, Debug)]
pub struct Asked {
    pub units: u64,
    pub graph: u64,
    pub mask: u64,
    pub missing: u64,
}

// Safe, here and below: the functions take any numbers and touch no memory of the caller's.
pub fn choose(units: u64, write: bool, mask: u64, missing: u64) -> u64 {
    unsafe { graph_test_choose(units, write, mask, missing) }
}

/// What step k does, where it is a step.
pub fn action(units: u64, step: u64) -> Option<Action> {
    let (kind, place) = unsafe { (graph_test_kind(units, step), graph_test_place(units, step)) };
    match kind {
        1 => Some(Action::Read(place)),
        2 => Some(Action::Sum),
        3 => Some(Action::Write(place)),
        _ => None,
    }
}

/// The exclusive or goes to the read block of X.
pub fn sums_to_read(graph: u64) -> bool {
    unsafe { graph_test_sums_to_read(graph) }
}

impl Asked {
    pub fn steps(self) -> u64 {
        unsafe { graph_test_steps(self.units, self.graph, self.mask, self.missing) }
    }

    pub fn ready(self, done: u64, step: u64) -> bool {
        unsafe { graph_test_ready(self.units, self.graph, self.mask, self.missing, done, step) }
    }

    pub fn complete(self, done: u64) -> bool {
        unsafe { graph_test_complete(self.units, self.graph, self.mask, self.missing, done) }
    }

    /// Of done steps: none where they are not the graph's, each with its forerunners; else whether they are all.
    pub fn judge(self, done: u64) -> Option<bool> {
        match unsafe { graph_test_judge(self.units, self.graph, self.mask, self.missing, done) } {
            0 => None,
            judged => Some(judged == 2),
        }
    }

    /// The positions that the graph reads, whose blocks the exclusive or takes.
    pub fn reads(self) -> u64 {
        unsafe { graph_test_reads(self.units, self.graph, self.mask, self.missing) }
    }

    /// The positions whose blocks to write it takes.
    pub fn taken_news(self) -> u64 {
        unsafe { graph_test_taken_news(self.units, self.graph, self.mask) }
    }
}

/// A state is eight numbers, and a table eight for each record; both are laid out as C lays them out.
fn state_numbers(state: &State) -> (*const u64, usize) {
    (state as *const State as *const u64, 8)
}

fn table_numbers(table: &[Record]) -> (*const u64, usize) {
    (table.as_ptr() as *const u64, 8 * table.len())
}

// Safe, here and below: what is lent is lent whole, for the time of the call.
pub fn sound(state: &State, table: &[Record]) -> bool {
    let ((state, state_len), (table, len)) = (state_numbers(state), table_numbers(table));
    unsafe { table_test_sound(state, state_len, table, len) }
}

pub fn lowest_free(state: &State, table: &[Record]) -> u64 {
    let ((state, state_len), (table, len)) = (state_numbers(state), table_numbers(table));
    unsafe { table_test_lowest_free(state, state_len, table, len) }
}

pub fn held(state: &State, table: &[Record], stripe: u64) -> bool {
    let ((state, state_len), (table, len)) = (state_numbers(state), table_numbers(table));
    unsafe { table_test_held(state, state_len, table, len, stripe) }
}
