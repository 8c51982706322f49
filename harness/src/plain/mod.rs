//! An independent implementation: document 01, and requests of document 02, read once more and written down in
//! ordinary Rust, as plain as those texts.
//!
//! It shares nothing with the library. Tests run both on the same input and compare every answer
//! and every byte; the benchmark takes this one as its measure.
//!
//! - `refusal`: the refusal numbers
//! - `placement`: where blocks are, both ways, in either layout
//! - `layout`: what the layout program writes
//! - `state`: the numbers of an array, and their limits
//! - `graph`: choosing a graph, its steps and what must come before each
//! - `record`: request records, and when a table of them is sound
//! - `blocks`: where blocks stand in the image and in the work store; copies and parity sums
//! - `engine`: the calls of document 01
//! - `fill`: the calls that fill a fresh card
//! - `row`: the array as its user sees it, a row of blocks

pub mod blocks;
pub mod engine;
pub mod fill;
pub mod graph;
pub mod layout;
pub mod placement;
pub mod record;
pub mod refusal;
pub mod row;
pub mod state;

pub use engine::{admit, check, collect, idle_scan, open, report, step, Progress};
pub use fill::{rebuild, start};
pub use placement::{block_at, place, Place, Role};
pub use record::Record;
pub use refusal::Refusal;
pub use row::Row;
pub use state::{State, LAYOUTS, LEVEL_4, LEVEL_5, NONE, NO_FILL};
