//! The library, through its C calls, held to document 01, to requests of document 02, and to the plain engine.

mod boundary;
mod examples;
mod fresh;
mod history;
mod impostors;
mod largest;
mod longest;
mod mislaid;
mod numbers;
mod orders;
mod pair;
mod scene;
mod story;
mod tables;
mod tally;
mod versions;
mod wild;

use harness::calls::Calls;

/// The engine under test.
fn tested() -> impl Calls {
    harness::calls::Tested
}
