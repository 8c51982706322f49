//! The bare copies and sums of a request, with all places worked out beforehand.

use crate::{Bench, Task};
use harness::plain::blocks::{in_image, to_write, was_read, Sum};
use harness::plain::graph::{members, Action};
use std::ops::Range;

/// One copy or sum, from and to.
pub enum Move {
    Payload(Range<usize>, Range<usize>),
    Read(Range<usize>, Range<usize>),
    Sum(Vec<Range<usize>>, Range<usize>),
    Write(Range<usize>, Range<usize>),
    Result(Range<usize>, Range<usize>),
}

/// The copies and sums of the request on every stripe in turn.
pub fn all(bench: &Bench, task: &Task) -> Vec<Move> {
    bench.stripes.iter().flat_map(|&stripe| of_request(bench, task, stripe)).collect()
}

fn of_request(bench: &Bench, task: &Task, stripe: u64) -> Vec<Move> {
    let state = &bench.state;
    let block = state.block as usize;
    let piece = |at: usize| at * block..(at + 1) * block;
    let mut moves = Vec::new();
    for (at, unit) in members(bench.mask).enumerate().filter(|_| task.write) {
        moves.push(Move::Payload(piece(at), to_write(state, 0, unit)));
    }
    for &step in &bench.steps {
        moves.push(match bench.plan.action(step) {
            Action::Read(at) => Move::Read(in_image(state, stripe, at), was_read(state, 0, at)),
            Action::Write(at) => Move::Write(to_write(state, 0, at), in_image(state, stripe, at)),
            Action::Sum => sum(bench, task),
        });
    }
    for (at, unit) in members(bench.mask).enumerate().filter(|_| !task.write) {
        moves.push(Move::Result(was_read(state, 0, unit), piece(at)));
    }
    moves
}

fn sum(bench: &Bench, task: &Task) -> Move {
    let state = &bench.state;
    let mut from: Vec<_> = members(bench.plan.reads).map(|at| was_read(state, 0, at)).collect();
    if let Some(missing) = task.out {
        return Move::Sum(from, was_read(state, 0, missing));
    }
    from.extend(members(bench.mask).map(|unit| to_write(state, 0, unit)));
    Move::Sum(from, to_write(state, 0, state.units()))
}

/// Does the copies and sums, and nothing else.
#[inline(never)]
pub fn carry_out(bench: &mut Bench, moves: &[Move]) {
    let Bench { state, work, image, payload, result, .. } = bench;
    for each in moves {
        match each {
            Move::Payload(from, to) => copy(&payload[from.clone()], &mut work[to.clone()]),
            Move::Read(from, to) => copy(&image[from.clone()], &mut work[to.clone()]),
            Move::Write(from, to) => copy(&work[from.clone()], &mut image[to.clone()]),
            Move::Result(from, to) => copy(&work[from.clone()], &mut result[to.clone()]),
            Move::Sum(from, to) => {
                let mut sum = Sum::default();
                from.iter().for_each(|part| sum.add(&work[part.clone()]));
                copy(sum.bytes(state), &mut work[to.clone()]);
            }
        }
    }
}

fn copy(from: &[u8], to: &mut [u8]) {
    to.copy_from_slice(from);
}
