//! The plain engine behind the C interface.

use super::{pack, Calls, Lent, Record, State};
use crate::plain::{self, Progress, Refusal, Role};

pub struct Plain;

/// The packed answer of a result, given the two values of an accepted one.
fn answer<T>(result: Result<T, Refusal>, values: impl Fn(T) -> (u64, u64)) -> u64 {
    match result {
        Ok(value) => {
            let (first, second) = values(value);
            pack(0, first, second)
        }
        Err(Refusal::Parity { stripe, byte }) => pack(13, stripe, byte),
        Err(refusal) => pack(refusal.number(), 0, 0),
    }
}

impl Calls for Plain {
    fn place(&self, cards: u64, stripes: u64, layout: u64, block: u64) -> u64 {
        answer(plain::place(cards, stripes, layout, block), |place| (place.card, place.stripe))
    }

    fn block_at(&self, cards: u64, stripes: u64, layout: u64, card: u64, stripe: u64) -> u64 {
        answer(plain::block_at(cards, stripes, layout, card, stripe), |role| match role {
            Role::Block(block) => (0, block),
            Role::Parity => (1, 0),
        })
    }

    fn scan(&self, state: &State, image: &[u8]) -> u64 {
        answer(plain::idle_scan(state, image), |()| (0, 0))
    }

    fn open(&self, lent: &mut Lent, asked: &State) -> u64 {
        let opened = plain::open(asked, lent.table, lent.work, lent.image);
        if let Ok(state) = opened {
            *lent.state = state;
        }
        answer(opened, |_| (0, 0))
    }

    fn admit(&self, lent: &mut Lent, write: u64, stripe: u64, mask: u64, payload: &[u8]) -> u64 {
        let Lent { state, table, work, image } = lent.again();
        let admitted = plain::admit(state, table, work, image, write != 0, stripe, mask, payload);
        answer(admitted, |record| (record, 0))
    }

    fn step(&self, lent: &mut Lent, record: u64, step: u64) -> u64 {
        let Lent { state, table, work, image } = lent.again();
        answer(plain::step(state, table, work, image, record, step), |progress| match progress {
            Progress::Done => (0, 0),
            Progress::Afresh(graph) => (graph, 0),
        })
    }

    fn report(&self, state: &mut State, card: u64) -> u64 {
        answer(plain::report(state, card), |()| (0, 0))
    }

    fn start(&self, state: &mut State) -> u64 {
        answer(plain::start(state), |()| (0, 0))
    }

    fn rebuild(&self, state: &mut State, table: &[Record], image: &mut [u8]) -> u64 {
        answer(plain::rebuild(state, table, image), |stripe| (stripe, 0))
    }

    fn collect(&self, lent: &mut Lent, record: u64, result: &mut [u8]) -> u64 {
        let collected = plain::collect(lent.state, lent.table, lent.work, record, result);
        answer(collected, |count| (count, 0))
    }

    fn check(&self, state: &State, table: &[Record], image: &[u8]) -> u64 {
        answer(plain::check(state, table, image), |()| (0, 0))
    }
}
