//! Calls that are accepted, and single changes that bring about each refusal.

use crate::pair::{Call, Side};
use harness::calls::{Record, State};
use harness::plain::blocks::in_image;
use harness::plain::NO_FILL;

/// A call with all that it is lent.
#[derive(Clone)]
pub struct Ask {
    pub side: Side,
    pub call: Call,
    pub result: Vec<u8>,
}

/// A refusal number and a change that brings it about.
pub struct Fault {
    pub number: u64,
    pub what: &'static str,
    pub make: fn(&mut Ask),
}

pub fn fault(number: u64, what: &'static str, make: fn(&mut Ask)) -> Fault {
    Fault { number, what, make }
}

/// The numbers of what is lent, in layout 5.
pub const STATE: State = State {
    cards: 4,
    stripes: 5,
    block: 32,
    records: 4,
    layout: 5,
    out: 255,
    lost: 0,
    fill: NO_FILL,
};

/// What is lent: N = 4, S = 5, B = 32, K = 4, no card out, all bytes zero. The table is sound in both layouts: record 0
/// is an open write on stripe 1, record 1 a finished read of units 0 and 2, record 2 is free, record
/// 3 is an open read on stripe 4.
pub fn side() -> Side {
    let mut side = Side::for_state(STATE);
    side.table[0] = Record {
        phase: 1,
        write: 1,
        stripe: 1,
        mask: 1,
        graph: 3,
        chosen: 255,
        done: 0b1001,
        count: 2,
    };
    side.table[1] =
        Record { phase: 2, write: 0, stripe: 2, mask: 5, graph: 1, chosen: 255, done: 5, count: 2 };
    side.table[3] =
        Record { phase: 1, write: 0, stripe: 4, mask: 7, graph: 1, chosen: 255, done: 1, count: 1 };
    side
}

impl Ask {
    /// The same in an array of another layout.
    pub fn in_layout(mut self, number: u64) -> Ask {
        self.side.state.layout = number;
        match &mut self.call {
            Call::Place { layout, .. }
            | Call::BlockAt { layout, .. }
            | Call::Open { layout, .. } => *layout = number,
            _ => {}
        }
        self
    }
}

/// A call in layout 5 with all that it is lent.
pub fn ask(call: Call) -> Ask {
    Ask { side: side(), call, result: vec![0xEE; 64] }
}

// Changes of what is lent.

/// One item fewer.
pub fn shorten<T>(list: &mut Vec<T>) {
    list.pop();
}

pub fn limits() -> Vec<Fault> {
    vec![
        fault(1, "N = 2", |ask| ask.side.state.cards = 2),
        fault(1, "N = 9", |ask| ask.side.state.cards = 9),
        fault(1, "S = 0", |ask| ask.side.state.stripes = 0),
        fault(1, "S = 1025", |ask| ask.side.state.stripes = 1025),
        fault(1, "B = 0", |ask| ask.side.state.block = 0),
        fault(1, "B = 24", |ask| ask.side.state.block = 24),
        fault(1, "B = 528", |ask| ask.side.state.block = 528),
        fault(1, "K = 0", |ask| ask.side.state.records = 0),
        fault(1, "K = 9", |ask| ask.side.state.records = 9),
        fault(1, "layout 0", |ask| ask.side.state.layout = 0),
        fault(1, "layout 3", |ask| ask.side.state.layout = 3),
        fault(1, "layout 6", |ask| ask.side.state.layout = 6),
        fault(1, "layout 255", |ask| ask.side.state.layout = 255),
        fault(1, "layout 2^8+4", |ask| ask.side.state.layout = (1 << 8) + 4),
        fault(1, "layout 2^16+5", |ask| ask.side.state.layout = (1 << 16) + 5),
        fault(1, "layout 2^32+4", |ask| ask.side.state.layout = (1 << 32) + 4),
        fault(1, "layout 2^32+5", |ask| ask.side.state.layout = (1 << 32) + 5),
        fault(1, "layout 2^63+5", |ask| ask.side.state.layout = (1 << 63) + 5),
        fault(1, "layout 2^64-1", |ask| ask.side.state.layout = u64::MAX),
        fault(1, "out = N", |ask| ask.side.state.out = 4),
        fault(1, "out = 254", |ask| ask.side.state.out = 254),
        fault(1, "out = 256", |ask| ask.side.state.out = 256),
        fault(1, "fill = 0, none out", |ask| fill_at(ask, 255, 0)),
        fault(1, "fill = S-1, none out", |ask| fill_at(ask, 255, 4)),
        fault(1, "fill = S", |ask| fill_at(ask, 2, 5)),
        fault(1, "fill = S, none out", |ask| fill_at(ask, 255, 5)),
        fault(1, "fill = 65534", |ask| fill_at(ask, 2, 65_534)),
        fault(1, "fill = 65536", |ask| fill_at(ask, 2, 65_536)),
        fault(1, "fill = 2^64-1", |ask| fill_at(ask, 2, u64::MAX)),
    ]
}

/// Gives the state a card out and a fill place.
pub fn fill_at(ask: &mut Ask, out: u64, fill: u64) {
    ask.side.state.out = out;
    ask.side.state.fill = fill;
}

pub fn image_length() -> Vec<Fault> {
    vec![
        fault(2, "image short", |ask| shorten(&mut ask.side.image)),
        fault(2, "image long", |ask| ask.side.image.push(0)),
    ]
}

pub fn table_length() -> Vec<Fault> {
    vec![
        fault(2, "table short", |ask| shorten(&mut ask.side.table)),
        fault(2, "table long", |ask| ask.side.table.push(Record::default())),
    ]
}

pub fn work_length() -> Vec<Fault> {
    vec![
        fault(2, "work store short", |ask| shorten(&mut ask.side.work)),
        fault(2, "work store long", |ask| ask.side.work.push(0)),
    ]
}

pub fn unsound() -> Vec<Fault> {
    vec![
        fault(3, "a free record not zero", |ask| {
            ask.side.table[2] = Record { chosen: 255, ..Record::default() }
        }),
        fault(3, "phase 3", |ask| ask.side.table[0].phase = 3),
        fault(3, "kind 2", |ask| ask.side.table[0].write = 2),
        fault(3, "stripe S", |ask| ask.side.table[0].stripe = 5),
        fault(3, "mask 0", |ask| ask.side.table[0].mask = 0),
        fault(3, "mask bit n", |ask| ask.side.table[0].mask = 9),
        fault(3, "graph 0", |ask| ask.side.table[0].graph = 0),
        fault(3, "graph 7", |ask| ask.side.table[0].graph = 7),
        fault(3, "another graph", |ask| {
            ask.side.table[0].graph = 4;
            ask.side.table[0].done = 0;
        }),
        fault(3, "open and chosen with a card that is in", |ask| ask.side.table[3].chosen = 3),
        fault(3, "finished and chosen with card N", |ask| ask.side.table[1].chosen = 4),
        fault(3, "finished and chosen with card 254", |ask| ask.side.table[1].chosen = 254),
        fault(3, "finished and chosen with card 256", |ask| ask.side.table[1].chosen = 256),
        fault(3, "finished and chosen with a card that asks for another graph", |ask| {
            ask.side.table[1].chosen = 0
        }),
        fault(3, "a step of no graph done", |ask| ask.side.table[0].done |= 1 << 9),
        fault(3, "a step of another unit done", |ask| ask.side.table[0].done |= 1 << 1),
        fault(3, "parity written before the exclusive or", |ask| ask.side.table[0].done |= 1 << 8),
        fault(3, "exclusive or before a read", |ask| ask.side.table[0].done = 1 << 4),
        fault(3, "open and counts 2n+3", |ask| ask.side.table[0].count = 9),
        fault(3, "open and lacks nothing", |ask| ask.side.table[3].done = 7),
        fault(3, "finished and lacks a step", |ask| ask.side.table[1].done = 4),
        fault(3, "finished and counts 2n+4", |ask| ask.side.table[1].count = 10),
        fault(3, "two open on a stripe", |ask| {
            ask.side.table[0].stripe = 4;
        }),
    ]
}

pub fn lost() -> Vec<Fault> {
    vec![
        fault(4, "lost", |ask| ask.side.state.lost = 1),
        fault(4, "lost by another number", |ask| ask.side.state.lost = 1 << 63),
    ]
}

/// A byte of parity in an idle stripe.
pub fn wrong_parity() -> Vec<Fault> {
    vec![
        fault(13, "first byte of stripe 0", |ask| spoil(&mut ask.side, 0, 0, 0)),
        fault(13, "last byte of the last idle stripe", |ask| spoil(&mut ask.side, 3, 1, 31)),
    ]
}

pub fn spoil(side: &mut Side, stripe: u64, position: u64, byte: usize) {
    let start = in_image(&STATE, stripe, position).start;
    // The image may be short by now; a byte that is not there is wrong anyway.
    if let Some(byte) = side.image.get_mut(start + byte) {
        *byte ^= 0x80;
    }
}
