//! The plain engine for the fuzz target: one function that makes any call on a side, as `harness/fuzz/both.h` has them.

use harness::calls::{Calls, Lent, Plain, Record, State};

/// `struct side`: all that a caller lends, and how much of it.
#[repr(C)]
pub struct Side {
    state: State,
    table: [Record; 16],
    table_len: usize,
    work_len: usize,
    image_len: usize,
    payload_len: usize,
    result_len: usize,
    work: [u8; 1 << 17],
    image: [u8; 1 << 17],
    payload: [u8; 8192],
    result: [u8; 8192],
}

/// `struct ask`: a call and its numbers, in the order of its arguments.
#[repr(C)]
pub struct Ask {
    call: u32,
    number: [u64; 6],
}

/// Makes a call of the plain engine. Neither pointer is null.
#[no_mangle]
pub extern "C" fn make_plain(ask: &Ask, side: &mut Side) -> u64 {
    let [a, b, c, d, e, f] = ask.number;
    let lent = &mut Lent {
        state: &mut side.state,
        table: &mut side.table[..side.table_len],
        work: &mut side.work[..side.work_len],
        image: &mut side.image[..side.image_len],
    };
    let payload = &side.payload[..side.payload_len];
    let result = &mut side.result[..side.result_len];
    match ask.call {
        0 => Plain.place(a, b, c, d),
        1 => Plain.block_at(a, b, c, d, e),
        2 => Plain.scan(lent.state, lent.image),
        3 => {
            let asked = State { records: d, layout: e, out: f, ..State::whole(a, b, c) };
            Plain.open(lent, &asked)
        }
        4 => Plain.admit(lent, a, b, c, payload),
        5 => Plain.step(lent, a, b),
        6 => Plain.report(lent.state, a),
        7 => Plain.collect(lent, a, result),
        8 => Plain.check(lent.state, lent.table, lent.image),
        9 => Plain.start(lent.state),
        10 => Plain.rebuild(lent.state, lent.table, lent.image),
        call => panic!("there is no call {call}"),
    }
}
