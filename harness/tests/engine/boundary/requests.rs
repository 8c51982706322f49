//! Admit, step and collect.

use super::faults::*;
use super::{change, lowest_wins, still_accepted};
use crate::pair::Call;
use harness::calls::Record;

#[test]
fn admit() {
    let mut faults = limits();
    faults.extend(image_length());
    faults.extend(table_length());
    faults.extend(work_length());
    faults.extend(unsound());
    faults.extend(lost());
    faults.push(fault(5, "stripe S", |ask| change!(ask, Admit { stripe = 5 })));
    faults.push(fault(5, "stripe 2^64-1", |ask| change!(ask, Admit { stripe = u64::MAX })));
    faults.push(fault(6, "mask 0", |ask| change!(ask, Admit { mask = 0 })));
    faults.push(fault(6, "mask 2^n", |ask| change!(ask, Admit { mask = 8 })));
    faults.push(fault(6, "mask 2^64-1", |ask| change!(ask, Admit { mask = u64::MAX })));
    faults.push(fault(7, "payload short", |ask| change!(ask, Admit { payload = vec![7; 63] })));
    faults.push(fault(7, "payload long", |ask| change!(ask, Admit { payload = vec![7; 65] })));
    faults.push(fault(7, "no payload", |ask| change!(ask, Admit { payload = Vec::new() })));
    faults.push(fault(7, "a read with a payload", |ask| change!(ask, Admit { write = 0 })));
    faults.push(fault(8, "the stripe of a write", |ask| {
        if let Call::Admit { stripe: stripe @ 0..=4, .. } = &mut ask.call {
            *stripe = 1
        }
    }));
    faults.push(fault(8, "the stripe of a read", |ask| {
        if let Call::Admit { stripe: stripe @ 0..=4, .. } = &mut ask.call {
            *stripe = 4
        }
    }));
    faults.push(fault(9, "the last free record taken", |ask| {
        if ask.side.table.len() > 2 {
            ask.side.table[2] = Record { stripe: 3, ..ask.side.table[1] }
        }
    }));
    let accepted = ask(Call::Admit { write: 1, stripe: 0, mask: 5, payload: vec![7; 64] });
    lowest_wins(accepted.clone(), &faults);
    still_accepted(
        accepted,
        &[
            |ask| ask.side.state.out = 3,
            |ask| change!(ask, Admit { mask = 7, payload = vec![7; 96] }),
            |ask| change!(ask, Admit { write = 0, payload = Vec::new() }),
            // A finished request holds no stripe.
            |ask| change!(ask, Admit { stripe = 2 }),
            // The longest counts that a sound table has.
            |ask| ask.side.table[0].count = 8,
            |ask| ask.side.table[1].count = 9,
            // The finished read may have been chosen with any card that leaves its graph.
            |ask| ask.side.table[1].chosen = 1,
            |ask| ask.side.table[1].chosen = 3,
            // A card fills: the stripe is filled, or is to be.
            |ask| fill_at(ask, 3, 0),
            |ask| fill_at(ask, 3, 4),
            // Parity is not looked at.
            |ask| spoil(&mut ask.side, 0, 0, 0),
        ],
    );
}

#[test]
fn step() {
    let mut faults = limits();
    faults.extend(image_length());
    faults.extend(table_length());
    faults.extend(work_length());
    faults.extend(unsound());
    faults.extend(lost());
    faults.push(fault(5, "record K", |ask| change!(ask, Step { record = 4 })));
    faults.push(fault(5, "record 2^64-1", |ask| change!(ask, Step { record = u64::MAX })));
    faults.push(fault(10, "a finished record", |ask| {
        if let Call::Step { record: record @ 0..=3, .. } = &mut ask.call {
            *record = 1
        }
    }));
    faults.push(fault(10, "a free record", |ask| {
        if let Call::Step { record: record @ 0..=3, .. } = &mut ask.call {
            *record = 2
        }
    }));
    faults.push(fault(11, "a step of another unit", |ask| change!(ask, Step { step = 1 })));
    faults.push(fault(11, "a step that is done", |ask| change!(ask, Step { step = 0 })));
    faults.push(fault(11, "parity's write before the sum", |ask| change!(ask, Step { step = 8 })));
    faults.push(fault(11, "step 2n+3", |ask| change!(ask, Step { step = 9 })));
    faults.push(fault(11, "step 64", |ask| change!(ask, Step { step = 64 })));
    faults.push(fault(11, "step 2^32", |ask| change!(ask, Step { step = 1 << 32 })));
    faults.push(fault(11, "step 2^64-1", |ask| change!(ask, Step { step = u64::MAX })));
    let accepted = ask(Call::Step { record: 0, step: 4 });
    lowest_wins(accepted.clone(), &faults);
    still_accepted(
        accepted,
        &[
            |ask| change!(ask, Step { step = 5 }),
            |ask| {
                ask.side.table[0].done |= 1 << 4;
                change!(ask, Step { step = 8 })
            },
            |ask| change!(ask, Step { record = 3, step = 2 }),
            // With 2n+2 counted and more than one step to go, a step is accepted and counted.
            |ask| ask.side.table[0].count = 8,
            |ask| ask.side.state.out = 0,
            |ask| fill_at(ask, 0, 1),
            |ask| fill_at(ask, 0, 4),
        ],
    );
}

#[test]
fn collect() {
    let mut faults = limits();
    faults.extend(table_length());
    faults.extend(work_length());
    faults.extend(unsound());
    faults.extend(lost());
    faults.push(fault(5, "record K", |ask| change!(ask, Collect { record = 4 })));
    faults.push(fault(5, "record 2^64-1", |ask| change!(ask, Collect { record = u64::MAX })));
    // 10 before 7.
    faults.push(fault(10, "an open read", |ask| {
        if let Call::Collect { record: record @ 0..=3 } = &mut ask.call {
            *record = 3
        }
    }));
    faults.push(fault(10, "a free record", |ask| {
        if let Call::Collect { record: record @ 0..=3 } = &mut ask.call {
            *record = 2
        }
    }));
    faults.push(fault(7, "buffer short", |ask| shorten(&mut ask.result)));
    faults.push(fault(7, "no buffer", |ask| ask.result.clear()));
    let accepted = ask(Call::Collect { record: 1 });
    lowest_wins(accepted.clone(), &faults);
    still_accepted(
        accepted,
        &[
            |ask| ask.result.push(1),
            |ask| ask.side.state.out = 1,
            |ask| fill_at(ask, 1, 2),
            // It is not lent the image.
            |ask| ask.side.image.clear(),
            // A write needs no room.
            |ask| {
                ask.side.table[1] = Record {
                    phase: 2,
                    write: 1,
                    stripe: 2,
                    mask: 1,
                    graph: 3,
                    chosen: 255,
                    done: 0b1_0011_1001,
                    count: 9,
                };
                ask.result.clear()
            },
        ],
    );
}
