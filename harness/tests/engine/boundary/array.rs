//! Placement, open, report and the two scans.

use super::faults::*;
use super::{change, lowest_wins, still_accepted};
use crate::pair::{Call, Pair};
use crate::tested;
use harness::calls::Record;

#[test]
fn placement() {
    let of_block = [
        fault(1, "N = 2", |ask| change!(ask, Place { cards = 2 })),
        fault(1, "N = 9", |ask| change!(ask, Place { cards = 9 })),
        fault(1, "S = 0", |ask| change!(ask, Place { stripes = 0 })),
        fault(1, "S = 1025", |ask| change!(ask, Place { stripes = 1025 })),
        fault(1, "layout 0", |ask| change!(ask, Place { layout = 0 })),
        fault(1, "layout 3", |ask| change!(ask, Place { layout = 3 })),
        fault(1, "layout 6", |ask| change!(ask, Place { layout = 6 })),
        fault(1, "layout 255", |ask| change!(ask, Place { layout = 255 })),
        fault(1, "layout 2^8+4", |ask| change!(ask, Place { layout = (1 << 8) + 4 })),
        fault(1, "layout 2^16+5", |ask| change!(ask, Place { layout = (1 << 16) + 5 })),
        fault(1, "layout 2^32+4", |ask| change!(ask, Place { layout = (1 << 32) + 4 })),
        fault(1, "layout 2^32+5", |ask| change!(ask, Place { layout = (1 << 32) + 5 })),
        fault(1, "layout 2^63+5", |ask| change!(ask, Place { layout = (1 << 63) + 5 })),
        fault(1, "layout 2^64-1", |ask| change!(ask, Place { layout = u64::MAX })),
        fault(5, "block n·S", |ask| change!(ask, Place { block = 4096 })),
        fault(5, "block 2^64-1", |ask| change!(ask, Place { block = u64::MAX })),
    ];
    lowest_wins(ask(Call::Place { cards: 5, stripes: 1024, layout: 5, block: 4095 }), &of_block);
    let of_card = [
        fault(1, "N = 2", |ask| change!(ask, BlockAt { cards = 2 })),
        fault(1, "N = 9", |ask| change!(ask, BlockAt { cards = 9 })),
        fault(1, "S = 0", |ask| change!(ask, BlockAt { stripes = 0 })),
        fault(1, "S = 1025", |ask| change!(ask, BlockAt { stripes = 1025 })),
        fault(1, "layout 0", |ask| change!(ask, BlockAt { layout = 0 })),
        fault(1, "layout 3", |ask| change!(ask, BlockAt { layout = 3 })),
        fault(1, "layout 6", |ask| change!(ask, BlockAt { layout = 6 })),
        fault(1, "layout 255", |ask| change!(ask, BlockAt { layout = 255 })),
        fault(1, "layout 2^8+4", |ask| change!(ask, BlockAt { layout = (1 << 8) + 4 })),
        fault(1, "layout 2^16+5", |ask| change!(ask, BlockAt { layout = (1 << 16) + 5 })),
        fault(1, "layout 2^32+4", |ask| change!(ask, BlockAt { layout = (1 << 32) + 4 })),
        fault(1, "layout 2^32+5", |ask| change!(ask, BlockAt { layout = (1 << 32) + 5 })),
        fault(1, "layout 2^63+5", |ask| change!(ask, BlockAt { layout = (1 << 63) + 5 })),
        fault(1, "layout 2^64-1", |ask| change!(ask, BlockAt { layout = u64::MAX })),
        fault(5, "card N", |ask| change!(ask, BlockAt { card = 5 })),
        fault(5, "stripe S", |ask| change!(ask, BlockAt { stripe = 1024 })),
        fault(5, "card 2^64-1", |ask| change!(ask, BlockAt { card = u64::MAX })),
    ];
    let last = Call::BlockAt { cards: 5, stripes: 1024, layout: 5, card: 4, stripe: 1023 };
    lowest_wins(ask(last), &of_card);
}

#[test]
fn open() {
    let mut faults = vec![
        fault(1, "N = 2", |ask| change!(ask, Open { cards = 2 })),
        fault(1, "N = 9", |ask| change!(ask, Open { cards = 9 })),
        fault(1, "S = 0", |ask| change!(ask, Open { stripes = 0 })),
        fault(1, "S = 1025", |ask| change!(ask, Open { stripes = 1025 })),
        fault(1, "B = 0", |ask| change!(ask, Open { block = 0 })),
        fault(1, "B = 24", |ask| change!(ask, Open { block = 24 })),
        fault(1, "B = 528", |ask| change!(ask, Open { block = 528 })),
        fault(1, "K = 0", |ask| change!(ask, Open { records = 0 })),
        fault(1, "K = 9", |ask| change!(ask, Open { records = 9 })),
        fault(1, "layout 0", |ask| change!(ask, Open { layout = 0 })),
        fault(1, "layout 3", |ask| change!(ask, Open { layout = 3 })),
        fault(1, "layout 6", |ask| change!(ask, Open { layout = 6 })),
        fault(1, "layout 255", |ask| change!(ask, Open { layout = 255 })),
        fault(1, "layout 2^8+4", |ask| change!(ask, Open { layout = (1 << 8) + 4 })),
        fault(1, "layout 2^16+5", |ask| change!(ask, Open { layout = (1 << 16) + 5 })),
        fault(1, "layout 2^32+4", |ask| change!(ask, Open { layout = (1 << 32) + 4 })),
        fault(1, "layout 2^32+5", |ask| change!(ask, Open { layout = (1 << 32) + 5 })),
        fault(1, "layout 2^63+5", |ask| change!(ask, Open { layout = (1 << 63) + 5 })),
        fault(1, "layout 2^64-1", |ask| change!(ask, Open { layout = u64::MAX })),
        fault(1, "out = N", |ask| change!(ask, Open { out = 4 })),
        fault(1, "out = 254", |ask| change!(ask, Open { out = 254 })),
        fault(1, "out = 256", |ask| change!(ask, Open { out = 256 })),
    ];
    faults.extend(image_length());
    faults.extend(table_length());
    faults.extend(work_length());
    faults.extend(wrong_parity());
    faults.push(fault(13, "in a stripe that a record of no use holds", |ask| {
        spoil(&mut ask.side, 1, 0, 5)
    }));
    let accepted = ask(Call::open(&STATE));
    lowest_wins(accepted.clone(), &faults);
    still_accepted(
        accepted,
        &[
            |ask| change!(ask, Open { out = 0 }),
            |ask| change!(ask, Open { out = 3 }),
            // Neither the table nor the state that it overwrites is tested.
            |ask| ask.side.table[0].phase = 77,
            |ask| ask.side.state.lost = 1,
            |ask| ask.side.state.cards = 9,
            |ask| ask.side.state.layout = 6,
            |ask| ask.side.state.fill = 0,
            |ask| ask.side.state.fill = 5,
            // With a card out, parity is not looked at.
            |ask| {
                change!(ask, Open { out = 2 });
                spoil(&mut ask.side, 0, 0, 0);
            },
        ],
    );
}

#[test]
fn report() {
    let mut faults = limits();
    faults.retain(|fault| !fault.what.starts_with("out"));
    faults.push(fault(1, "out = N, another card", |ask| ask.side.state.out = 4));
    faults.push(fault(1, "out = 254", |ask| ask.side.state.out = 254));
    faults.extend(lost());
    faults.push(fault(5, "card N", |ask| change!(ask, Report { card = 4 })));
    faults.push(fault(5, "card 255 with none out", |ask| change!(ask, Report { card = 255 })));
    faults.push(fault(5, "card 256", |ask| change!(ask, Report { card = 256 })));
    faults.push(fault(12, "the card is out", |ask| {
        if ask.side.state.out == 255 {
            ask.side.state.out = 2
        }
    }));
    let accepted = ask(Call::Report { card: 2 });
    lowest_wins(accepted.clone(), &faults);
    still_accepted(
        accepted,
        &[
            |ask| ask.side.state.out = 0,
            // A card that is out is reported again only while it fills.
            |ask| fill_at(ask, 2, 0),
            |ask| fill_at(ask, 2, 4),
            // And another one while a card fills.
            |ask| fill_at(ask, 0, 0),
            |ask| fill_at(ask, 0, 4),
            |ask| change!(ask, Report { card = 0 }),
            |ask| change!(ask, Report { card = 3 }),
            // It is lent the state alone.
            |ask| ask.side.table[0].phase = 77,
            |ask| ask.side.image.clear(),
        ],
    );
}

/// To the end of a fill a card is out.
fn filling_is_out() -> Vec<Fault> {
    vec![
        fault(12, "nothing is filled", |ask| fill_if_none(ask, 0)),
        fault(12, "all but the last stripe is filled", |ask| fill_if_none(ask, 4)),
    ]
}

/// Begins a fill at this place, where no card is out.
fn fill_if_none(ask: &mut Ask, fill: u64) {
    if ask.side.state.out == 255 && !ask.side.state.filling() {
        fill_at(ask, 2, fill)
    }
}

#[test]
fn scan_with_a_table() {
    let mut faults = limits();
    faults.extend(image_length());
    faults.extend(table_length());
    faults.extend(unsound());
    faults.extend(lost());
    faults.push(fault(12, "a card is out", |ask| {
        if ask.side.state.out == 255 {
            ask.side.state.out = 2
        }
    }));
    faults.extend(filling_is_out());
    faults.extend(wrong_parity());
    let accepted = ask(Call::Check);
    lowest_wins(accepted.clone(), &faults);
    still_accepted(
        accepted,
        &[
            // Held stripes are passed over, finished requests hold none.
            |ask| spoil(&mut ask.side, 1, 0, 0),
            |ask| spoil(&mut ask.side, 4, 3, 31),
            // It is not lent the work store.
            |ask| ask.side.work.clear(),
        ],
    );
}

#[test]
fn scan_of_an_idle_array() {
    let mut faults = limits();
    faults.extend(image_length());
    faults.extend(lost());
    faults.push(fault(12, "a card is out", |ask| {
        if ask.side.state.out == 255 {
            ask.side.state.out = 2
        }
    }));
    faults.extend(filling_is_out());
    faults.extend(wrong_parity());
    faults.push(fault(13, "stripe 1, which no table holds", |ask| spoil(&mut ask.side, 1, 0, 0)));
    let accepted = ask(Call::Scan);
    lowest_wins(accepted.clone(), &faults);
    still_accepted(accepted, &[|ask| ask.side.table.clear(), |ask| ask.side.table[0].phase = 77]);
}

#[test]
fn the_lowest_stripe_and_byte() {
    let calls = tested();
    let mut base = side();
    base.table.fill(Record::default());
    for (stripe, byte) in [(0, 0), (0, 31), (3, 7), (4, 31)] {
        let mut wrong = base.clone();
        spoil(&mut wrong, stripe, 2, byte);
        // Later bytes and stripes are wrong as well.
        if byte < 31 {
            spoil(&mut wrong, stripe, 0, 31);
        }
        if stripe < 4 {
            spoil(&mut wrong, 4, 1, 0);
        }
        for state in STATE.in_both_layouts() {
            wrong.state = state;
            for call in [Call::Check, Call::Scan, Call::open(&state)] {
                let answer = Pair::new(&calls, wrong.clone()).call(&call, &mut Vec::new()).unwrap();
                assert_eq!((answer.number, answer.first, answer.second), (13, stripe, byte as u64));
            }
        }
    }
}
