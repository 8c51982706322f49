//! Start and rebuild.

use super::faults::*;
use super::{lowest_wins, still_accepted};
use crate::pair::{Call, Pair};
use crate::tested;
use harness::calls::{Answer, Record, State};
use harness::plain::{LAYOUTS, NO_FILL};

/// A call while card 2 is out and this stripe is to be filled next.
fn ask_at(call: Call, fill: u64) -> Ask {
    let mut ask = ask(call);
    fill_at(&mut ask, 2, fill);
    ask
}

/// Record 0 as it is when it was chosen with card 2, which has the parity of stripe 1 in layout 5, and unit 2 in layout 4.
fn chosen_with_card_2(ask: &mut Ask) {
    let graph = if ask.side.state.layout == 4 { 3 } else { 6 };
    ask.side.table[0] = Record { graph, chosen: 2, done: 0, ..ask.side.table[0] };
}

#[test]
fn start() {
    let mut faults = limits();
    faults.extend(lost());
    faults.push(fault(14, "no card is out", |ask| fill_at(ask, 255, NO_FILL)));
    faults.push(fault(15, "a fill is just begun", |ask| fill_at(ask, 2, 0)));
    faults.push(fault(15, "a fill is at the last stripe", |ask| fill_at(ask, 2, 4)));
    let accepted = ask_at(Call::Start, NO_FILL);
    lowest_wins(accepted.clone(), &faults);
    still_accepted(
        accepted,
        &[
            |ask| ask.side.state.out = 0,
            |ask| ask.side.state.out = 3,
            // It is lent the state alone.
            |ask| ask.side.table[0].phase = 77,
            |ask| ask.side.table.clear(),
            |ask| ask.side.work.clear(),
            |ask| ask.side.image.clear(),
        ],
    );
}

#[test]
fn rebuild() {
    let mut faults = limits();
    faults.extend(image_length());
    faults.extend(table_length());
    faults.extend(unsound());
    faults.push(fault(3, "open and chosen with the card that is filled in its stripe", |ask| {
        chosen_with_card_2(ask);
        if ask.side.state.fill != 4 {
            fill_at(ask, 2, 3);
        }
    }));
    faults.extend(lost());
    faults.push(fault(8, "the stripe of a write", |ask| fill_at(ask, 2, 1)));
    faults.push(fault(8, "the stripe of a read, the last one", |ask| fill_at(ask, 2, 4)));
    faults.push(fault(14, "none begun", |ask| fill_at(ask, 2, NO_FILL)));
    faults.push(fault(14, "no card is out", |ask| fill_at(ask, 255, NO_FILL)));
    let accepted = ask_at(Call::Rebuild, 3);
    lowest_wins(accepted.clone(), &faults);
    still_accepted(
        accepted,
        &[
            |ask| fill_at(ask, 2, 0),
            |ask| fill_at(ask, 0, 3),
            |ask| fill_at(ask, 3, 3),
            // A finished request holds no stripe.
            |ask| fill_at(ask, 2, 2),
            |ask| {
                ask.side.table[3] = Record::default();
                fill_at(ask, 2, 4);
            },
            // An open one may have been chosen with the card that is out in its stripe.
            |ask| {
                chosen_with_card_2(ask);
                fill_at(ask, 2, 0);
            },
            // Parity is not looked at, and it is not lent the work store.
            |ask| spoil(&mut ask.side, 0, 0, 0),
            |ask| spoil(&mut ask.side, 3, 1, 31),
            |ask| ask.side.work.clear(),
        ],
    );
}

/// What each of both answers and leaves: the stripe and the next place, at the last stripe no card out, and the layout as it was.
#[test]
fn what_they_answer_and_leave() {
    let calls = tested();
    for (call, from, answer, out, fill) in [
        (Call::Start, NO_FILL, Answer::accepted(0, 0), 2, 0),
        (Call::Rebuild, 0, Answer::accepted(0, 0), 2, 1),
        (Call::Rebuild, 2, Answer::accepted(2, 0), 2, 3),
        (Call::Rebuild, 3, Answer::accepted(3, 0), 2, 4),
        (Call::Rebuild, 4, Answer::accepted(4, 0), 255, 65_535),
        (Call::Report { card: 2 }, 0, Answer::accepted(0, 0), 2, 65_535),
        (Call::Report { card: 2 }, 4, Answer::accepted(0, 0), 2, 65_535),
    ] {
        for layout in LAYOUTS {
            let mut side = ask_at(call.clone(), from).in_layout(layout).side;
            side.table[3] = Record::default();
            let mut pair = Pair::new(&calls, side);
            assert_eq!(pair.call(&call, &mut Vec::new()), Ok(answer), "{call:?} from {from}");
            let left = State { layout, out, fill, ..STATE };
            assert_eq!(pair.theirs.state, left, "{call:?} from {from}");
        }
    }
}
