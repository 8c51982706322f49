//! The calls. Each tests just what it is lent, in the order of the refusal numbers, and alters
//! nothing before its last test is passed.

use super::blocks::{in_image, parity_is_right, to_write, was_read, Sum};
use super::graph::{members, Action, DEGRADED_READ};
use super::placement::{card_at, position_on};
use super::record::{held, mask_fits, sound, Record, FINISHED, FREE, OPEN};
use super::refusal::{demand, Refusal};
use super::state::{State, NONE, NO_FILL};

/// What an accepted step did.
#[derive(Clone, Copy, PartialEq, Eq, Debug)]
pub enum Progress {
    /// The step is done.
    Done,
    /// Its card is out, and this graph was chosen afresh.
    Afresh(u64),
}

/// Opens an array of the numbers that are asked for: the state that it starts in, not lost, with no fill under way. Every
/// record is freed.
pub fn open(
    asked: &State,
    table: &mut [Record],
    work: &[u8],
    image: &[u8],
) -> Result<State, Refusal> {
    let state = State { lost: 0, fill: NO_FILL, ..*asked };
    demand(state.within_limits(), Refusal::Limits)?;
    demand(
        image_fits(&state, image) && table_fits(&state, table) && work_fits(&state, work),
        Refusal::Length,
    )?;
    if state.out == NONE {
        parity_is_right(&state, &[], image)?;
    }
    table.fill(Record::default());
    Ok(state)
}

/// Admits a request; answers the number of the record that it took.
#[allow(clippy::too_many_arguments)]
pub fn admit(
    state: &State,
    table: &mut [Record],
    work: &mut [u8],
    image: &[u8],
    write: bool,
    stripe: u64,
    mask: u64,
    payload: &[u8],
) -> Result<u64, Refusal> {
    demand(state.within_limits(), Refusal::Limits)?;
    demand(
        image_fits(state, image) && table_fits(state, table) && work_fits(state, work),
        Refusal::Length,
    )?;
    demand(sound(state, table), Refusal::Unsound)?;
    demand(state.lost == 0, Refusal::Lost)?;
    demand(stripe < state.stripes, Refusal::Range)?;
    demand(mask_fits(state, mask), Refusal::Mask)?;

    let mut request =
        Record { phase: OPEN, write: write as u64, stripe, mask, ..Record::default() };
    let expected = if write { request.ones() * state.block } else { 0 };
    demand(payload.len() as u64 == expected, Refusal::Buffer)?;
    demand(!held(table, stripe), Refusal::Held)?;
    let free = table.iter().position(|record| record.phase == FREE).ok_or(Refusal::Full)?;

    request.chosen = state.out_in(stripe);
    request.graph = request.graph_with(state, request.chosen);
    table[free] = request;
    if write {
        for (unit, new) in members(mask).zip(payload.chunks_exact(state.block as usize)) {
            work[to_write(state, free as u64, unit)].copy_from_slice(new);
        }
    }
    Ok(free as u64)
}

/// Takes one step of an open request.
pub fn step(
    state: &State,
    table: &mut [Record],
    work: &mut [u8],
    image: &mut [u8],
    record: u64,
    step: u64,
) -> Result<Progress, Refusal> {
    demand(state.within_limits(), Refusal::Limits)?;
    demand(
        image_fits(state, image) && table_fits(state, table) && work_fits(state, work),
        Refusal::Length,
    )?;
    demand(sound(state, table), Refusal::Unsound)?;
    demand(state.lost == 0, Refusal::Lost)?;
    demand(record < state.records, Refusal::Range)?;
    let request = &mut table[record as usize];
    demand(request.phase == OPEN, Refusal::Phase)?;
    let plan = request.plan(state);
    demand(plan.ready(request.done, step), Refusal::Step)?;

    request.count += 1;
    let action = plan.action(step);
    let out = state.out_in(request.stripe);
    if on_card(state, request.stripe, action) == Some(out) {
        request.graph = request.graph_with(state, out);
        request.chosen = out;
        request.done = 0;
        return Ok(Progress::Afresh(request.graph));
    }
    request.done |= 1 << step;
    if request.done == plan.steps() {
        request.phase = FINISHED;
    }
    match action {
        Action::Read(position) => {
            let block = &image[in_image(state, request.stripe, position)];
            work[was_read(state, record, position)].copy_from_slice(block);
        }
        Action::Write(position) => {
            let block = &work[to_write(state, record, position)];
            image[in_image(state, request.stripe, position)].copy_from_slice(block);
        }
        Action::Sum => add_up(state, request, record, plan.reads, work),
    }
    Ok(Progress::Done)
}

/// The card that a step is on; the exclusive or is on none.
fn on_card(state: &State, stripe: u64, action: Action) -> Option<u64> {
    match action {
        Action::Read(position) | Action::Write(position) => Some(card_at(state, stripe, position)),
        Action::Sum => None,
    }
}

/// The exclusive or of all that was read and, for a write, of the new units. It is the missing unit
/// of a degraded read, and the new parity of a write.
fn add_up(state: &State, request: &Record, record: u64, reads: u64, work: &mut [u8]) {
    let mut sum = Sum::default();
    for position in members(reads) {
        sum.add(&work[was_read(state, record, position)]);
    }
    let target = if request.graph == DEGRADED_READ {
        let missing = position_on(state, request.stripe, request.chosen);
        was_read(state, record, missing)
    } else {
        for unit in members(request.mask) {
            sum.add(&work[to_write(state, record, unit)]);
        }
        to_write(state, record, state.units())
    };
    work[target].copy_from_slice(sum.bytes(state));
}

/// Marks a card out, or the array lost if another is out already. A fresh card that is reported while it
/// fills is out in all stripes again.
pub fn report(state: &mut State, card: u64) -> Result<(), Refusal> {
    demand(state.within_limits(), Refusal::Limits)?;
    demand(state.lost == 0, Refusal::Lost)?;
    demand(card < state.cards, Refusal::Range)?;
    demand(card != state.out || state.filling(), Refusal::Out)?;
    if state.out == NONE {
        state.out = card;
    } else if card == state.out {
        state.fill = NO_FILL;
    } else {
        state.lost = 1;
    }
    Ok(())
}

/// Takes the result of a finished request and frees its record; answers the step count.
pub fn collect(
    state: &State,
    table: &mut [Record],
    work: &[u8],
    record: u64,
    result: &mut [u8],
) -> Result<u64, Refusal> {
    demand(state.within_limits(), Refusal::Limits)?;
    demand(table_fits(state, table) && work_fits(state, work), Refusal::Length)?;
    demand(sound(state, table), Refusal::Unsound)?;
    demand(state.lost == 0, Refusal::Lost)?;
    demand(record < state.records, Refusal::Range)?;
    let request = table[record as usize];
    demand(request.phase == FINISHED, Refusal::Phase)?;
    let read = request.write == 0;
    let enough = result.len() as u64 >= request.ones() * state.block;
    demand(!read || enough, Refusal::Buffer)?;

    if read {
        for (unit, room) in members(request.mask).zip(result.chunks_exact_mut(state.block as usize))
        {
            room.copy_from_slice(&work[was_read(state, record, unit)]);
        }
    }
    table[record as usize] = Record::default();
    Ok(request.count)
}

/// Scan: parity is right in the stripes that no open request holds.
pub fn check(state: &State, table: &[Record], image: &[u8]) -> Result<(), Refusal> {
    demand(state.within_limits(), Refusal::Limits)?;
    demand(image_fits(state, image) && table_fits(state, table), Refusal::Length)?;
    demand(sound(state, table), Refusal::Unsound)?;
    demand(state.lost == 0, Refusal::Lost)?;
    demand(state.out == NONE, Refusal::Out)?;
    parity_is_right(state, table, image)
}

/// The scan of an array with nothing open, which is lent no table.
pub fn idle_scan(state: &State, image: &[u8]) -> Result<(), Refusal> {
    demand(state.within_limits(), Refusal::Limits)?;
    demand(image_fits(state, image), Refusal::Length)?;
    demand(state.lost == 0, Refusal::Lost)?;
    demand(state.out == NONE, Refusal::Out)?;
    parity_is_right(state, &[], image)
}

pub(super) fn image_fits(state: &State, image: &[u8]) -> bool {
    image.len() as u64 == state.image_length()
}

pub(super) fn table_fits(state: &State, table: &[Record]) -> bool {
    table.len() as u64 == state.records
}

fn work_fits(state: &State, work: &[u8]) -> bool {
    work.len() as u64 == state.work_length()
}
