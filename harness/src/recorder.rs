//! The library, through the functions of include/coppicetune.h; this is the one file that knows their arguments.
use crate::calls::{Calls, Lent, Record, State};

extern "C" {
    fn coppicetune_place(cards: u64, stripes: u64, layout: u64, block: u64) -> u64;
    fn coppicetune_block_at(cards: u64, stripes: u64, layout: u64, card: u64, stripe: u64) -> u64;
    fn coppicetune_scan(
        cards: u64,
        stripes: u64,
        block: u64,
        records: u64,
        layout: u64,
        out: u64,
        lost: u64,
        fill: u64,
        image: *const u8,
        image_len: usize,
    ) -> u64;
    fn coppicetune_open(
        state: *mut State,
        table: *mut Record,
        table_len: usize,
        work: *const u8,
        work_len: usize,
        image: *const u8,
        image_len: usize,
        cards: u64,
        stripes: u64,
        block: u64,
        records: u64,
        layout: u64,
        out: u64,
    ) -> u64;
    fn coppicetune_admit(
        state: *const State,
        table: *mut Record,
        table_len: usize,
        work: *mut u8,
        work_len: usize,
        image: *const u8,
        image_len: usize,
        write: u64,
        stripe: u64,
        mask: u64,
        payload: *const u8,
        payload_len: usize,
    ) -> u64;
    fn coppicetune_step(
        state: *const State,
        table: *mut Record,
        table_len: usize,
        work: *mut u8,
        work_len: usize,
        image: *mut u8,
        image_len: usize,
        record: u64,
        step: u64,
    ) -> u64;
    fn coppicetune_report(state: *mut State, card: u64) -> u64;
    fn coppicetune_start(state: *mut State) -> u64;
    fn coppicetune_rebuild(
        state: *mut State,
        table: *const Record,
        table_len: usize,
        image: *mut u8,
        image_len: usize,
    ) -> u64;
    fn coppicetune_collect(
        state: *const State,
        table: *mut Record,
        table_len: usize,
        work: *const u8,
        work_len: usize,
        record: u64,
        result: *mut u8,
        result_len: usize,
    ) -> u64;
    fn coppicetune_check(
        state: *const State,
        table: *const Record,
        table_len: usize,
        image: *const u8,
        image_len: usize,
    ) -> u64;
}

/// All calls of the library.
pub struct Library;

// Safe: each call takes any numbers, lends whole slices for its own time only, and the structs have C's layout.
impl Calls for Library {
    fn place(&self, cards: u64, stripes: u64, layout: u64, block: u64) -> u64 {
        unsafe { coppicetune_place(cards, stripes, layout, block) }
    }

    fn block_at(&self, cards: u64, stripes: u64, layout: u64, card: u64, stripe: u64) -> u64 {
        unsafe { coppicetune_block_at(cards, stripes, layout, card, stripe) }
    }

    fn scan(&self, state: &State, image: &[u8]) -> u64 {
        let State { cards, stripes, block, records, layout, out, lost, fill } = *state;
        let (at, len) = (image.as_ptr(), image.len());
        unsafe {
            coppicetune_scan(cards, stripes, block, records, layout, out, lost, fill, at, len)
        }
    }

    fn open(&self, lent: &mut Lent, asked: &State) -> u64 {
        unsafe {
            coppicetune_open(
                lent.state,
                lent.table.as_mut_ptr(),
                lent.table.len(),
                lent.work.as_ptr(),
                lent.work.len(),
                lent.image.as_ptr(),
                lent.image.len(),
                asked.cards,
                asked.stripes,
                asked.block,
                asked.records,
                asked.layout,
                asked.out,
            )
        }
    }

    fn admit(&self, lent: &mut Lent, write: u64, stripe: u64, mask: u64, payload: &[u8]) -> u64 {
        unsafe {
            coppicetune_admit(
                lent.state,
                lent.table.as_mut_ptr(),
                lent.table.len(),
                lent.work.as_mut_ptr(),
                lent.work.len(),
                lent.image.as_ptr(),
                lent.image.len(),
                write,
                stripe,
                mask,
                payload.as_ptr(),
                payload.len(),
            )
        }
    }

    fn step(&self, lent: &mut Lent, record: u64, step: u64) -> u64 {
        unsafe {
            coppicetune_step(
                lent.state,
                lent.table.as_mut_ptr(),
                lent.table.len(),
                lent.work.as_mut_ptr(),
                lent.work.len(),
                lent.image.as_mut_ptr(),
                lent.image.len(),
                record,
                step,
            )
        }
    }

    fn report(&self, state: &mut State, card: u64) -> u64 {
        unsafe { coppicetune_report(state, card) }
    }

    fn start(&self, state: &mut State) -> u64 {
        unsafe { coppicetune_start(state) }
    }

    fn rebuild(&self, state: &mut State, table: &[Record], image: &mut [u8]) -> u64 {
        let (at, len) = (image.as_mut_ptr(), image.len());
        unsafe { coppicetune_rebuild(state, table.as_ptr(), table.len(), at, len) }
    }

    fn collect(&self, lent: &mut Lent, record: u64, result: &mut [u8]) -> u64 {
        unsafe {
            coppicetune_collect(
                lent.state,
                lent.table.as_mut_ptr(),
                lent.table.len(),
                lent.work.as_ptr(),
                lent.work.len(),
                record,
                result.as_mut_ptr(),
                result.len(),
            )
        }
    }

    fn check(&self, state: &State, table: &[Record], image: &[u8]) -> u64 {
        let (at, len) = (image.as_ptr(), image.len());
        unsafe { coppicetune_check(state, table.as_ptr(), table.len(), at, len) }
    }
}
