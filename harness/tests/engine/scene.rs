//! Small told runs: blocks filled with one byte, requests by hand, every call compared.

use crate::pair::{Call, Pair, Side};
use harness::calls::{Answer, Calls, Record, State};
use harness::plain::blocks::in_image;
use harness::plain::placement::card_at;
use harness::plain::row::unit_in;

pub struct Scene<'a> {
    pub pair: Pair<'a>,
    pub result: Vec<u8>,
}

impl<'a> Scene<'a> {
    /// An open array of a layout and of so many stripes with no card out, each stripe with these units and their parity.
    pub fn new(calls: &'a dyn Calls, layout: u64, stripes: u64, units: &[u8]) -> Scene<'a> {
        let cards = units.len() as u64 + 1;
        let state = State { records: 4, layout, ..State::whole(cards, stripes, 16) };
        let mut side = Side::for_state(state);
        for stripe in 0..stripes {
            let parity = units.iter().fold(0, |sum, byte| sum ^ byte);
            for (position, &byte) in units.iter().chain([&parity]).enumerate() {
                side.image[in_image(&state, stripe, position as u64)].fill(byte);
            }
        }
        let mut scene = Scene { pair: Pair::new(calls, side), result: Vec::new() };
        assert_eq!(scene.call(Call::open(&state)).number, 0);
        scene
    }

    pub fn call(&mut self, call: Call) -> Answer {
        self.pair.call(&call, &mut self.result).unwrap_or_else(|what| panic!("{what}"))
    }

    pub fn state(&self) -> State {
        self.pair.theirs.state
    }

    pub fn record(&self, record: u64) -> Record {
        self.pair.theirs.table[record as usize]
    }

    /// n.
    pub fn units(&self) -> u64 {
        self.state().units()
    }

    /// Asks for a write of these units, each filled with its byte, ascending.
    pub fn ask_write(&mut self, stripe: u64, new: &[(u64, u8)]) -> Answer {
        let mask = new.iter().fold(0, |mask, (unit, _)| mask | 1 << unit);
        let payload = new.iter().flat_map(|&(_, byte)| [byte; 16]).collect();
        self.call(Call::Admit { write: 1, stripe, mask, payload })
    }

    /// Admits a write; its record.
    pub fn write(&mut self, stripe: u64, new: &[(u64, u8)]) -> u64 {
        let answer = self.ask_write(stripe, new);
        assert_eq!(answer.number, 0, "admitted");
        answer.first
    }

    /// Admits a read; its record.
    pub fn read(&mut self, stripe: u64, mask: u64) -> u64 {
        let answer = self.call(Call::Admit { write: 0, stripe, mask, payload: Vec::new() });
        assert_eq!(answer.number, 0, "admitted");
        answer.first
    }

    pub fn ask_step(&mut self, record: u64, step: u64) -> Answer {
        self.call(Call::Step { record, step })
    }

    /// Takes a step that is to be done.
    pub fn step(&mut self, record: u64, step: u64) {
        let answer = self.ask_step(record, step);
        assert_eq!((answer.number, answer.first), (0, 0), "step {step} done");
    }

    /// Takes a step whose card is out; the graph chosen afresh.
    pub fn afresh(&mut self, record: u64, step: u64) -> u64 {
        let answer = self.ask_step(record, step);
        assert_eq!(answer.number, 0, "step {step} accepted");
        assert_ne!(answer.first, 0, "step {step} meets the card that is out");
        answer.first
    }

    /// Reports the card that holds a position of a stripe (n for parity).
    pub fn fail(&mut self, stripe: u64, position: u64) {
        let card = card_at(&self.state(), stripe, position);
        assert_eq!(self.call(Call::Report { card }).number, 0, "card {card} reported");
    }

    /// All bytes that are missing turn to this one.
    pub fn decay(&mut self, byte: u8) {
        let missing = self.pair.theirs.missing();
        self.pair.theirs.image[missing.clone()].fill(byte);
        self.pair.ours.image[missing].fill(byte);
    }

    /// Begins to fill the card that is out.
    pub fn start(&mut self) {
        assert_eq!(self.call(Call::Start), Answer::accepted(0, 0), "started");
    }

    /// Takes rebuild steps until this stripe is to be filled next, or with S until no card is out.
    pub fn rebuild_to(&mut self, end: u64) {
        for stripe in self.state().fill..end {
            assert_eq!(
                self.call(Call::Rebuild),
                Answer::accepted(stripe, 0),
                "stripe {stripe} filled"
            );
        }
    }

    /// Tries all steps, in any order that works, until the request is finished.
    pub fn finish(&mut self, record: u64) {
        let last = 2 * self.units() + 2;
        while self.record(record).phase == 1 {
            let accepted = (0..=last).any(|step| self.ask_step(record, step).number == 0);
            assert!(accepted, "an open request has a step to take");
        }
    }

    /// Collects a finished request; its count. A read's units are at the front of `result`.
    pub fn collect(&mut self, record: u64) -> u64 {
        self.result = vec![0xEE; 16 * 8];
        let answer = self.call(Call::Collect { record });
        assert_eq!(answer.number, 0, "collected");
        answer.first
    }

    /// Runs a read of these units to its end; the byte of each.
    pub fn read_back(&mut self, stripe: u64, mask: u64) -> Vec<u8> {
        let record = self.read(stripe, mask);
        self.finish(record);
        self.collect(record);
        let units = mask.count_ones() as usize;
        self.result.chunks(16).take(units).map(one_byte).collect()
    }

    /// The byte that fills a position of a stripe on its card.
    pub fn on_card(&self, stripe: u64, position: u64) -> u8 {
        one_byte(&self.pair.theirs.image[in_image(&self.state(), stripe, position)])
    }

    /// The byte that fills a unit, inferred if its card is out.
    pub fn unit(&self, stripe: u64, unit: u64) -> u8 {
        one_byte(&unit_in(&self.state(), &self.pair.theirs.image, stripe, unit))
    }

    pub fn scan(&mut self) -> Answer {
        self.call(Call::Check)
    }
}

/// The byte that a whole block is filled with.
fn one_byte(block: &[u8]) -> u8 {
    assert!(block.iter().all(|&byte| byte == block[0]), "filled with one byte");
    block[0]
}
