//! What several tests share. Not every test uses all of it.
#![allow(dead_code)]

use reference::region::total_size;
use reference::{create, Answer, Bench, Header, Side, Step};

/// A region with both parties attached, and the bytes lent to their turns.
#[derive(Clone)]
pub struct House {
    pub region: Vec<u8>,
    pub bench: Bench,
    pub payload: Vec<u8>,
    pub buffer: Vec<u8>,
}

impl House {
    pub fn new(power: u8, slot_size: u32, not_full: bool, start: u64) -> Self {
        House::spinning(power, slot_size, not_full, start, 0)
    }

    /// The same with so many spins of either party.
    pub fn spinning(power: u8, slot_size: u32, not_full: bool, start: u64, spins: u16) -> Self {
        let mut region = vec![0xA5; total_size(power, slot_size)];
        let created = create(&mut region, power, slot_size, not_full, start);
        assert_eq!(created, Answer::Done);
        let (attached, bench) = Bench::attach(&mut region, spins);
        assert_eq!(attached, Answer::Done);
        House {
            region,
            bench,
            payload: Vec::new(),
            buffer: Vec::new(),
        }
    }

    pub fn begin_push(&mut self, blocking: bool, tag: u16, note: &[u8]) -> Answer {
        let answer = self.bench.sender.begin_push(blocking, tag, note.len());
        if answer == Answer::Begun {
            self.payload = note.to_vec();
        }
        answer
    }

    pub fn begin_pop(&mut self, blocking: bool, length: usize) -> Answer {
        let answer = self.bench.recorder.begin_pop(blocking, length);
        if answer == Answer::Begun {
            self.buffer = vec![0xEE; length];
        }
        answer
    }

    pub fn turn(&mut self, side: Side) -> Answer {
        self.failing_turn(side, None)
    }

    pub fn failing_turn(&mut self, side: Side, failure: Option<u16>) -> Answer {
        match side {
            Side::Sender => self
                .bench
                .sender_turn(&mut self.region, &self.payload, failure),
            Side::Recorder => self
                .bench
                .recorder_turn(&mut self.region, &mut self.buffer, failure),
        }
    }

    /// Takes turns that all answer GoesOn.
    pub fn go_on(&mut self, side: Side, count: usize) {
        for _ in 0..count {
            assert_eq!(self.turn(side), Answer::GoesOn);
        }
    }

    /// Turns until the call answers something else than GoesOn, and how many they were.
    pub fn finish(&mut self, side: Side) -> (Answer, usize) {
        for count in 1..100 {
            let answer = self.turn(side);
            if answer != Answer::GoesOn {
                return (answer, count);
            }
            assert_ne!(self.step(side), Step::Asleep, "the call sleeps");
        }
        panic!("the call does not end");
    }

    pub fn push(&mut self, tag: u16, note: &[u8]) -> Answer {
        assert_eq!(self.begin_push(false, tag, note), Answer::Begun);
        self.finish(Side::Sender).0
    }

    pub fn pop(&mut self, length: usize) -> Answer {
        assert_eq!(self.begin_pop(false, length), Answer::Begun);
        self.finish(Side::Recorder).0
    }

    pub fn step(&self, side: Side) -> Step {
        self.bench.party(side).step
    }

    pub fn u64_at(&self, at: usize) -> u64 {
        u64::from_le_bytes(self.region[at..at + 8].try_into().unwrap())
    }

    pub fn u32_at(&self, at: usize) -> u32 {
        u32::from_le_bytes(self.region[at..at + 4].try_into().unwrap())
    }

    /// How many notes wait.
    pub fn waiting(&self) -> u64 {
        let tail = self.u64_at(Header::AT_TAIL);
        self.u64_at(Header::AT_HEAD).wrapping_sub(tail)
    }

    pub fn flags(&self) -> u32 {
        self.u32_at(Header::AT_FLAGS)
    }

    pub fn bells(&self) -> (u32, u32) {
        (self.u32_at(Header::AT_NE), self.u32_at(Header::AT_NF))
    }

    pub fn put(&mut self, at: usize, bytes: &[u8]) {
        self.region[at..at + bytes.len()].copy_from_slice(bytes);
    }
}

/// A record of 32 bytes with these at its start.
pub fn record(bytes: &[u8]) -> [u8; 32] {
    let mut record = [0; 32];
    record[..bytes.len()].copy_from_slice(bytes);
    record
}

/// The script or report that some records make.
pub fn joined(records: &[&[u8]]) -> Vec<u8> {
    records.iter().flat_map(|bytes| record(bytes)).collect()
}
