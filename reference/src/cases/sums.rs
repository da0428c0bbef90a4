//! Bytes and parties summed up in a number, so that a report shows whether anything changed.

use crate::answer::Answer;
use crate::party::{CloseTurn, Party, ShutTurn, Side, Step};

/// A sum in progress, of 32 bits. The factor is odd, so one changed value always shows.
#[derive(Clone, Copy, Debug, Default, PartialEq, Eq)]
pub struct Sum(u32);

impl Sum {
    const FACTOR: u32 = 0x0100_0193;

    pub fn value(self) -> u32 {
        self.0
    }

    pub fn mix(self, x: u32) -> Self {
        Sum(self
            .0
            .wrapping_mul(Sum::FACTOR)
            .wrapping_add(x)
            .wrapping_add(1))
    }

    pub fn mix_wide(self, x: u64) -> Self {
        self.mix(x as u32).mix((x >> 32) as u32)
    }

    pub fn mix_bytes(self, bytes: &[u8]) -> Self {
        bytes.iter().fold(self, |sum, &byte| sum.mix(byte.into()))
    }
}

pub fn pair(low: u32, high: u32) -> u64 {
    u64::from(low) | u64::from(high) << 32
}

/// A kind, and the number, tag, length and error of an answer.
pub fn told_word(kind: u8, answer: Answer) -> u64 {
    pair(
        u32::from(kind) | u32::from(answer.number()) << 8 | u32::from(answer.tag()) << 16,
        u32::from(answer.length()) | u32::from(answer.error()) << 16,
    )
}

/// A party's step, and the sum of the rest of its record. What a step carries shows in what
/// comes of it; a recorder's tag is what its step carries.
pub fn party_word(seat: Side, party: &Party) -> u64 {
    let tag = match seat {
        Side::Sender => party.tag,
        Side::Recorder => 0,
    };
    let sum = Sum(party.side as u32)
        .mix(party.attached.into())
        .mix(party.power.into())
        .mix(party.slot_size)
        .mix(party.not_full.into())
        .mix(party.spins.into())
        .mix(party.closed.into())
        .mix_wide(party.count)
        .mix(party.blocking.into())
        .mix(tag.into())
        // A record that a case makes names no length above 32 bits.
        .mix(party.length as u32);
    pair(step_number(party.step), sum.value())
}

/// Steps of the two sides that mirror each other have one number. The last look and then the spin
/// have the numbers after all others: they came last, and no other number was to move.
fn step_number(step: Step) -> u32 {
    match step {
        Step::Rest => 0,
        Step::P1 | Step::C1 => 1,
        Step::P2 | Step::C2 => 2,
        Step::P3 | Step::C3 { .. } => 3,
        Step::P4 | Step::C4 { .. } => 4,
        Step::P5 | Step::C5 { .. } => 5,
        Step::P6 | Step::C6 { .. } => 6,
        Step::B1 | Step::W1 => 7,
        Step::B2 | Step::W2 => 8,
        Step::B3 { .. } | Step::W3 { .. } => 9,
        Step::B4 { .. } | Step::W4 { .. } => 10,
        Step::B5 { .. } | Step::W5 { .. } => 11,
        Step::Asleep => 12,
        Step::B6 | Step::W6 { .. } => 21,
        Step::Spin { .. } => 22,
        Step::Close(CloseTurn::SetBit) => 13,
        Step::Close(CloseTurn::Raise) => 14,
        Step::Close(CloseTurn::WakeAll) => 15,
        Step::Shut { turn, .. } => shut_number(turn),
    }
}

fn shut_number(turn: ShutTurn) -> u32 {
    match turn {
        ShutTurn::SetBit => 16,
        ShutTurn::RaiseNe => 17,
        ShutTurn::WakeNe => 18,
        ShutTurn::RaiseNf => 19,
        ShutTurn::WakeNf => 20,
    }
}
