//! The script program's records, and the player that answers them one by one.

use crate::answer::Answer;
use crate::bench::Bench;
use crate::party::Side;
use crate::region;

/// A record's size, in the script and in the report.
pub const RECORD: usize = 32;
/// How many payload bytes a record carries, and how large a pop's buffer may be.
pub const CARRIED: usize = 24;

pub const POWER: u8 = 2;
pub const SLOT_SIZE: u32 = 32;
const REGION: usize = 384 + 4 * 32;

/// What a cut last record is answered with: FF, 20 and zeros.
pub const CUT_REPORT: [u8; RECORD] = {
    let mut report = [0; RECORD];
    report[0] = 0xFF;
    report[1] = 20;
    report
};

/// What a record asks for, by its kind.
#[derive(Clone, Copy, Debug, PartialEq, Eq)]
pub enum Kind {
    Turn(Side),
    Spurious(Side),
    TimeOut(Side),
    FailingTurn(Side),
    Push,
    Pop,
    Close(Side),
    Shutdown(Side),
}

impl Kind {
    pub fn of_number(number: u8) -> Option<Self> {
        let side = if number.is_multiple_of(2) {
            Side::Sender
        } else {
            Side::Recorder
        };
        Some(match number {
            0 | 1 => Kind::Turn(side),
            2 | 3 => Kind::Spurious(side),
            4 | 5 => Kind::TimeOut(side),
            6 | 7 => Kind::FailingTurn(side),
            8 => Kind::Push,
            9 => Kind::Pop,
            10 | 11 => Kind::Close(side),
            12 | 13 => Kind::Shutdown(side),
            _ => return None,
        })
    }

    pub fn number(self) -> u8 {
        let odd = |side| u8::from(side == Side::Recorder);
        match self {
            Kind::Turn(side) => odd(side),
            Kind::Spurious(side) => 2 + odd(side),
            Kind::TimeOut(side) => 4 + odd(side),
            Kind::FailingTurn(side) => 6 + odd(side),
            Kind::Push => 8,
            Kind::Pop => 9,
            Kind::Close(side) => 10 + odd(side),
            Kind::Shutdown(side) => 12 + odd(side),
        }
    }

    /// The party that is asked.
    pub fn side(self) -> Side {
        match self {
            Kind::Push => Side::Sender,
            Kind::Pop => Side::Recorder,
            Kind::Turn(side)
            | Kind::Spurious(side)
            | Kind::TimeOut(side)
            | Kind::FailingTurn(side)
            | Kind::Close(side)
            | Kind::Shutdown(side) => side,
        }
    }
}

/// A script record's fields, as its bytes hold them: kind and mode may be unknown ones.
#[derive(Clone, Copy, Debug, Default, PartialEq, Eq)]
pub struct Record {
    pub kind: u8,
    pub mode: u8,
    pub tag: u16,
    pub length: u16,
    pub error: u16,
    pub payload: [u8; CARRIED],
}

impl Record {
    pub fn new(kind: Kind) -> Self {
        Record {
            kind: kind.number(),
            ..Record::default()
        }
    }

    #[inline]
    pub fn from_bytes(bytes: &[u8; RECORD]) -> Self {
        let word = |at: usize| u16::from_le_bytes([bytes[at], bytes[at + 1]]);
        let mut payload = [0; CARRIED];
        payload.copy_from_slice(&bytes[8..]);
        Record {
            kind: bytes[0],
            mode: bytes[1],
            tag: word(2),
            length: word(4),
            error: word(6),
            payload,
        }
    }

    pub fn to_bytes(self) -> [u8; RECORD] {
        fields(
            self.kind,
            self.mode,
            [self.tag, self.length, self.error],
            &self.payload,
        )
    }

    /// Whether the record asks for the blocking form; none for an unknown mode.
    pub fn blocking(&self) -> Option<bool> {
        match self.mode {
            0 => Some(false),
            1 => Some(true),
            _ => None,
        }
    }
}

/// Lays out a record; script and report share the layout.
#[inline]
fn fields(first: u8, second: u8, words: [u16; 3], payload: &[u8]) -> [u8; RECORD] {
    let mut bytes = [0; RECORD];
    bytes[0] = first;
    bytes[1] = second;
    for (place, word) in bytes[2..8].chunks_exact_mut(2).zip(words) {
        place.copy_from_slice(&word.to_le_bytes());
    }
    bytes[8..8 + payload.len()].copy_from_slice(payload);
    bytes
}

/// The script program's region with both parties, and the bytes it lends to their turns.
#[derive(Clone)]
pub struct Player {
    region: [u8; REGION],
    bench: Bench,
    /// The payload of the last push that was begun. A refused begin leaves it alone: the push
    /// that still runs must find the bytes its own record carried.
    payload: [u8; CARRIED],
    buffer: [u8; CARRIED],
}

impl Default for Player {
    fn default() -> Self {
        Player::new()
    }
}

impl Player {
    pub fn new() -> Self {
        let mut region = [0; REGION];
        let created = region::create(&mut region, POWER, SLOT_SIZE, true, 0);
        // A script has no place for a spin count, so its parties have none.
        let (attached, bench) = Bench::attach(&mut region, 0);
        debug_assert_eq!((created, attached), (Answer::Done, Answer::Done));
        Player {
            region,
            bench,
            payload: [0; CARRIED],
            buffer: [0; CARRIED],
        }
    }

    pub fn bench(&self) -> &Bench {
        &self.bench
    }

    pub fn region(&self) -> &[u8] {
        &self.region
    }

    pub fn buffer(&self) -> &[u8] {
        &self.buffer
    }

    pub fn payload(&self) -> &[u8] {
        &self.payload
    }

    /// Plays one record and gives its report.
    #[inline]
    pub fn play(&mut self, bytes: &[u8; RECORD]) -> [u8; RECORD] {
        let record = Record::from_bytes(bytes);
        let answer = self.answer(&record);
        self.report(record.kind, answer)
    }

    /// Plays one record and gives its answer.
    #[inline]
    pub fn answer(&mut self, record: &Record) -> Answer {
        let Some(kind) = Kind::of_number(record.kind) else {
            return Answer::BadCall;
        };
        match kind {
            Kind::Turn(side) => self.turn(side, None),
            Kind::FailingTurn(side) => self.turn(side, Some(record.error)),
            Kind::Spurious(side) => self.bench.party_mut(side).spurious_return(side),
            Kind::TimeOut(side) => self.bench.party_mut(side).time_out(side),
            Kind::Push => self.push(record),
            Kind::Pop => self.pop(record),
            Kind::Close(side) => self.bench.party_mut(side).begin_close(side),
            Kind::Shutdown(side) => self.bench.party_mut(side).begin_shutdown(side),
        }
    }

    /// The report of an answer just given. Only a pop's Done carries payload bytes: the note
    /// as it lies at the buffer's start, zeros after it.
    #[inline]
    pub fn report(&self, kind: u8, answer: Answer) -> [u8; RECORD] {
        let note = match answer {
            Answer::Delivered { length, .. } => &self.buffer[..usize::from(length)],
            _ => &[],
        };
        let words = [answer.tag(), answer.length(), answer.error()];
        fields(kind, answer.number(), words, note)
    }

    #[inline]
    fn turn(&mut self, side: Side, failure: Option<u16>) -> Answer {
        // Both lengths were at most 24 when their calls were begun.
        match side {
            Side::Sender => {
                let payload = &self.payload[..self.bench.sender.length];
                self.bench.sender_turn(&mut self.region, payload, failure)
            }
            Side::Recorder => {
                let buffer = &mut self.buffer[..self.bench.recorder.length];
                self.bench.recorder_turn(&mut self.region, buffer, failure)
            }
        }
    }

    fn push(&mut self, record: &Record) -> Answer {
        let Some(blocking) = record.blocking() else {
            return Answer::BadCall;
        };
        let length = usize::from(record.length);
        let answer = self.bench.sender.begin_push(blocking, record.tag, length);
        if answer == Answer::Begun {
            self.payload = record.payload;
        }
        answer
    }

    fn pop(&mut self, record: &Record) -> Answer {
        let length = usize::from(record.length);
        match record.blocking() {
            Some(blocking) if length <= CARRIED => self.bench.recorder.begin_pop(blocking, length),
            _ => Answer::BadCall,
        }
    }
}
