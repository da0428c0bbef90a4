//! What a case is played on: both parties, a region, a payload and a buffer.

use crate::answer::Answer;
use crate::bench::Bench;
use crate::cases::record::{Ask, Record, Terms};
use crate::cases::sums::{pair, party_word, told_word, Sum};
use crate::header::Header;
use crate::party::{Party, Side, Step};
use crate::region;

/// The length of a report, four words of u64: kind and answer as the script program has them;
/// for either party its step and the sum of its record; the sums of region and buffer.
pub const REPORT: usize = 32;

/// What came of a record: its answer, and how many attaches of a sweep were accepted.
#[derive(Clone, Copy, Debug, PartialEq, Eq)]
pub struct Came {
    pub answer: Answer,
    pub accepted: u16,
}

#[derive(Clone)]
pub struct Stage {
    region: Vec<u8>,
    payload: Vec<u8>,
    /// Zeros at the start of every record, so that it shows what that record wrote.
    buffer: Vec<u8>,
    /// The buffer as the recorder's last copy left it.
    copied: Vec<u8>,
    pub bench: Bench,
}

impl Default for Stage {
    fn default() -> Self {
        Stage::new()
    }
}

impl Stage {
    /// Room for the largest slot twice, and for a ring of as many bytes with the smallest slots.
    pub const REGION: usize = 131_456;
    /// Room for the largest payload and buffer.
    const ROOM: usize = 65_536;

    pub fn new() -> Self {
        let mut payload = vec![0; Stage::ROOM];
        put(&mut payload, 0, Stage::ROOM, 0x4847_4645_4443_4241);
        Stage {
            region: vec![0; Stage::REGION],
            payload,
            buffer: vec![0; Stage::ROOM],
            copied: Vec::new(),
            bench: Bench {
                sender: Party::unattached(Side::Sender),
                recorder: Party::unattached(Side::Recorder),
            },
        }
    }

    /// Plays one record.
    pub fn play(&mut self, record: Record) -> Came {
        self.buffer.fill(0);
        match record.ask {
            Ask::Sweep {
                side,
                spins,
                at,
                flags,
            } => {
                let region = self.lent_region(record);
                sweep(region, at as usize, flags, |region| {
                    region::attach(region, side, spins)
                })
            }
            _ => Came {
                answer: self.answer(record),
                accepted: 0,
            },
        }
    }

    /// The report of a record that was just played.
    pub fn report(&self, record: Record, came: Came) -> [u8; REPORT] {
        let region = Sum::default().mix_bytes(&self.region[..room(record.region, &self.region)]);
        let buffer = Sum::default().mix_bytes(&self.buffer[..room(record.lent, &self.buffer)]);
        let words = [
            told_word(record.ask.kind(), came.answer),
            party_word(Side::Sender, &self.bench.sender),
            party_word(Side::Recorder, &self.bench.recorder),
            pair(region.value(), buffer.value()),
        ];
        let mut report = [0; REPORT];
        for (place, word) in report.chunks_exact_mut(8).zip(words) {
            place.copy_from_slice(&word.to_le_bytes());
        }
        report
    }

    /// What a pop that was just finished delivered.
    pub fn note(&self, answer: Answer) -> &[u8] {
        let length = usize::from(answer.length()).min(self.copied.len());
        &self.copied[..length]
    }

    fn answer(&mut self, record: Record) -> Answer {
        match record.ask {
            Ask::Turn(side) => self.turn(record, side, None),
            Ask::Failing(side, error) => self.turn(record, side, Some(error)),
            Ask::Spurious(side) => self.bench.party_mut(side).spurious_return(side),
            Ask::TimeOut(side) => self.bench.party_mut(side).time_out(side),
            Ask::Push {
                blocking,
                tag,
                length,
            } => self.bench.sender.begin_push(blocking, tag, length as usize),
            Ask::Pop { blocking, length } => {
                self.bench.recorder.begin_pop(blocking, length as usize)
            }
            Ask::Close(side) => self.bench.party_mut(side).begin_close(side),
            Ask::Shutdown(side) => self.bench.party_mut(side).begin_shutdown(side),
            _ => self.arrange(record),
        }
    }

    /// What is no event.
    fn arrange(&mut self, record: Record) -> Answer {
        match record.ask {
            Ask::Attach { side, spins } => {
                let (answer, party) = region::attach(self.lent_region(record), side, spins);
                *self.bench.party_mut(side) = party;
                return answer;
            }
            Ask::Create {
                power,
                slot_size,
                not_full,
                start,
            } => {
                let region = self.lent_region(record);
                return region::create(region, power, slot_size, not_full, start);
            }
            Ask::Put { at, count, value } => {
                put(self.lent_region(record), at as usize, count.into(), value);
            }
            Ask::Spoil(side, terms) => spoil(self.bench.party_mut(side), terms),
            _ => return Answer::BadCall,
        }
        Answer::Done
    }

    fn turn(&mut self, record: Record, side: Side, failure: Option<u16>) -> Answer {
        let region_end = room(record.region, &self.region);
        let region = &mut self.region[..region_end];
        let end = room(record.lent, &self.buffer);
        let copies = self.bench.recorder.step == Step::C2;
        let answer = match side {
            Side::Sender => self
                .bench
                .sender_turn(region, &self.payload[..end], failure),
            Side::Recorder => self
                .bench
                .recorder_turn(region, &mut self.buffer[..end], failure),
        };
        if copies && side == Side::Recorder {
            self.copied = self.buffer[..end].to_vec();
        }
        answer
    }

    fn lent_region(&mut self, record: Record) -> &mut [u8] {
        let end = room(record.region, &self.region);
        &mut self.region[..end]
    }
}

/// As much of some bytes as is asked for, and no more than there is.
fn room(length: u32, bytes: &[u8]) -> usize {
    bytes.len().min(length as usize)
}

/// The bytes of a value, lowest first, and over again with one more each time, as far as there
/// is room.
fn put(bytes: &mut [u8], at: usize, count: usize, value: u64) {
    let mut round = value.to_le_bytes();
    for (k, byte) in bytes.iter_mut().skip(at).take(count).enumerate() {
        let next = &mut round[k % 8];
        *byte = *next;
        *next = next.wrapping_add(1);
    }
}

/// An attach for each value of one byte. The answer's values are the two halves of the sum of all
/// that came of them.
fn sweep(
    region: &mut [u8],
    at: usize,
    flags: u8,
    attach: impl Fn(&mut [u8]) -> (Answer, Party),
) -> Came {
    let mut accepted = 0;
    let mut sum = Sum::default();
    for value in 0..=u8::MAX {
        put(region, Header::AT_FLAGS, 1, flags.into());
        put(region, at, 1, value.into());
        let (answer, party) = attach(region);
        accepted += u16::from(answer == Answer::Done);
        sum = sum
            .mix_wide(told_word(0, answer))
            .mix_wide(party_word(party.side, &party))
            .mix_bytes(region);
    }
    Came {
        answer: Answer::Delivered {
            tag: (sum.value() >> 16) as u16,
            length: sum.value() as u16,
        },
        accepted,
    }
}

fn spoil(party: &mut Party, terms: Terms) {
    party.side = terms.side;
    party.attached = terms.attached;
    party.power = terms.power;
    party.slot_size = terms.slot_size;
    party.length = terms.length as usize;
    party.spins = terms.spins;
}
