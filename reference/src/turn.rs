//! One turn of a party: one step, and at most one shared access.

use crate::answer::{Answer, Bell, Operation};
use crate::header::Header;
use crate::party::{Cause, Party, ShutTurn, Side, Step};
use crate::region::{self, Fill};
use crate::rules::{Mended, Rules};

pub(crate) const EINTR: u16 = 4;
const EAGAIN: u16 = 11;
pub(crate) const ETIMEDOUT: u16 = 110;

/// A wake that did not fail; whoever keeps the sleeping places carries it out.
#[derive(Clone, Copy, Debug, PartialEq, Eq)]
pub struct Wake {
    pub bell: Bell,
    /// How many sleepers at most: `ONE` or `ALL`.
    pub count: u32,
}

impl Wake {
    pub const ONE: u32 = 1;
    pub const ALL: u32 = 2_147_483_647;
}

/// What a turn gave: its answer, and a wake if it made one.
#[derive(Clone, Copy, Debug, PartialEq, Eq)]
pub struct Taken {
    pub answer: Answer,
    pub wake: Option<Wake>,
}

impl Taken {
    #[inline]
    fn answer(answer: Answer) -> Self {
        Taken { answer, wake: None }
    }
}

impl Party {
    /// A turn of the sender by other rules.
    pub fn sender_turn_by<R: Rules>(
        &mut self,
        region: &mut [u8],
        payload: &[u8],
        failure: Option<u16>,
    ) -> Taken {
        let lent = self.step != Step::P2 || payload.len() == self.length;
        if !lent || !self.may_turn(Side::Sender, region, failure) {
            return Taken::answer(Answer::BadCall);
        }
        let Some(mut header) = Header::of(region) else {
            return Taken::answer(Answer::BadCall);
        };
        match self.step {
            Step::Rest | Step::Asleep => Taken::answer(Answer::Nothing),
            Step::P1 => match region::fill(self.count, header.tail(), self.power) {
                Fill::Corrupt => self.corruption(),
                Fill::Full if self.blocking => self.goes_on(Step::B1),
                Fill::Full => self.ends(Answer::Full),
                Fill::Empty | Fill::Between => self.goes_on(Step::P2),
            },
            Step::P2 => {
                let begin = region::slot_begin(self.count, self.power, self.slot_size);
                let slot = &mut region[begin..begin + self.slot_size as usize];
                // The length is at most 65,528 here, so it fits its field.
                slot[0..2].copy_from_slice(&(self.length as u16).to_le_bytes());
                slot[2..4].copy_from_slice(&self.tag.to_le_bytes());
                slot[4..8].fill(0);
                slot[8..8 + payload.len()].copy_from_slice(payload);
                self.goes_on(R::after_p2())
            }
            Step::P3 => R::p3(self, &mut header),
            Step::P4 => R::p4(self, &header),
            Step::P5 => {
                header.raise(Bell::Ne);
                self.goes_on(Step::P6)
            }
            Step::P6 => R::p6(self, failure),
            Step::B1 => self.look::<R>(&header, R::after_gate(self)),
            Step::Spin { left } => match region::fill(self.count, header.tail(), self.power) {
                Fill::Corrupt => self.corruption(),
                Fill::Full => self.goes_on(R::after_spin(self, left)),
                Fill::Empty | Fill::Between => self.goes_on(Step::P2),
            },
            Step::B2 => {
                let epoch = header.bell(Bell::Nf);
                self.goes_on(Step::B3 { epoch })
            }
            Step::B3 { epoch } => match region::fill(self.count, header.tail(), self.power) {
                Fill::Corrupt => self.corruption(),
                Fill::Full => self.goes_on(R::after_b3(epoch)),
                Fill::Empty | Fill::Between => self.goes_on(Step::P2),
            },
            Step::B4 { epoch } => self.look::<R>(&header, Step::B5 { epoch }),
            Step::B5 { epoch } => self.wait::<R>(&header, epoch, failure),
            Step::B6 => match region::fill(self.count, header.tail(), self.power) {
                Fill::Corrupt => self.corruption(),
                Fill::Full => self.ends(Answer::Timeout),
                Fill::Empty | Fill::Between => self.goes_on(Step::P2),
            },
            Step::Close(turn) => self.close_turn::<R>(&mut header, turn, failure),
            Step::Shut { turn, cause } => self.shut_turn(&mut header, turn, cause, failure),
            _ => Taken::answer(Answer::BadCall),
        }
    }

    /// A turn of the recorder by other rules.
    pub fn recorder_turn_by<R: Rules>(
        &mut self,
        region: &mut [u8],
        buffer: &mut [u8],
        failure: Option<u16>,
    ) -> Taken {
        let lent = self.step != Step::C2 || buffer.len() == self.length;
        if !lent || !self.may_turn(Side::Recorder, region, failure) {
            return Taken::answer(Answer::BadCall);
        }
        let Some(mut header) = Header::of(region) else {
            return Taken::answer(Answer::BadCall);
        };
        match self.step {
            Step::Rest | Step::Asleep => Taken::answer(Answer::Nothing),
            Step::C1 => match region::fill(header.head(), self.count, self.power) {
                Fill::Corrupt => self.corruption(),
                Fill::Empty if self.blocking => self.goes_on(Step::W1),
                Fill::Empty => self.ends(Answer::Empty),
                Fill::Between | Fill::Full => self.goes_on(Step::C2),
            },
            Step::C2 => {
                let begin = region::slot_begin(self.count, self.power, self.slot_size);
                let slot = &region[begin..begin + self.slot_size as usize];
                let field = |at: usize| u16::from_le_bytes([slot[at], slot[at + 1]]);
                let (length, tag, flags, zero) = (field(0), field(2), field(4), field(6));
                let needed = usize::from(length);
                // Slot flag 0 alone may be set.
                if needed > self.payload_capacity() || flags > 1 || zero != 0 {
                    return self.ends(Answer::CorruptSlot);
                }
                if needed > buffer.len() {
                    return self.ends(Answer::OutputTooSmall { length });
                }
                self.tag = tag;
                buffer[..needed].copy_from_slice(&slot[8..8 + needed]);
                self.goes_on(R::after_c2(self, length))
            }
            Step::C3 { length } => R::c3(self, &mut header, length),
            Step::C4 { length } => R::c4(self, &header, length),
            Step::C5 { length } => {
                header.raise(Bell::Nf);
                self.goes_on(Step::C6 { length })
            }
            Step::C6 { length } => R::c6(self, failure, length),
            Step::W1 => self.look::<R>(&header, R::after_gate(self)),
            Step::Spin { left } => match region::fill(header.head(), self.count, self.power) {
                Fill::Corrupt => self.corruption(),
                Fill::Empty => self.goes_on(R::after_spin(self, left)),
                Fill::Between | Fill::Full => self.goes_on(Step::C2),
            },
            Step::W2 => {
                let epoch = header.bell(Bell::Ne);
                self.goes_on(Step::W3 { epoch })
            }
            Step::W3 { epoch } => match region::fill(header.head(), self.count, self.power) {
                Fill::Corrupt => self.corruption(),
                Fill::Empty => self.goes_on(R::after_w3(epoch)),
                Fill::Between | Fill::Full => self.goes_on(Step::C2),
            },
            Step::W4 { epoch } => self.look::<R>(&header, Step::W5 { epoch }),
            Step::W5 { epoch } => self.wait::<R>(&header, epoch, failure),
            Step::W6 { timed_out } => match region::fill(header.head(), self.count, self.power) {
                Fill::Corrupt => self.corruption(),
                Fill::Empty if timed_out => self.ends(Answer::Timeout),
                Fill::Empty => self.ends(Answer::Closed),
                Fill::Between | Fill::Full => self.goes_on(Step::C2),
            },
            Step::Close(turn) => self.close_turn::<R>(&mut header, turn, failure),
            Step::Shut { turn, cause } => self.shut_turn(&mut header, turn, cause, failure),
            _ => Taken::answer(Answer::BadCall),
        }
    }

    /// A turn of the sender. `payload` is read at P2 only; `failure` is the error that the
    /// turn's futex call fails with, if it makes one.
    pub fn sender_turn(
        &mut self,
        region: &mut [u8],
        payload: &[u8],
        failure: Option<u16>,
    ) -> Taken {
        self.sender_turn_by::<Mended>(region, payload, failure)
    }

    /// A turn of the recorder. `buffer` is written at C2 only; `failure` is the error that
    /// the turn's futex call fails with, if it makes one.
    pub fn recorder_turn(
        &mut self,
        region: &mut [u8],
        buffer: &mut [u8],
        failure: Option<u16>,
    ) -> Taken {
        self.recorder_turn_by::<Mended>(region, buffer, failure)
    }

    /// The grounds of 20 that both sides share. They come before 253, so a party at rest is
    /// tested as well.
    #[inline]
    fn may_turn(&self, side: Side, region: &[u8], failure: Option<u16>) -> bool {
        self.is_sound(side)
            && region.len() == region::total_size(self.power, self.slot_size)
            && failure != Some(0)
    }

    #[inline]
    pub(crate) fn goes_on(&mut self, step: Step) -> Taken {
        self.step = step;
        Taken::answer(Answer::GoesOn)
    }

    #[inline]
    pub(crate) fn ends(&mut self, answer: Answer) -> Taken {
        self.step = Step::Rest;
        Taken::answer(answer)
    }

    #[inline]
    pub(crate) fn delivered(&self, length: u16) -> Answer {
        Answer::Delivered {
            tag: self.tag,
            length,
        }
    }

    fn corruption(&mut self) -> Taken {
        self.goes_on(Step::Shut {
            turn: ShutTurn::SetBit,
            cause: Cause::Corruption,
        })
    }

    /// The wake that ends a call.
    pub(crate) fn last_wake(
        &mut self,
        bell: Bell,
        count: u32,
        failure: Option<u16>,
        done: Answer,
    ) -> Taken {
        match failure {
            Some(error) => self.ends(Answer::Syscall {
                operation: Operation::wake(bell),
                error,
            }),
            None => Taken {
                wake: Some(Wake { bell, count }),
                ..self.ends(done)
            },
        }
    }

    /// A look at the flags before sleep: shutdown, then the other side's close.
    fn look<R: Rules>(&mut self, header: &Header, next: Step) -> Taken {
        let flags = header.flags();
        if flags & Header::SHUTDOWN != 0 {
            self.ends(Answer::Shutdown)
        } else if flags & self.side.other().closed_flag() != 0 {
            R::other_closed(self)
        } else {
            self.goes_on(next)
        }
    }

    /// The wait on the own side's bell. A failed wait does not sleep, whatever the word holds.
    fn wait<R: Rules>(&mut self, header: &Header, epoch: u32, failure: Option<u16>) -> Taken {
        let bell = self.side.sleeps_on();
        let again = self.side.first_step();
        match failure {
            None if (header.bell(bell) ^ epoch) & R::BELL == 0 => self.goes_on(Step::Asleep),
            None | Some(EINTR | EAGAIN) => self.goes_on(again),
            Some(ETIMEDOUT) => R::time_over(self),
            Some(error) => self.ends(Answer::Syscall {
                operation: Operation::wait(bell),
                error,
            }),
        }
    }
}
