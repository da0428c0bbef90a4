//! A party's record: what it knows of the region, the call it runs and the step it stands at.

use crate::answer::{Answer, Bell, Operation};
use crate::header::Header;
use crate::region;
use crate::rules::{Mended, Rules};

#[derive(Clone, Copy, Debug, PartialEq, Eq, Hash)]
pub enum Side {
    Sender,
    Recorder,
}

impl Side {
    pub fn name(self) -> &'static str {
        match self {
            Side::Sender => "sender",
            Side::Recorder => "recorder",
        }
    }

    pub fn other(self) -> Self {
        match self {
            Side::Sender => Side::Recorder,
            Side::Recorder => Side::Sender,
        }
    }

    /// The bell this side sleeps on.
    pub fn sleeps_on(self) -> Bell {
        match self {
            Side::Sender => Bell::Nf,
            Side::Recorder => Bell::Ne,
        }
    }

    /// Where a call goes on after a wake or a spurious return.
    pub fn first_step(self) -> Step {
        match self {
            Side::Sender => Step::P1,
            Side::Recorder => Step::C1,
        }
    }

    /// Where a call with no room goes on that has so many spins before it: to the next of them,
    /// or to its epoch. The epoch is read after the last one, so that it is not old by then.
    pub fn after_spins(self, due: u16) -> Step {
        match (due.checked_sub(1), self) {
            (Some(left), _) => Step::Spin { left },
            (None, Side::Sender) => Step::B2,
            (None, Side::Recorder) => Step::W2,
        }
    }

    pub(crate) fn attached_flag(self) -> u32 {
        match self {
            Side::Sender => Header::SENDER_ATTACHED,
            Side::Recorder => Header::RECORDER_ATTACHED,
        }
    }

    pub(crate) fn closed_flag(self) -> u32 {
        match self {
            Side::Sender => Header::SENDER_CLOSED,
            Side::Recorder => Header::RECORDER_CLOSED,
        }
    }
}

/// A futex call that failed, kept until the call that made it has run to its end.
#[derive(Clone, Copy, Debug, PartialEq, Eq, Hash)]
pub struct Failure {
    pub operation: Operation,
    pub error: u16,
}

/// The turns of a close.
#[derive(Clone, Copy, Debug, PartialEq, Eq, Hash)]
pub enum CloseTurn {
    SetBit,
    Raise,
    WakeAll,
}

/// The turns of a shutdown, which a corruption runs too.
#[derive(Clone, Copy, Debug, PartialEq, Eq, Hash)]
pub enum ShutTurn {
    SetBit,
    RaiseNe,
    WakeNe,
    RaiseNf,
    WakeNf,
}

/// Why the shutdown's turns are run, and so what they answer at their end.
#[derive(Clone, Copy, Debug, PartialEq, Eq, Hash)]
pub enum Cause {
    /// Somebody asked: Done, or the first wake that failed.
    Asked { first: Option<Failure> },
    /// Used was above capacity: 7, whatever the wakes did.
    Corruption,
}

/// The step a party stands at, with what the step carries. B6 and W6 are the last look: the
/// call's time is over or, for a pop, the sender has closed. A spin, between B1 and B2 or W1 and
/// W2, loads the other side's counter, and `left` more follow it.
#[derive(Clone, Copy, Debug, PartialEq, Eq, Hash)]
pub enum Step {
    Rest,
    Asleep,
    P1,
    P2,
    P3,
    P4,
    P5,
    P6,
    B1,
    B2,
    B3 { epoch: u32 },
    B4 { epoch: u32 },
    B5 { epoch: u32 },
    B6,
    C1,
    C2,
    C3 { length: u16 },
    C4 { length: u16 },
    C5 { length: u16 },
    C6 { length: u16 },
    W1,
    W2,
    W3 { epoch: u32 },
    W4 { epoch: u32 },
    W5 { epoch: u32 },
    W6 { timed_out: bool },
    Spin { left: u16 },
    Close(CloseTurn),
    Shut { turn: ShutTurn, cause: Cause },
}

/// A party's record. Its fields are open, since a host keeps the record between turns; what
/// a host may have spoilt is refused with 20.
#[derive(Clone, Copy, Debug, PartialEq, Eq, Hash)]
pub struct Party {
    pub side: Side,
    pub attached: bool,
    /// Sizes and option as they were at attach; the region's are never trusted again.
    pub power: u8,
    pub slot_size: u32,
    pub not_full: bool,
    /// How often the other side's counter is loaded before the epoch, as attach was told.
    pub spins: u16,
    /// Whether the party's own close has set its bit.
    pub closed: bool,
    /// The own counter: the sender's head, the recorder's tail.
    pub count: u64,
    pub blocking: bool,
    /// The tag a push named, or from C2 on the tag of the note a pop reads.
    pub tag: u16,
    /// The length a push named, or the length of a pop's buffer.
    pub length: usize,
    /// A wake that a published rule decided on before its store; the mended rules set none.
    pub rings: bool,
    /// Whether the other has moved since a look, as a wrong rule remembers; the mended rules do not.
    pub moved: Option<bool>,
    pub step: Step,
}

impl Party {
    pub fn unattached(side: Side) -> Self {
        Party {
            side,
            attached: false,
            power: 0,
            slot_size: 0,
            not_full: false,
            spins: 0,
            closed: false,
            count: 0,
            blocking: false,
            tag: 0,
            length: 0,
            rings: false,
            moved: None,
            step: Step::Rest,
        }
    }

    #[inline]
    pub fn payload_capacity(&self) -> usize {
        (self.slot_size as usize).saturating_sub(8)
    }

    #[inline]
    pub fn capacity(&self) -> u64 {
        1 << self.power
    }

    /// Whether the record is an attached one of this side with its values within the limits.
    #[inline]
    pub(crate) fn is_sound(&self, side: Side) -> bool {
        self.attached
            && self.side == side
            && region::power_is_allowed(self.power)
            && region::slot_size_is_allowed(self.slot_size)
            && region::spins_are_allowed(self.spins)
            && (side == Side::Recorder || self.length <= self.payload_capacity())
    }

    #[inline]
    fn may_begin(&self, side: Side) -> bool {
        self.is_sound(side) && self.step == Step::Rest
    }

    /// Begins a push of `length` bytes, which are lent to the turn at P2.
    pub fn begin_push(&mut self, blocking: bool, tag: u16, length: usize) -> Answer {
        if !self.may_begin(Side::Sender) {
            return Answer::BadCall;
        }
        if self.closed {
            return Answer::Closed;
        }
        if blocking && !self.not_full {
            return Answer::NotFullOff;
        }
        if length > self.payload_capacity() {
            return Answer::PayloadTooLong;
        }
        self.blocking = blocking;
        self.tag = tag;
        self.length = length;
        self.step = Step::P1;
        Answer::Begun
    }

    /// Begins a pop into a buffer of `length` bytes, which is lent to the turn at C2.
    pub fn begin_pop(&mut self, blocking: bool, length: usize) -> Answer {
        if !self.may_begin(Side::Recorder) {
            return Answer::BadCall;
        }
        if self.closed {
            return Answer::Closed;
        }
        self.blocking = blocking;
        self.tag = 0;
        self.length = length;
        self.step = Step::C1;
        Answer::Begun
    }

    pub fn begin_close(&mut self, side: Side) -> Answer {
        if !self.may_begin(side) {
            return Answer::BadCall;
        }
        if self.closed {
            return Answer::Closed;
        }
        self.step = Step::Close(CloseTurn::SetBit);
        Answer::Begun
    }

    /// Begins a shutdown, also after one's own close.
    pub fn begin_shutdown(&mut self, side: Side) -> Answer {
        if !self.may_begin(side) {
            return Answer::BadCall;
        }
        self.step = Step::Shut {
            turn: ShutTurn::SetBit,
            cause: Cause::Asked { first: None },
        };
        Answer::Begun
    }

    /// The sleeper's wait returns without a wake.
    pub fn spurious_return(&mut self, side: Side) -> Answer {
        if !self.is_sound(side) {
            return Answer::BadCall;
        }
        if self.step != Step::Asleep {
            return Answer::Nothing;
        }
        self.step = side.first_step();
        Answer::GoesOn
    }

    /// The sleeper's time is over, by other rules.
    pub fn time_out_by<R: Rules>(&mut self, side: Side) -> Answer {
        if !self.is_sound(side) {
            return Answer::BadCall;
        }
        if self.step != Step::Asleep {
            return Answer::Nothing;
        }
        R::time_over(self).answer
    }

    /// The sleeper's time is over.
    pub fn time_out(&mut self, side: Side) -> Answer {
        self.time_out_by::<Mended>(side)
    }
}
