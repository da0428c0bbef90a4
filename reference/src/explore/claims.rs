//! The claims that a run may break, as crates/rules/specs/Claims.antt states them.

use super::machine::{number_before, Event, State};
use crate::answer::Answer;
use crate::party::{Side, Step};

#[derive(Clone, Copy, Debug, PartialEq, Eq)]
pub enum Claim {
    /// T1: the notes delivered are the first ones sent.
    Order,
    /// T1: the rest waits, as many notes as head − tail, and fits the ring.
    Count,
    /// T1: the answer that ends a pop carries the note that it delivered.
    Carries,
    /// T3: nobody sleeps without cause.
    Cause(Side),
    /// T10: a pop that is answered 11 has left no note behind, and none will come.
    Closed,
    /// T10: whoever is answered 13 has no room.
    Timeout(Side),
}

impl Claim {
    pub const ALL: [Claim; 8] = [
        Claim::Order,
        Claim::Count,
        Claim::Carries,
        Claim::Cause(Side::Sender),
        Claim::Cause(Side::Recorder),
        Claim::Closed,
        Claim::Timeout(Side::Sender),
        Claim::Timeout(Side::Recorder),
    ];

    /// The theorem, and its name in Claims.antt.
    pub fn name(self) -> &'static str {
        match self {
            Claim::Order | Claim::Count => "T1, InOrder",
            Claim::Carries => "T1, DoneCarries",
            Claim::Cause(Side::Sender) => "T3, WithCause Sender",
            Claim::Cause(Side::Recorder) => "T3, WithCause Recorder",
            Claim::Closed => "T10, ClosedOverNone",
            Claim::Timeout(Side::Sender) => "T10, TimeoutOverNone Sender",
            Claim::Timeout(Side::Recorder) => "T10, TimeoutOverNone Recorder",
        }
    }
}

/// An event with its answer, and the states before and after it.
pub struct Seen<'a> {
    pub before: &'a State,
    pub after: &'a State,
    pub event: Event,
    pub answer: Answer,
}

impl Seen<'_> {
    /// Whose note the event publishes.
    pub fn publishes(&self) -> Option<Side> {
        if self.after.sent != self.before.sent {
            Some(Side::Sender)
        } else if self.after.got != self.before.got {
            Some(Side::Recorder)
        } else {
            None
        }
    }
}

fn in_order(seen: &Seen) -> bool {
    let due = seen.before.got;
    let delivers = seen.after.got != due;
    let tag = seen.before.bench.recorder.tag;
    !delivers || (tag == u16::from(due) && seen.before.buffer == due)
}

fn counted(state: &State) -> bool {
    let rest = u64::from(number_before(state.sent, state.got));
    state.waiting() == rest && rest <= state.bench.sender.capacity()
}

fn carried(seen: &Seen) -> bool {
    let last = number_before(seen.after.got, 1);
    match seen.answer {
        Answer::Delivered { tag, .. } => tag == u16::from(last) && seen.after.buffer == last,
        _ => true,
    }
}

fn with_cause(side: Side, state: &State) -> bool {
    state.step(side) != Step::Asleep
        || !state.is_still(side.other())
        || (state.room(side) == 0 && !state.must_stop(side))
}

/// Whether the sender has closed and is in no push: a push may be begun before the close alone.
fn sends_no_more(state: &State) -> bool {
    let over = matches!(
        state.step(Side::Sender),
        Step::Rest | Step::Close(_) | Step::Shut { .. }
    );
    over && state.bench.sender.closed
}

/// A menu offers no begin that is refused, so it is a turn that answers 11 here.
fn closed_over_none(seen: &Seen) -> bool {
    let state = seen.after;
    let told = seen.event.side() == Some(Side::Recorder) && seen.answer == Answer::Closed;
    !told || (state.sent == state.got && state.waiting() == 0 && sends_no_more(state))
}

fn timeout_over_none(side: Side, seen: &Seen) -> bool {
    let told = seen.event.side() == Some(side) && seen.answer == Answer::Timeout;
    !told || seen.after.room(side) == 0
}

impl Claim {
    pub fn holds(self, seen: &Seen) -> bool {
        match self {
            Claim::Order => in_order(seen),
            Claim::Count => counted(seen.after),
            Claim::Carries => carried(seen),
            Claim::Cause(side) => with_cause(side, seen.after),
            Claim::Closed => closed_over_none(seen),
            Claim::Timeout(side) => timeout_over_none(side, seen),
        }
    }
}
