//! States that differ only in how far they have counted, made equal.
//!
//! A turn looks at counters by their difference and at a bell by whether it still is the
//! epoch; it finds a slot by the counter modulo the capacity and never looks into a note. So
//! counters may be counted from tail, with the ring turned along, bells from the epoch, and
//! notes from the next to be delivered. What a step does not use any more is put to nothing.

use super::machine::{number_before, State};
use crate::party::{Cause, Party, Side, Step};

/// Whether a step still uses the record's mode: a blocking call may come back to its look.
fn uses_mode(step: Step) -> bool {
    matches!(step, Step::P1 | Step::C1) || uses_epoch(step)
}

fn uses_epoch(step: Step) -> bool {
    epoch(step).is_some()
        || matches!(
            step,
            Step::B1 | Step::B2 | Step::W1 | Step::W2 | Step::Spin { .. } | Step::Asleep
        )
}

fn epoch(step: Step) -> Option<u32> {
    match step {
        Step::B3 { epoch }
        | Step::B4 { epoch }
        | Step::B5 { epoch }
        | Step::W3 { epoch }
        | Step::W4 { epoch }
        | Step::W5 { epoch } => Some(epoch),
        _ => None,
    }
}

fn with_epoch(step: Step, epoch: u32) -> Step {
    match step {
        Step::B3 { .. } => Step::B3 { epoch },
        Step::B4 { .. } => Step::B4 { epoch },
        Step::B5 { .. } => Step::B5 { epoch },
        Step::W3 { .. } => Step::W3 { epoch },
        Step::W4 { .. } => Step::W4 { epoch },
        Step::W5 { .. } => Step::W5 { epoch },
        other => other,
    }
}

/// Whether a step still uses the record's tag, and a pop's the buffer.
fn uses_note(side: Side, step: Step) -> bool {
    match side {
        Side::Sender => matches!(step, Step::P2 | Step::B6) || uses_mode(step),
        Side::Recorder => matches!(
            step,
            Step::C3 { .. } | Step::C4 { .. } | Step::C5 { .. } | Step::C6 { .. }
        ),
    }
}

fn party(party: &mut Party, tail: u64, got: u8) {
    let step = party.step;
    party.count = party.count.wrapping_sub(tail);
    party.length = 1;
    // A wrong rule may lead back to a step before, which uses them again.
    let comes_back = party.moved.is_some() && step != Step::Rest;
    party.blocking &= uses_mode(step) || comes_back;
    party.rings &= matches!(step, Step::P3 | Step::C3 { .. });
    party.tag = match uses_note(party.side, step) || comes_back {
        true => u16::from(number_before(party.tag as u8, got)),
        false => 0,
    };
    // Which wake failed first is told in the answer and decides nothing.
    if let Step::Shut {
        turn,
        cause: Cause::Asked { .. },
    } = step
    {
        let cause = Cause::Asked { first: None };
        party.step = Step::Shut { turn, cause };
    }
}

/// How often a bell was raised since the party on it read its epoch; 0 if it holds none.
pub fn raises(state: &State, side: Side) -> u32 {
    let bell = state.bell(side.sleeps_on());
    epoch(state.step(side)).map_or(0, |epoch| bell.wrapping_sub(epoch))
}

/// The state that stands for all that differ from this one in their counting alone. Raises of
/// a whole bell are told apart up to `most`, those of a narrow one as far as it goes.
pub fn normal(state: &State, bell: u32, most: u32) -> State {
    let mut normal = *state;
    let raised = |side| match bell {
        u32::MAX => raises(state, side).min(most),
        narrow => raises(state, side) & narrow,
    };
    normal.ne = raised(Side::Recorder);
    normal.nf = raised(Side::Sender);
    for side in [Side::Sender, Side::Recorder] {
        let record = normal.bench.party_mut(side);
        record.step = with_epoch(record.step, 0);
        party(record, state.tail, state.got);
    }
    let capacity = state.bench.sender.capacity() as usize;
    normal.ring[..capacity].rotate_left(state.slot_of(state.tail));
    for note in &mut normal.ring[..capacity] {
        *note = number_before(*note, state.got);
    }
    normal.buffer = match uses_note(Side::Recorder, state.step(Side::Recorder)) {
        true => number_before(state.buffer, state.got),
        false => 0,
    };
    normal.head = state.waiting();
    normal.tail = 0;
    normal.sent = number_before(state.sent, state.got);
    normal.got = 0;
    normal
}
