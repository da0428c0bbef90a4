//! Cases of a region damaged between turns.

use crate::cases::case::{Case, Ring, SIDES};
use crate::cases::record::{Ask, Part};
use crate::header::Header;
use crate::party::Side;
use Side::{Recorder, Sender};

pub fn list() -> Vec<Case> {
    let mut cases = Vec::new();
    for side in SIDES {
        cases.extend([1, 4].map(|turn| corrupt(side, turn)));
        cases.push(corrupt_at_last(side));
        cases.push(far_apart(side));
    }
    cases.push(corrupt_after_close());
    cases.extend(BAD_LENGTHS.map(bad_slot));
    cases.push(too_small());
    cases.extend((0..64).map(flipped));
    cases.push(past_the_payload());
    cases.push(own_copy());
    cases.push(counters_seen_at_publish());
    cases.extend([u32::MAX, 0x7FFF_FFFF].map(raised));
    cases
}

pub(super) fn at_other(side: Side) -> usize {
    match side {
        Sender => Header::AT_TAIL,
        Recorder => Header::AT_HEAD,
    }
}

/// The other's counter where used is 3, in a ring that the side can do nothing with.
pub(super) fn too_far(side: Side) -> u64 {
    match side {
        // Head is 2 there.
        Sender => u64::MAX,
        // Tail is 0.
        Recorder => 3,
    }
}

/// Used above capacity at the first look or at the one before sleep, then the five turns, with
/// failed wakes that are ignored; the other is asleep meanwhile where it can be.
fn corrupt(side: Side, turn: usize) -> Case {
    let place = match (side, turn) {
        (Sender, 1) => "P1",
        (Sender, _) => "B3",
        (Recorder, 1) => "C1",
        (Recorder, _) => "W3",
    };
    let name = format!("Answer 7 at {place}, shutdown's five turns, failed wakes ignored");
    Case::on(name, Ring::SMALL)
        .stuck(side)
        .blocking_call(side)
        .turns(side, turn - 1)
        .put(at_other(side), 8, too_far(side))
        .turns(side, 6)
        .blocking_call(side)
        .turns(side, 1)
        .asks([Ask::Failing(side, 22); 5])
        .blocking_call(side.other())
        .turns(side.other(), 2)
}

/// The same at the last look, after a time-out.
fn corrupt_at_last(side: Side) -> Case {
    let place = match side {
        Sender => "B6",
        Recorder => "W6",
    };
    let name = format!("Answer 7 at {place} after a time-out, failed wakes ignored");
    Case::on(name, Ring::SMALL)
        .asleep(side)
        .ask(Ask::TimeOut(side))
        .put(at_other(side), 8, too_far(side))
        .turns(side, 1)
        .asks([Ask::Failing(side, 22); 5])
}

/// The same after the sender's close.
fn corrupt_after_close() -> Case {
    Case::on("Answer 7 at W6 after a close, 11 is not given", Ring::SMALL)
        .pop(true, 8)
        .turns(Recorder, 1)
        .ask(Ask::Close(Sender))
        .turns(Sender, 3)
        .turns(Recorder, 1)
        .put(Header::AT_HEAD, 8, too_far(Recorder))
        .turns(Recorder, 6)
}

/// Differences of every size, and a try form.
fn far_apart(side: Side) -> Case {
    let name = format!(
        "Used is head less tail mod 2^64, {}: full, corrupt, empty",
        side.name()
    );
    let mut case = Case::on(name, Ring::SMALL);
    for value in [3, 2, 1, 0, 1 << 63, u64::MAX, u64::MAX - 1, u64::MAX - 2] {
        case = match side {
            Sender => case.push(false, 1, 1),
            Recorder => case.pop(false, 8),
        };
        // The turn after the look: a second step, or nothing at rest.
        case = case
            .put(at_other(side), 8, value)
            .turns(side, 1)
            .ask(Ask::Spurious(side))
            .turns(side, 1)
            .turns(side, 5);
    }
    case
}

const BAD_LENGTHS: [u64; 5] = [8, 9, 255, 256, 65_535];

/// A slot whose length is at or above the payload capacity, and a buffer of no bytes: 8 comes
/// before 15.
fn bad_slot(length: u64) -> Case {
    let name = format!("Answer 8 before 15: a slot's length is {length}, payload capacity 8");
    Case::on(name, Ring::SMALL)
        .sent(1)
        .put(Header::SIZE, 2, length)
        .pop(false, 0)
        .turns(Recorder, 3)
        .pop(true, 8)
        .turns(Recorder, 4)
        .put(Header::SIZE, 2, 3)
        .pop(false, 8)
        .turns(Recorder, 6)
}

fn too_small() -> Case {
    let mut case = Case::on(
        "Answer 15: tail stays, and the note comes later",
        Ring::SMALL,
    );
    case = case.push(false, 0xBEEF, 8).turns(Sender, 6);
    for length in [0, 1, 7] {
        case = case.pop(false, length).turns(Recorder, 3);
    }
    case.pop(true, 9).turns(Recorder, 4)
}

/// The slot header that one `sent` leaves: three bytes, tag 1.
const SENT: u64 = 0x1_0003;

/// One bit of a slot's header flipped, for a buffer of no bytes and for one of eight.
fn flipped(bit: u32) -> Case {
    let name = format!("C2: bit {bit} of a slot's header is flipped");
    Case::on(name, Ring::SMALL)
        .sent(1)
        .put(Header::SIZE, 8, SENT ^ 1 << bit)
        .pop(false, 0)
        .turns(Recorder, 2)
        .pop(true, 8)
        .turns(Recorder, 4)
}

fn past_the_payload() -> Case {
    Case::on("A pop ignores the bytes past the payload", Ring::SMALL)
        .sent(1)
        .put(Header::SIZE + 11, 5, 0xFF_FFFF_FFFF)
        .pop(false, 12)
        .turns(Recorder, 4)
        .sent(1)
        .sent(1)
}

/// From attach on a party uses its own sizes and options.
fn own_copy() -> Case {
    let case = Case::on(
        "The party uses its own copy of sizes and options",
        Ring::SMALL,
    )
    .put(Header::AT_MAGIC, 8, 0)
    .put(Header::AT_TOTAL_SIZE, 8, 1)
    .put(Header::AT_POWER, 1, 10)
    .put(Header::AT_SLOT_SIZE, 4, 8)
    .put(Header::AT_FLAGS, 4, 0xFFFF_FF86);
    let case = case.sent(2).pop(false, 8).turns(Recorder, 6);
    case.ask(Ask::Close(Recorder))
        .turns(Recorder, 3)
        .push(true, 5, 8)
        .turns(Sender, 4)
}

/// P4 and C4 see a counter that no run could have left there.
fn counters_seen_at_publish() -> Case {
    Case::on("P4 and C4: any counter of the other side", Ring::SMALL)
        .push(false, 1, 2)
        .turns(Sender, 3)
        .put(Header::AT_TAIL, 8, 77)
        .turns(Sender, 1)
        .put(Header::AT_TAIL, 8, 0)
        .pop(false, 8)
        .turns(Recorder, 3)
        .put(Header::AT_HEAD, 8, 2)
        .turns(Recorder, 3)
        .lend(Part::Payload, 0)
}

/// A bell at the end of its range is raised by a push, by a close and by a shutdown.
fn raised(bell: u32) -> Case {
    let name = format!("Bells wrap at 2^32: reading {}", bell as i32);
    Case::on(name, Ring::SMALL)
        .put(Header::AT_NE, 4, bell.into())
        .sent(1)
        .put(Header::AT_NE, 4, bell.into())
        .ask(Ask::Close(Sender))
        .turns(Sender, 3)
        .put(Header::AT_NE, 4, bell.into())
        .put(Header::AT_NF, 4, bell.into())
        .ask(Ask::Shutdown(Recorder))
        .turns(Recorder, 5)
}
