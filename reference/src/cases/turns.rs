//! Cases of calls that run: the bound, both options, sleep and wakes.

use crate::cases::case::{Case, Ring, SIDES};
use crate::cases::record::Ask;
use crate::header::Header;
use crate::party::Side;
use Side::{Recorder, Sender};

pub fn list() -> Vec<Case> {
    let mut cases = vec![bound(), off(), off_ends(), off_shutdown(), unknown()];
    cases.extend(SIDES.map(sleeper));
    cases.extend(SIDES.map(failing_waits));
    cases.extend(SIDES.map(late_bell));
    cases.extend(SIDES.map(closes));
    cases.extend(SIDES.map(failing_closes));
    cases.extend(SIDES.map(shutdowns));
    cases.extend(SIDES.map(looks_again));
    cases.push(failing_notes());
    cases.push(own_close());
    cases
}

fn bound() -> Case {
    Case::on(
        "Reaching the bound: eleven turns at capacity 2",
        Ring::SMALL,
    )
    .pop(true, 8)
    .turns(Recorder, 1)
    .sent(2)
    .turns(Recorder, 8)
    .pop(true, 8)
    .turns(Recorder, 3)
}

fn off() -> Case {
    Case::on(
        "Answers 19 and 9, C3: not-full off, a blocking push, a full ring and a pop",
        Ring::OFF,
    )
    .push(true, 1, 3)
    .push(true, 1, 9)
    .sent(2)
    .push(false, 3, 8)
    .turns(Sender, 1)
    .pop(false, 8)
    .turns(Recorder, 4)
    .pop(true, 8)
    .turns(Recorder, 4)
    .pop(false, 8)
    .turns(Recorder, 2)
}

fn off_ends() -> Case {
    Case::on("Close recorder with not-full off: one turn", Ring::OFF)
        .ask(Ask::Close(Recorder))
        .turns(Recorder, 2)
        .ask(Ask::Close(Recorder))
        .push(false, 1, 1)
        .turns(Sender, 6)
        .ask(Ask::Close(Sender))
        .turns(Sender, 4)
}

fn off_shutdown() -> Case {
    Case::on("Shutdown with not-full off: both bells", Ring::OFF)
        .ask(Ask::Shutdown(Recorder))
        .turns(Recorder, 5)
        .pop(true, 8)
        .turns(Recorder, 2)
}

fn unknown() -> Case {
    Case::new("A kind that asks nothing").ask(Ask::Unknown(16))
}

fn sleeper(side: Side) -> Case {
    let name = format!(
        "Asleep, {}: 253, a spurious return, a time-out",
        side.name()
    );
    Case::on(name, Ring::SMALL)
        .ask(Ask::Spurious(side))
        .ask(Ask::TimeOut(side))
        .asleep(side)
        .turns(side, 2)
        .ask(Ask::Failing(side, 4))
        .ask(Ask::Spurious(side))
        .turns(side, 6)
        .ask(Ask::TimeOut(side))
        .turns(side, 2)
        .ask(Ask::TimeOut(side))
}

fn failing_waits(side: Side) -> Case {
    let name = format!(
        "A failed wait, {}: errors 4, 11, 110 and others",
        side.name()
    );
    let mut case = Case::on(name, Ring::SMALL).stuck(side);
    for error in [4, 11, 110, 1, 22, u16::MAX] {
        case = case
            .blocking_call(side)
            .asks([Ask::Failing(side, error); 6])
            .ask(Ask::Shutdown(side))
            .ask(Ask::TimeOut(side));
        // Back at the first step, the call is let sleep and then end; at the last look it ends.
        case = match error {
            4 | 11 => case.turns(side, 6).ask(Ask::TimeOut(side)).turns(side, 1),
            110 => case.turns(side, 2),
            _ => case.turns(side, 5),
        };
        case = case.put(Header::AT_FLAGS, 1, 0x47);
    }
    case
}

/// A bell that moves between epoch and wait, over its ends too.
fn late_bell(side: Side) -> Case {
    let at = match side {
        Sender => Header::AT_NF,
        Recorder => Header::AT_NE,
    };
    let name = format!(
        "B5 and W5, {}: the word differs from the epoch",
        side.name()
    );
    let mut case = Case::on(name, Ring::SMALL).stuck(side).blocking_call(side);
    for bell in [u32::MAX, 0, 0x7FFF_FFFF, 0x8000_0000] {
        case = case
            .put(at, 4, bell.wrapping_sub(1).into())
            .turns(side, 4)
            .put(at, 4, bell.into())
            .turns(side, 2);
    }
    case.put(at, 4, 0xFFFF_FFFF).turns(side, 6)
}

fn closes(side: Side) -> Case {
    let other = side.other();
    let name = format!("Close {}: the other wakes and answers 11", side.name());
    Case::on(name, Ring::SMALL)
        .asleep(other)
        .ask(Ask::Close(side))
        .turns(side, 4)
        .turns(other, 3)
        .ask(Ask::Close(side))
        .blocking_call(side)
        .ask(Ask::Shutdown(side))
        .turns(side, 5)
        .blocking_call(other)
        .turns(other, 3)
}

fn failing_closes(side: Side) -> Case {
    let other = side.other();
    let name = format!("Close {}: the wake fails and wakes nobody", side.name());
    Case::on(name, Ring::SMALL)
        .asleep(other)
        .ask(Ask::Close(side))
        .asks([Ask::Failing(side, 22); 4])
        .turns(other, 1)
}

/// The other is asleep as it begins: a failed wake leaves it there.
fn shutdowns(side: Side) -> Case {
    let other = side.other();
    let name = format!("Shutdown by the {}: the first failed wake", side.name());
    let mut case = Case::on(name, Ring::SMALL).stuck(other);
    for failing in [None, Some(2), Some(4), Some(0)] {
        case = case
            .blocking_call(other)
            .turns(other, 6)
            .ask(Ask::Shutdown(side));
        for turn in 0..5 {
            case = case.ask(match failing {
                Some(from) if turn >= from => Ask::Failing(side, 30 + turn),
                _ => Ask::Turn(side),
            });
        }
        case = case
            .turns(other, 2)
            .ask(Ask::TimeOut(other))
            .turns(other, 1)
            .put(Header::AT_FLAGS, 1, 0x47);
    }
    case
}

/// Flags that change between the two looks, shutdown before closed.
fn looks_again(side: Side) -> Case {
    let name = format!("B1, B4, W1 and W4, {}: 12 before 11", side.name());
    let mut case = Case::on(name, Ring::SMALL).stuck(side);
    for (before, flags) in [(1, 0x7F), (1, 0x5F), (4, 0x67), (4, 0x4F), (4, 0x57)] {
        case = case
            .blocking_call(side)
            .turns(side, before)
            .put(Header::AT_FLAGS, 1, flags)
            .turns(side, 2)
            .put(Header::AT_FLAGS, 1, 0x47)
            .turns(side, 4)
            .ask(Ask::TimeOut(side))
            .turns(side, 1);
    }
    case
}

fn failing_notes() -> Case {
    Case::on(
        "P6 and C6: a failed wake, the note sent or delivered",
        Ring::SMALL,
    )
    .push(false, 7, 8)
    .asks([Ask::Failing(Sender, 11); 6])
    .push(false, 8, 4)
    .turns(Sender, 4)
    .pop(false, 8)
    .asks([Ask::Failing(Recorder, 110); 6])
    .pop(false, 8)
    .turns(Recorder, 4)
}

fn own_close() -> Case {
    Case::on(
        "One's own close counts from the turn that sets its bit",
        Ring::SMALL,
    )
    .ask(Ask::Close(Sender))
    .push(false, 1, 1)
    .turns(Sender, 1)
    .push(false, 1, 1)
    .turns(Sender, 2)
    .push(false, 1, 1)
    .push(true, 1, 99)
    .put(Header::AT_FLAGS, 1, 0x5D)
    .ask(Ask::attach(Sender))
    .push(false, 1, 1)
    .turns(Sender, 6)
}
