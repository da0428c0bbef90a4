//! Cases of the last look, B6 and W6: what came since the look before it is found.

use crate::cases::case::{Case, Ring, SIDES};
use crate::cases::record::Ask;
use crate::header::Header;
use crate::party::Side;
use Side::{Recorder, Sender};

pub fn list() -> Vec<Case> {
    let mut cases = vec![last_note("W1", 1), last_note("W4", 4)];
    cases.extend(SIDES.map(timed_out));
    cases.extend(SIDES.map(failed_with_110));
    cases.extend(SIDES.map(flags_after_time_out));
    cases.push(flags_after_close());
    cases
}

/// The last note and the close come between a pop's look at head and its look at the flags.
fn last_note(place: &str, before: usize) -> Case {
    let name = format!("{place} and W6: the last note, then the close; 11 comes after it");
    Case::on(name, Ring::SMALL)
        .pop(true, 8)
        .turns(Recorder, before)
        .sent(1)
        .ask(Ask::Close(Sender))
        .turns(Sender, 3)
        .turns(Recorder, 5)
        .pop(true, 8)
        .turns(Recorder, 3)
}

/// A try form of either side, as far as so many turns lead: three store its counter, and five
/// raise the bell where the other was blocked.
pub(super) fn begun(case: Case, side: Side, turns: usize) -> Case {
    let case = match side {
        Sender => case.push(false, 3, 4),
        Recorder => case.pop(false, 8),
    };
    case.turns(side, turns)
}

/// The other has stored its counter, and has not rung.
fn timed_out(side: Side) -> Case {
    let other = side.other();
    let name = format!("A time-out of the {}: what came meanwhile", side.name());
    let case = Case::on(name, Ring::SMALL).asleep(side);
    begun(case, other, 3)
        .ask(Ask::TimeOut(side))
        .turns(side, 4)
        .turns(other, 1)
}

/// The word differs from the epoch by then, and the wake that follows finds nobody asleep.
fn failed_with_110(side: Side) -> Case {
    let other = side.other();
    let name = format!("Error 110 of the {}: what came meanwhile", side.name());
    let case = Case::on(name, Ring::SMALL)
        .stuck(side)
        .blocking_call(side)
        .turns(side, 5);
    begun(case, other, 5)
        .ask(Ask::Failing(side, 110))
        .turns(other, 1)
        .turns(side, 4)
}

/// All three flags are set just before the last look: it does not see them.
fn flags_after_time_out(side: Side) -> Case {
    let name = format!(
        "Last look of the {} over all flags: 13 and not 12",
        side.name()
    );
    Case::on(name, Ring::SMALL)
        .asleep(side)
        .ask(Ask::TimeOut(side))
        .put(Header::AT_FLAGS, 1, 0x7F)
        .turns(side, 1)
}

/// A shutdown just before the last look: 11 over no note, and a note is delivered.
fn flags_after_close() -> Case {
    let mut case = Case::on(
        "W6 after a shutdown: 11 and not 12, and a note is delivered",
        Ring::SMALL,
    );
    for (notes, turns) in [(0, 1), (1, 4)] {
        case = case
            .put(Header::AT_FLAGS, 1, 0x4F)
            .pop(true, 8)
            .turns(Recorder, 2)
            .sent(notes)
            .put(Header::AT_FLAGS, 1, 0x6F)
            .turns(Recorder, turns);
    }
    case
}
