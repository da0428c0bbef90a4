//! Turns by which a party gives way to one who moves.
//!
//! They are the mended ones, but for turns in which a party does nothing but go to a step again, as
//! the other has moved since it last looked. That is remembered as a bit of its record.

use super::machine::Turns;
use crate::answer::Answer;
use crate::bench::Bench;
use crate::party::{CloseTurn, Party, ShutTurn, Side, Step};
use crate::rules::Mended;

/// What a party may see of a turn of the other's.
#[derive(Clone, Copy, PartialEq, Eq)]
pub enum Sign {
    /// Its counter moved.
    Published,
    /// It raised a bell.
    Rang,
    /// Nothing but that it took one.
    Moved,
}

pub trait GivesWay {
    /// The step that a party goes to instead, if it gives way.
    fn again(bench: &Bench, side: Side) -> Option<Step>;

    /// Whether a sign of the other's is kept in mind.
    fn minds(party: &Party, sign: Sign) -> bool {
        let _ = party;
        sign == Sign::Published
    }
}

/// A step that loads the other's counter.
fn looks(step: Step) -> bool {
    let waits = matches!(
        step,
        Step::B3 { .. } | Step::W3 { .. } | Step::B6 | Step::W6 { .. } | Step::Spin { .. }
    );
    waits || first_look(step) || checks(step)
}

pub fn first_look(step: Step) -> bool {
    matches!(step, Step::P1 | Step::C1)
}

pub fn copies(step: Step) -> bool {
    matches!(step, Step::P2 | Step::C2)
}

pub fn stores(step: Step) -> bool {
    matches!(step, Step::P3 | Step::C3 { .. })
}

pub fn checks(step: Step) -> bool {
    matches!(step, Step::P4 | Step::C4 { .. })
}

fn raises(step: Step) -> bool {
    matches!(
        step,
        Step::P5
            | Step::C5 { .. }
            | Step::Close(CloseTurn::Raise)
            | Step::Shut {
                turn: ShutTurn::RaiseNe | ShutTurn::RaiseNf,
                ..
            }
    )
}

pub fn has_moved(bench: &Bench, side: Side) -> bool {
    bench.party(side).moved == Some(true)
}

pub fn room(bench: &Bench, side: Side) -> u64 {
    let waiting = bench.sender.count.wrapping_sub(bench.recorder.count);
    match side {
        Side::Sender => bench.sender.capacity() - waiting,
        Side::Recorder => waiting,
    }
}

fn sign(before: &Party, after: &Party) -> Sign {
    if after.count != before.count {
        Sign::Published
    } else if raises(before.step) {
        Sign::Rang
    } else {
        Sign::Moved
    }
}

fn turn<R: GivesWay>(
    bench: &mut Bench,
    side: Side,
    takes: impl FnOnce(&mut Bench) -> Answer,
) -> Answer {
    let before = *bench.party(side);
    let again = R::again(bench, side);
    let forgets = looks(before.step) || again.is_some();
    bench.party_mut(side).moved = Some(!forgets && before.moved == Some(true));
    let answer = match again {
        Some(step) => {
            bench.party_mut(side).step = step;
            Answer::GoesOn
        }
        None => takes(bench),
    };
    let sign = sign(&before, bench.party(side));
    let other = bench.party_mut(side.other());
    if answer != Answer::Nothing && R::minds(other, sign) {
        other.moved = Some(true);
    }
    answer
}

pub fn turns<R: GivesWay>() -> Turns {
    Turns {
        sender: |bench, region, payload, failure| {
            turn::<R>(bench, Side::Sender, |bench| {
                bench.sender_turn(region, payload, failure)
            })
        },
        recorder: |bench, region, buffer, failure| {
            turn::<R>(bench, Side::Recorder, |bench| {
                bench.recorder_turn(region, buffer, failure)
            })
        },
        ..Turns::by::<Mended>()
    }
}
