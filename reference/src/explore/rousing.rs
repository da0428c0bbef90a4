//! Whoever sleeps over room, a close or a shutdown is being rung: where the other stands then, and
//! how soon it wakes the sleeper.

use super::amid::most_turns;
use super::machine::State;
use super::search::Explored;
use crate::party::{CloseTurn, ShutTurn, Side, Step};

/// Whether a party sleeps over room, a close or a shutdown.
pub fn oversleeps(state: &State, side: Side) -> bool {
    state.step(side) == Step::Asleep && (state.room(side) > 0 || state.must_stop(side))
}

/// In how many turns a party will have woken the other, which has so much room; none where it does
/// not stand at such a step.
fn ringing(side: Side, step: Step, room: u64) -> Option<u32> {
    match (step, side) {
        (Step::P4 | Step::C4 { .. }, _) if room == 1 => Some(3),
        (Step::P5 | Step::C5 { .. } | Step::Close(CloseTurn::Raise), _) => Some(2),
        (Step::P6 | Step::C6 { .. } | Step::Close(CloseTurn::WakeAll), _) => Some(1),
        (Step::Shut { turn, .. }, Side::Sender) => match turn {
            ShutTurn::RaiseNe => Some(2),
            ShutTurn::WakeNe => Some(1),
            ShutTurn::SetBit | ShutTurn::RaiseNf | ShutTurn::WakeNf => None,
        },
        (Step::Shut { turn, .. }, Side::Recorder) => match turn {
            ShutTurn::RaiseNe => Some(4),
            ShutTurn::WakeNe => Some(3),
            ShutTurn::RaiseNf => Some(2),
            ShutTurn::WakeNf => Some(1),
            ShutTurn::SetBit => None,
        },
        _ => None,
    }
}

/// In how many of the other's turns a sleeper is awake, by where the other stands.
pub fn rung_in(state: &State, sleeper: Side) -> Option<u32> {
    let other = sleeper.other();
    ringing(other, state.step(other), state.room(sleeper))
}

/// For every state whether somebody oversleeps and is not being rung.
pub fn left_asleep(explored: &Explored) -> Vec<bool> {
    let left = |state: &State, side| oversleeps(state, side) && rung_in(state, side).is_none();
    let wrong = |state: &State| left(state, Side::Sender) || left(state, Side::Recorder);
    explored.states.iter().map(wrong).collect()
}

/// The most turns of the other's, from every state, until a sleeper is awake.
pub fn to_wake(explored: &Explored, sleeper: Side) -> Vec<u32> {
    let awake = |state: &State| state.step(sleeper) != Step::Asleep;
    most_turns(explored, sleeper.other(), awake)
}
