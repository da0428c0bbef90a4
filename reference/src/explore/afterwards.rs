//! What may still come of a party that sleeps without cause.

use super::machine::{Machine, State};
use super::menu::Menu;
use super::search::Walk;
use crate::party::{Side, Step};

/// What may still come of a sleeper that no turn has woken.
pub struct Afterwards {
    pub states: usize,
    /// Whether no push or pop of the other's wakes it.
    pub for_good: bool,
    pub both_asleep: bool,
}

/// Follows a sleeper through all pushes and pops of the other's. A shutdown would wake it, but
/// nobody should have to shut down to get a note through.
pub fn afterwards(machine: &mut Machine, state: &State, sleeper: Side) -> Afterwards {
    let walk = Walk {
        menu: Menu::NOTES,
        claims: &[],
        raises: 1,
    };
    let states = walk.explore(machine, state).states;
    let asleep = |side: Side| move |state: &&State| state.step(side) == Step::Asleep;
    let sleeping = states.iter().filter(asleep(sleeper)).count();
    Afterwards {
        for_good: sleeping == states.len(),
        both_asleep: states
            .iter()
            .filter(asleep(sleeper))
            .any(|state| asleep(sleeper.other())(&state)),
        states: states.len(),
    }
}

fn calls_of(side: Side) -> &'static str {
    match side {
        Side::Sender => "pushes",
        Side::Recorder => "pops",
    }
}

/// The same in words; `state` is the one that was followed.
pub fn words(after: &Afterwards, state: &State, sleeper: Side) -> String {
    let other = sleeper.other();
    if !after.for_good {
        format!(
            "Some of the {}'s {} wake it.",
            other.name(),
            calls_of(other)
        )
    } else if state.bench.party(other).closed {
        format!(
            "For good: the {} has closed, and nothing but a shutdown is left to it.",
            other.name()
        )
    } else {
        let both = if after.both_asleep {
            "; in the end both sleep"
        } else {
            ""
        };
        format!(
            "For good: however the {} goes on with {}, none wakes it ({} states){both}.",
            other.name(),
            calls_of(other),
            after.states
        )
    }
}
