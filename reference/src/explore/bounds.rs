//! How many turns of its own a party may take while the other does nothing.

use std::collections::HashMap;

use super::machine::{Event, Machine, State};
use super::menu::Menu;
use super::normal::normal;
use super::search::Walk;
use crate::answer::Answer;
use crate::party::{Party, Side, Step};

/// A stretch of one party's own doings: what it may do, and where it has arrived.
#[derive(Clone, Copy)]
pub struct Stretch {
    pub side: Side,
    pub menu: Menu,
    pub arrived: fn(&State, Side) -> bool,
}

/// The most turns from a state, and the event that a longest stretch begins with.
#[derive(Clone, Copy)]
struct Most {
    turns: u32,
    event: Option<Event>,
}

/// Counts longest stretches. A state whose stretches are being counted has no number yet; to
/// come back to it is to go round for ever.
pub struct Counter<'a> {
    machine: &'a mut Machine,
    stretch: Stretch,
    known: HashMap<State, Option<Most>>,
}

impl<'a> Counter<'a> {
    pub fn new(machine: &'a mut Machine, stretch: Stretch) -> Self {
        Counter {
            machine,
            stretch,
            known: HashMap::new(),
        }
    }

    fn after(&mut self, state: &State, event: Event) -> (State, Answer) {
        let (after, answer) = self.machine.play(state, event);
        (normal(&after, self.machine.bell(), 1), answer)
    }

    /// The most turns of its own that the party takes before it has arrived; none if there is
    /// no such number.
    pub fn most(&mut self, state: &State) -> Option<u32> {
        if (self.stretch.arrived)(state, self.stretch.side) {
            return Some(0);
        }
        if let Some(known) = self.known.get(state) {
            return known.map(|most| most.turns);
        }
        self.known.insert(*state, None);
        let mut most = Most {
            turns: 0,
            event: None,
        };
        for event in self.stretch.menu.offers_to(state, self.stretch.side) {
            let (after, answer) = self.after(state, event);
            let turns = self.most(&after)? + u32::from(event.counts(answer));
            if most.event.is_none() || turns > most.turns {
                let event = Some(event);
                most = Most { turns, event };
            }
        }
        self.known.insert(*state, Some(most));
        Some(most.turns)
    }

    /// The steps of a longest stretch from a state whose stretches were counted.
    pub fn steps(&mut self, state: &State) -> Vec<Step> {
        let mut steps = Vec::new();
        let mut state = *state;
        while let Some(Some(Most {
            event: Some(event), ..
        })) = self.known.get(&state).copied()
        {
            let (after, answer) = self.after(&state, event);
            if event.counts(answer) {
                steps.push(state.step(self.stretch.side));
            }
            state = after;
        }
        steps
    }
}

/// The largest number of own turns over some states, and the steps of one such stretch.
pub struct Largest {
    pub turns: Option<u32>,
    pub steps: Vec<Step>,
}

/// Counts over all given states and keeps the largest; without bound is larger than any.
pub fn largest<'a>(
    machine: &mut Machine,
    stretch: Stretch,
    states: impl Iterator<Item = &'a State>,
) -> Largest {
    let mut counter = Counter::new(machine, stretch);
    let mut largest = Largest {
        turns: Some(0),
        steps: Vec::new(),
    };
    for state in states {
        match (counter.most(state), largest.turns) {
            (_, None) => break,
            (None, _) => largest.turns = None,
            (Some(turns), Some(most)) if turns > most => {
                largest.turns = Some(turns);
                largest.steps = counter.steps(state);
            }
            _ => {}
        }
    }
    largest
}

/// A party in a push or a pop, or between calls.
pub fn in_call(state: &State, side: Side) -> bool {
    !matches!(state.step(side), Step::Close(_) | Step::Shut { .. })
}

/// T2's turns beyond four for each note, by the other's room: where it has none, it is rung for the
/// first note; where it has one, it may have to be rung for that still.
pub fn slack(theirs: u64) -> u32 {
    match theirs {
        0 => 3,
        1 => 2,
        _ => 1,
    }
}

/// T2's number, which is the same for every spin count: a spin that finds room leads to the copy.
pub fn most_to_no_room(room: u64) -> u32 {
    4 * room as u32 + 3
}

/// T2's number by the other's room.
pub fn most_by_slack(room: u64, theirs: u64) -> u32 {
    4 * room as u32 + slack(theirs)
}

/// T4's number. The spins do not see what makes a party stop: the epoch, a look and the flags come
/// after them, and for a recorder a last look.
pub fn most_to_rest(side: Side, spins: u16) -> u32 {
    let after = match side {
        Side::Sender => 3,
        Side::Recorder => 4,
    };
    7.max(u32::from(spins) + after)
}

/// T9's number from any step of a wait: three turns to a wait that does not sleep, and then from
/// the look.
pub fn most_to_sleep(spins: u16) -> u32 {
    3 + most_from_look(spins)
}

/// T9's number from the look: the gate, the spins, and the four turns to sleep.
pub fn most_from_look(spins: u16) -> u32 {
    6 + u32::from(spins)
}

fn until_no_room(side: Side, menu: Menu) -> Stretch {
    Stretch {
        side,
        menu: Menu {
            closes: false,
            shutdowns: false,
            ..menu
        },
        arrived: |state, side| state.room(side) == 0,
    }
}

/// T2: the turns of a willing party alone until no room is left, for a room of `room`.
pub fn to_no_room(
    machine: &mut Machine,
    states: &[State],
    side: Side,
    menu: Menu,
    room: u64,
) -> Largest {
    let alone = |state: &&State| {
        state.is_still(side.other()) && in_call(state, side) && state.room(side) == room
    };
    let alone = states.iter().filter(alone);
    largest(machine, until_no_room(side, menu), alone)
}

/// The same with the other stopped at whatever step, for good.
pub fn to_no_room_stopped(
    machine: &mut Machine,
    states: &[State],
    side: Side,
    menu: Menu,
    room: u64,
) -> Largest {
    let there = |state: &&State| in_call(state, side) && state.room(side) == room;
    let there = states.iter().filter(there);
    largest(machine, until_no_room(side, menu), there)
}

/// T4: the turns of a party that must stop until its call has ended.
pub fn to_rest(machine: &mut Machine, states: &[State], side: Side, menu: Menu) -> Largest {
    let stretch = Stretch {
        side,
        menu,
        arrived: |state, side| state.step(side) == Step::Rest,
    };
    let stopping = |state: &&State| state.is_still(side.other()) && state.must_stop(side);
    largest(machine, stretch, states.iter().filter(stopping))
}

/// A party in a call that may sleep. At its last look it may not: that one ends, or copies.
fn in_wait(party: &Party) -> bool {
    let waits = matches!(
        party.step,
        Step::P1
            | Step::B1
            | Step::B2
            | Step::B3 { .. }
            | Step::B4 { .. }
            | Step::B5 { .. }
            | Step::C1
            | Step::W1
            | Step::W2
            | Step::W3 { .. }
            | Step::W4 { .. }
            | Step::W5 { .. }
            | Step::Spin { .. }
    );
    waits && party.blocking
}

/// T9: the turns of a party with no room, and no cause to stop, until it sleeps; no wait fails.
/// `from` picks the steps that are counted from.
pub fn to_sleep(
    machine: &mut Machine,
    states: &[State],
    side: Side,
    from: fn(Step) -> bool,
) -> Largest {
    let stretch = Stretch {
        side,
        menu: Menu::NOTES,
        arrived: |state, side| state.step(side) == Step::Asleep,
    };
    let drowsy = |state: &&State| {
        in_wait(state.bench.party(side))
            && from(state.step(side))
            && state.room(side) == 0
            && !state.must_stop(side)
    };
    largest(machine, stretch, states.iter().filter(drowsy))
}

/// All states that a menu leads to.
pub fn states(machine: &mut Machine, menu: Menu) -> Vec<State> {
    Walk::all(machine, menu).states
}
