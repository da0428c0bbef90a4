//! A walk through all states, breadth first, so that the first run found is a shortest.

use std::collections::HashMap;

use super::claims::{Claim, Seen};
use super::machine::{Event, Machine, State};
use super::menu::Menu;
use super::normal::normal;
use crate::party::Side;

/// What is explored: the menu, the claims that are watched, and how many raises of a bell
/// since its epoch are told apart. 1 is enough where a bell does not come round: it then
/// differs from the epoch or does not.
#[derive(Clone, Copy)]
pub struct Walk<'a> {
    pub menu: Menu,
    pub claims: &'a [Claim],
    pub raises: u32,
}

/// A run from its first state, and the claim that its last event breaks.
#[derive(Clone, Debug, PartialEq, Eq)]
pub struct Run {
    pub events: Vec<Event>,
    pub claim: Claim,
}

/// What led from one state to another, by their places in the walk.
#[derive(Clone, Copy)]
pub struct Edge {
    pub from: usize,
    pub event: Event,
    pub to: usize,
    /// Whether it is a turn that counts: one that answers neither 20 nor 253.
    pub counts: bool,
    /// Whose note it publishes: sends or delivers.
    pub publishes: Option<Side>,
}

/// The states that a walk came to, in that order, all that led from one to another, and the
/// first run that broke a claim.
pub struct Explored {
    pub states: Vec<State>,
    pub edges: Vec<Edge>,
    pub broken: Option<Run>,
    places: HashMap<State, usize>,
    /// For each state but the first the one before it and the event that led on.
    origins: Vec<Option<(usize, Event)>>,
}

impl Explored {
    fn new(start: State) -> Self {
        Explored {
            states: vec![start],
            edges: Vec::new(),
            broken: None,
            places: HashMap::from([(start, 0)]),
            origins: vec![None],
        }
    }

    fn comes_to(&mut self, state: State, from: usize, event: Event) -> usize {
        let next = self.states.len();
        let place = *self.places.entry(state).or_insert(next);
        if place == next {
            self.states.push(state);
            self.origins.push(Some((from, event)));
        }
        place
    }

    /// The place of a state, if the walk came to it.
    pub fn place(&self, state: &State) -> Option<usize> {
        self.places.get(state).copied()
    }

    /// A shortest run to the state at a place.
    pub fn events_to(&self, mut at: usize) -> Vec<Event> {
        let mut events = Vec::new();
        while let Some((from, event)) = self.origins[at] {
            events.push(event);
            at = from;
        }
        events.reverse();
        events
    }

    /// Plays all that may happen in one state, up to the first broken claim.
    fn goes_on(&mut self, at: usize, walk: &Walk, machine: &mut Machine) -> Option<Run> {
        let before = self.states[at];
        for event in walk.menu.offers(&before) {
            let (after, answer) = machine.play(&before, event);
            let seen = Seen {
                before: &before,
                after: &after,
                event,
                answer,
            };
            if let Some(&claim) = walk.claims.iter().find(|claim| !claim.holds(&seen)) {
                let mut events = self.events_to(at);
                events.push(event);
                return Some(Run { events, claim });
            }
            let to = self.comes_to(normal(&after, machine.bell(), walk.raises), at, event);
            self.edges.push(Edge {
                from: at,
                event,
                to,
                counts: event.counts(answer),
                publishes: seen.publishes(),
            });
        }
        None
    }
}

impl Walk<'_> {
    /// Walks through all that a menu leads to, with no claim watched.
    pub fn all(machine: &mut Machine, menu: Menu) -> Explored {
        let walk = Walk {
            menu,
            claims: &[],
            raises: 1,
        };
        walk.from_start(machine)
    }

    pub fn from_start(&self, machine: &mut Machine) -> Explored {
        let start = machine.start();
        self.explore(machine, &start)
    }

    /// Walks through all that may follow a state, up to the first broken claim.
    pub fn explore(&self, machine: &mut Machine, start: &State) -> Explored {
        let mut explored = Explored::new(normal(start, machine.bell(), self.raises));
        let mut at = 0;
        while at < explored.states.len() && explored.broken.is_none() {
            explored.broken = explored.goes_on(at, self, machine);
            at += 1;
        }
        explored
    }
}
