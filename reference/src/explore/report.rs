//! What an exploration answers with: lines to read, and whether all came as it should.

use super::afterwards::{afterwards, words};
use super::claims::Claim;
use super::machine::{Event, Machine, State};
use super::search::{Explored, Walk};
use super::story;

pub struct Report {
    pub words: String,
    /// Whether every loss that was looked for was found, and every claim that should be kept
    /// was kept.
    pub well: bool,
}

/// The claim that a run broke, and whether it stays broken: a sleeper may still be woken.
pub struct End {
    pub claim: Claim,
    pub for_good: bool,
}

impl Report {
    pub fn new(words: String) -> Self {
        Report { words, well: true }
    }

    pub fn line(&mut self, line: &str) {
        self.words.push_str(line);
        self.words.push('\n');
    }

    /// Looks for a shortest run that breaks a claim and tells it. Not to find one is amiss.
    pub fn run(&mut self, machine: &mut Machine, walk: &Walk) -> Option<End> {
        let explored = walk.from_start(machine);
        let Some(run) = explored.broken else {
            let states = explored.states.len();
            self.line(&format!("No such run: nothing broken in {states} states."));
            self.well = false;
            return None;
        };
        self.line("A shortest run of this kind:\n");
        let state = self.story(machine, &run.events);
        self.line(&format!("Broken: {}.", run.claim.name()));
        let for_good = self.later(machine, &state, run.claim);
        let claim = run.claim;
        Some(End { claim, for_good })
    }

    /// Tells events from the machine's start, and where they lead.
    pub fn story(&mut self, machine: &mut Machine, events: &[Event]) -> State {
        let (lines, state) = story::tell(machine, events);
        self.line(&lines);
        self.line(&format!("At the end: {}.", story::stands(&state)));
        state
    }

    /// Tells a shortest run to the first state of a walk that is as it should not be.
    pub fn run_to(&mut self, machine: &mut Machine, explored: &Explored, wrong: &[bool]) {
        match wrong.iter().position(|&wrong| wrong) {
            Some(place) => {
                self.line("A shortest run of this kind:\n");
                self.story(machine, &explored.events_to(place));
            }
            None => {
                let states = explored.states.len();
                self.line(&format!("No such run: nothing broken in {states} states."));
                self.well = false;
            }
        }
    }

    /// Tells what may still come of a sleeper, if the claim is about one.
    fn later(&mut self, machine: &mut Machine, state: &State, claim: Claim) -> bool {
        let Claim::Cause(sleeper) = claim else {
            return true;
        };
        let after = afterwards(machine, state, sleeper);
        self.line(&words(&after, state, sleeper));
        after.for_good
    }
}
