//! What may happen in a state.

use super::machine::{sleeper, Event, State};
use super::meddling::Meddling;
use crate::answer::Bell;
use crate::party::{CloseTurn, Party, ShutTurn, Side, Step};
use crate::turn::{EINTR, ETIMEDOUT};

/// An error that is neither a spurious return nor a time-out.
const EINVAL: u16 = 22;

/// The bell that a party's next turn wakes on, if it is a wake.
fn wakes(party: &Party) -> Option<Bell> {
    match party.step {
        Step::P6 => Some(Bell::Ne),
        Step::C6 { .. } => Some(Bell::Nf),
        Step::Close(CloseTurn::WakeAll) => Some(party.side.other().sleeps_on()),
        Step::Shut { turn, .. } => match turn {
            ShutTurn::WakeNe => Some(Bell::Ne),
            ShutTurn::WakeNf => Some(Bell::Nf),
            ShutTurn::SetBit | ShutTurn::RaiseNe | ShutTurn::RaiseNf => None,
        },
        _ => None,
    }
}

/// Whether a meddling has something to meddle with.
fn open(state: &State, meddling: Meddling) -> bool {
    let pop = state.step(Side::Recorder);
    match meddling {
        Meddling::Slot => state.waiting() > 0,
        Meddling::BufferBeforeStore => matches!(pop, Step::C3 { .. }),
        Meddling::BufferAfterStore => {
            matches!(pop, Step::C4 { .. } | Step::C5 { .. } | Step::C6 { .. })
        }
        Meddling::BellBack => state.ne > 0,
        Meddling::HeadOn | Meddling::TailOn | Meddling::ShutBit => true,
    }
}

/// What an exploration offers beside turns, pushes and pops, in the try and the blocking form.
#[derive(Clone, Copy)]
pub struct Menu {
    pub closes: bool,
    pub shutdowns: bool,
    /// The errors that a wait may fail with, beside a time-out.
    pub waits_fail: &'static [u16],
    pub wakes_fail: bool,
    /// The sides whose sleep no failed wake may leave as it is.
    pub lands: &'static [Side],
    pub spurious: bool,
    /// Time-outs of a sleeper, and waits that fail with 110.
    pub time_outs: bool,
    pub meddling: &'static [Meddling],
}

impl Menu {
    /// Pushes and pops alone.
    pub const NOTES: Menu = Menu {
        closes: false,
        shutdowns: false,
        waits_fail: &[],
        wakes_fail: false,
        lands: &[],
        spurious: false,
        time_outs: false,
        meddling: &[],
    };

    pub const CALLS: Menu = Menu {
        closes: true,
        shutdowns: true,
        ..Menu::NOTES
    };

    /// All that T1 allows.
    pub const ALL: Menu = Menu {
        waits_fail: &[EINTR, EINVAL],
        wakes_fail: true,
        spurious: true,
        time_outs: true,
        ..Menu::CALLS
    };

    /// All that the premises of T2, T3 and T4 allow for a side that waits.
    pub fn fair(side: Side) -> Menu {
        Menu {
            lands: match side {
                Side::Sender => &[Side::Sender],
                Side::Recorder => &[Side::Recorder],
            },
            ..Menu::ALL
        }
    }

    /// The same for both sides at once.
    pub const FAIR: Menu = Menu {
        lands: &[Side::Sender, Side::Recorder],
        ..Menu::ALL
    };

    fn may_fail(&self, state: &State, bell: Bell) -> bool {
        let sleeper = sleeper(bell);
        let asleep = state.step(sleeper) == Step::Asleep;
        self.wakes_fail && !(asleep && self.lands.contains(&sleeper))
    }

    fn begins(&self, party: &Party) -> Vec<Event> {
        let mut events = match (party.side, party.closed) {
            (_, true) => Vec::new(),
            (Side::Sender, _) => vec![Event::Push { blocking: false }],
            (Side::Recorder, _) => vec![
                Event::Pop { blocking: true },
                Event::Pop { blocking: false },
            ],
        };
        if party.side == Side::Sender && !party.closed && party.not_full {
            events.push(Event::Push { blocking: true });
        }
        if self.closes && !party.closed {
            events.push(Event::Close(party.side));
        }
        if self.shutdowns {
            events.push(Event::Shutdown(party.side));
        }
        events
    }

    fn wakings(&self, side: Side) -> Vec<Event> {
        let mut events = Vec::new();
        if self.spurious {
            events.push(Event::Spurious(side));
        }
        if self.time_outs {
            events.push(Event::TimeOut(side));
        }
        events
    }

    fn waits(&self, side: Side) -> Vec<Event> {
        let errors = self.waits_fail.iter().copied();
        let time_out = self.time_outs.then_some(ETIMEDOUT);
        errors
            .chain(time_out)
            .map(|error| Event::Fails(side, error))
            .collect()
    }

    fn turns(&self, state: &State, party: &Party) -> Vec<Event> {
        let side = party.side;
        let mut events = vec![Event::Turn(side)];
        if matches!(party.step, Step::B5 { .. } | Step::W5 { .. }) {
            events.extend(self.waits(side));
        }
        if wakes(party).is_some_and(|bell| self.may_fail(state, bell)) {
            events.push(Event::Fails(side, EINVAL));
        }
        events
    }

    /// What a party may do itself. What would be refused is left out: it changes nothing.
    pub fn offers_to(&self, state: &State, side: Side) -> Vec<Event> {
        let party = state.bench.party(side);
        match party.step {
            Step::Rest => self.begins(party),
            Step::Asleep => self.wakings(side),
            _ => self.turns(state, party),
        }
    }

    pub fn offers(&self, state: &State) -> Vec<Event> {
        let mut events = self.offers_to(state, Side::Sender);
        events.extend(self.offers_to(state, Side::Recorder));
        let meddling = self
            .meddling
            .iter()
            .filter(|&&meddling| open(state, meddling));
        events.extend(meddling.map(|&meddling| Event::Meddles(meddling)));
        events
    }
}
