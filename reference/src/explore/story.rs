//! A run told turn by turn: who, at which step, what was read or stored, what was answered.

use super::machine::{sleeper, Event, Machine, State};
use super::meddling::Meddling;
use crate::answer::{Answer, Bell};
use crate::header::Header;
use crate::party::{CloseTurn, ShutTurn, Side, Step};
use crate::region::{self, Fill};
use crate::words;

/// An event with the states around it.
struct Scene<'a> {
    before: &'a State,
    after: &'a State,
    event: Event,
    answer: Answer,
    /// The bits that a bell has.
    bell: u32,
}

fn fill_words(fill: Fill, used: u64) -> String {
    match fill {
        Fill::Empty => "empty".into(),
        Fill::Between => format!("{used} used"),
        Fill::Full => "full".into(),
        Fill::Corrupt => "corrupt".into(),
    }
}

fn flags_words(flags: u32) -> String {
    let names = [
        (Header::SENDER_CLOSED, "sender closed"),
        (Header::RECORDER_CLOSED, "recorder closed"),
        (Header::SHUTDOWN, "shut down"),
    ];
    let set: Vec<&str> = names
        .into_iter()
        .filter(|&(bit, _)| flags & bit != 0)
        .map(|(_, name)| name)
        .collect();
    match set.is_empty() {
        true => "nobody closed".into(),
        false => set.join(", "),
    }
}

impl Scene<'_> {
    fn bell_of(&self, state: &State, bell: Bell) -> u32 {
        state.bell(bell) & self.bell
    }

    fn failure(&self) -> Option<u16> {
        match self.event {
            Event::Fails(_, error) => Some(error),
            _ => None,
        }
    }

    /// The other side's counter as it was loaded, and what the party makes of it.
    fn loads(&self, side: Side) -> String {
        let party = self.before.bench.party(side);
        let (name, loaded, head, tail) = match side {
            Side::Sender => ("tail", self.before.tail, party.count, self.before.tail),
            Side::Recorder => ("head", self.before.head, self.before.head, party.count),
        };
        let fill = region::fill(head, tail, party.power);
        let used = fill_words(fill, head.wrapping_sub(tail));
        format!("loads {name} {loaded}: {used}")
    }

    /// The load that decides whether to ring.
    fn decides(&self, side: Side) -> String {
        let party = self.after.bench.party(side);
        let rings = party.rings || matches!(party.step, Step::P5 | Step::C5 { .. });
        let was = if rings { "was" } else { "was not" };
        match side {
            Side::Sender => format!("loads tail {}: the ring {was} empty", self.before.tail),
            Side::Recorder => format!("loads head {}: the ring {was} full", self.before.head),
        }
    }

    fn raises(&self, bell: Bell) -> String {
        format!(
            "raises {} to {}",
            bell.name(),
            self.bell_of(self.after, bell)
        )
    }

    fn wakes(&self, count: &str, bell: Bell) -> String {
        let sleeper = sleeper(bell);
        let asleep = |state: &State| state.step(sleeper) == Step::Asleep;
        let name = sleeper.name();
        let what = match (self.failure(), asleep(self.before)) {
            (Some(error), true) => format!("fails with {error}, and the {name} sleeps on"),
            (Some(error), false) => format!("fails with {error}; nobody sleeps there"),
            (None, true) => format!("the {name} wakes"),
            (None, false) => "nobody sleeps there".into(),
        };
        format!("wakes {count} on {}: {what}", bell.name())
    }

    fn waits(&self, side: Side, epoch: u32) -> String {
        let bell = side.sleeps_on();
        let word = self.bell_of(self.before, bell);
        let what = match (self.failure(), self.after.step(side)) {
            (Some(error), _) => format!("fails with {error}"),
            (None, Step::Asleep) => format!("{word}, the epoch still: sleeps"),
            _ => format!("{word}, no longer the epoch {}", epoch & self.bell),
        };
        format!("waits on {}: {what}", bell.name())
    }

    fn closes(&self, side: Side, turn: CloseTurn) -> String {
        let bell = side.other().sleeps_on();
        match turn {
            CloseTurn::SetBit => format!("sets its closed bit: {}", flags_words(self.after.flags)),
            CloseTurn::Raise => self.raises(bell),
            CloseTurn::WakeAll => self.wakes("all", bell),
        }
    }

    fn shuts(&self, turn: ShutTurn) -> String {
        match turn {
            ShutTurn::SetBit => format!("sets bit 5: {}", flags_words(self.after.flags)),
            ShutTurn::RaiseNe => self.raises(Bell::Ne),
            ShutTurn::WakeNe => self.wakes("all", Bell::Ne),
            ShutTurn::RaiseNf => self.raises(Bell::Nf),
            ShutTurn::WakeNf => self.wakes("all", Bell::Nf),
        }
    }

    fn copies(&self, side: Side) -> String {
        let party = self.before.bench.party(side);
        let slot = self.before.slot_of(party.count);
        let note = self.after.ring[slot];
        match side {
            Side::Sender => format!("copies note {note} into slot {slot}"),
            Side::Recorder => format!("copies note {note} out of slot {slot}"),
        }
    }

    /// What a turn did to shared memory.
    fn access(&self, side: Side) -> String {
        match self.before.step(side) {
            Step::Rest | Step::Asleep => "does nothing".into(),
            Step::P1 | Step::B3 { .. } | Step::B6 => self.loads(side),
            Step::C1 | Step::W3 { .. } | Step::W6 { .. } | Step::Spin { .. } => self.loads(side),
            Step::P2 | Step::C2 => self.copies(side),
            Step::P3 => format!("stores head {}: the note is sent", self.after.head),
            Step::C3 { .. } => format!(
                "stores tail {}: note {} is delivered",
                self.after.tail, self.before.buffer
            ),
            Step::P4 | Step::C4 { .. } => self.decides(side),
            Step::P5 | Step::C5 { .. } => self.raises(side.other().sleeps_on()),
            Step::P6 | Step::C6 { .. } => self.wakes("one", side.other().sleeps_on()),
            Step::B1 | Step::B4 { .. } | Step::W1 | Step::W4 { .. } => {
                format!("loads flags: {}", flags_words(self.before.flags))
            }
            Step::B2 | Step::W2 => {
                let bell = side.sleeps_on();
                let epoch = self.bell_of(self.before, bell);
                format!("loads {} as epoch: {epoch}", bell.name())
            }
            Step::B5 { epoch } | Step::W5 { epoch } => self.waits(side, epoch),
            Step::Close(turn) => self.closes(side, turn),
            Step::Shut { turn, .. } => self.shuts(turn),
        }
    }

    fn meddles(&self, meddling: Meddling) -> String {
        let state = self.after;
        match meddling {
            Meddling::Slot => {
                let slot = state.slot_of(state.tail);
                format!("writes note {} into slot {slot}", state.ring[slot])
            }
            Meddling::HeadOn => format!("stores head {}", state.head),
            Meddling::TailOn => format!("stores tail {}", state.tail),
            Meddling::BellBack => format!("puts NE back to {}", state.ne),
            Meddling::ShutBit => format!("sets bit 5: {}", flags_words(state.flags)),
            Meddling::BufferBeforeStore | Meddling::BufferAfterStore => {
                format!("writes {} into the pop's buffer", state.buffer)
            }
        }
    }

    fn what(&self) -> String {
        let form = |blocking| if blocking { "blocking" } else { "try" };
        match self.event {
            Event::Turn(side) | Event::Fails(side, _) => self.access(side),
            Event::Spurious(_) => "returns from its wait without a wake".into(),
            Event::TimeOut(_) => "sleeps until its time is over".into(),
            Event::Push { blocking } => {
                format!(
                    "begins a {} push of note {}",
                    form(blocking),
                    self.before.sent
                )
            }
            Event::Pop { blocking } => format!("begins a {} pop", form(blocking)),
            Event::Close(_) => "begins a close".into(),
            Event::Shutdown(_) => "begins a shutdown".into(),
            Event::Meddles(meddling) => self.meddles(meddling),
        }
    }

    /// The step's name; a turn of a close or a shutdown is told by what it does.
    fn step(&self, side: Side) -> String {
        let turn = matches!(self.event, Event::Turn(_) | Event::Fails(..));
        match self.before.step(side) {
            _ if !turn => String::new(),
            Step::Close(_) => "close".into(),
            Step::Shut { .. } => "shut".into(),
            _ => words::step(self.before.bench.party(side)),
        }
    }

    fn told(&self, number: usize) -> String {
        let Some(side) = self.event.side() else {
            return format!("{number:4}  stranger         {}\n", self.what());
        };
        let answer = match self.answer {
            Answer::Delivered { tag, .. } => {
                format!("Done, tag {tag}, buffer {}", self.after.buffer)
            }
            other => words::answer(other, &[]),
        };
        let (who, step, what) = (side.name(), self.step(side), self.what());
        format!("{number:4}  {who:<8}  {step:<5}  {what:<58}  {answer}\n")
    }
}

/// Plays events from the machine's start, tells each, and gives the state at the end.
pub fn tell(machine: &mut Machine, events: &[Event]) -> (String, State) {
    let mut lines = String::new();
    let mut before = machine.start();
    for (number, &event) in (1..).zip(events) {
        let (after, answer) = machine.play(&before, event);
        let scene = Scene {
            before: &before,
            after: &after,
            event,
            answer,
            bell: machine.bell(),
        };
        lines.push_str(&scene.told(number));
        before = after;
    }
    (lines, before)
}

/// Where a state leaves its parties, in one sentence.
pub fn stands(state: &State) -> String {
    let party = |side: Side| match state.step(side) {
        Step::Rest => format!("the {} is between calls", side.name()),
        Step::Asleep => format!("the {} sleeps", side.name()),
        _ => format!(
            "the {} stands at {}",
            side.name(),
            words::step(state.bench.party(side))
        ),
    };
    format!(
        "{} sent, {} delivered, {} in the ring; {}; {}; {}",
        state.sent,
        state.got,
        state.waiting(),
        flags_words(state.flags),
        party(Side::Sender),
        party(Side::Recorder),
    )
}
