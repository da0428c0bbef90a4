//! What a record led to, as far as document 01 tells such things apart.

use crate::answer::{name_of, Answer, Operation};
use crate::bench::Bench;
use crate::coverage::event::Event;
use crate::party::{Cause, CloseTurn, Party, ShutTurn, Side, Step};
use crate::script::{Kind, Record};
use crate::words;

/// A row of the table: a step, without what it carries.
#[derive(Clone, Copy, Debug, PartialEq, Eq, Hash)]
pub struct Place {
    pub side: Side,
    step: Step,
}

/// The steps that either side has.
const SHARED: [Step; 10] = {
    const fn shut(turn: ShutTurn) -> Step {
        let cause = Cause::Asked { first: None };
        Step::Shut { turn, cause }
    }
    [
        Step::Rest,
        Step::Asleep,
        Step::Close(CloseTurn::SetBit),
        Step::Close(CloseTurn::Raise),
        Step::Close(CloseTurn::WakeAll),
        shut(ShutTurn::SetBit),
        shut(ShutTurn::RaiseNe),
        shut(ShutTurn::WakeNe),
        shut(ShutTurn::RaiseNf),
        shut(ShutTurn::WakeNf),
    ]
};

const PUSH: [Step; 12] = [
    Step::P1,
    Step::P2,
    Step::P3,
    Step::P4,
    Step::P5,
    Step::P6,
    Step::B1,
    Step::B2,
    Step::B3 { epoch: 0 },
    Step::B4 { epoch: 0 },
    Step::B5 { epoch: 0 },
    Step::B6,
];

const POP: [Step; 12] = [
    Step::C1,
    Step::C2,
    Step::C3 { length: 0 },
    Step::C4 { length: 0 },
    Step::C5 { length: 0 },
    Step::C6 { length: 0 },
    Step::W1,
    Step::W2,
    Step::W3 { epoch: 0 },
    Step::W4 { epoch: 0 },
    Step::W5 { epoch: 0 },
    Step::W6 { timed_out: false },
];

impl Place {
    pub fn of(party: &Party) -> Self {
        let epoch = 0;
        let length = 0;
        let step = match party.step {
            Step::B3 { .. } => Step::B3 { epoch },
            Step::B4 { .. } => Step::B4 { epoch },
            Step::B5 { .. } => Step::B5 { epoch },
            Step::W3 { .. } => Step::W3 { epoch },
            Step::W4 { .. } => Step::W4 { epoch },
            Step::W5 { .. } => Step::W5 { epoch },
            Step::W6 { .. } => Step::W6 { timed_out: false },
            Step::Spin { .. } => Step::Spin { left: 0 },
            Step::C3 { .. } => Step::C3 { length },
            Step::C4 { .. } => Step::C4 { length },
            Step::C5 { .. } => Step::C5 { length },
            Step::C6 { .. } => Step::C6 { length },
            Step::Shut { turn, cause } => Step::Shut {
                turn,
                cause: match cause {
                    Cause::Asked { .. } => Cause::Asked { first: None },
                    Cause::Corruption => Cause::Corruption,
                },
            },
            bare => bare,
        };
        Place {
            side: party.side,
            step,
        }
    }

    /// Every step of document 01 that a side can stand at, but for those of a corruption and a
    /// spin: the script program's counters are never corrupt, and its parties do not spin.
    pub fn all(side: Side) -> impl Iterator<Item = Place> {
        let own = match side {
            Side::Sender => PUSH,
            Side::Recorder => POP,
        };
        let place = move |step| Place { side, step };
        own.into_iter().chain(SHARED).map(place)
    }

    /// The ways of a spin, from where to where. No script plays them, and the cases do.
    pub fn of_spins(side: Side) -> [(Place, Place); 5] {
        let (gate, epoch, copy) = match side {
            Side::Sender => (Step::B1, Step::B2, Step::P2),
            Side::Recorder => (Step::W1, Step::W2, Step::C2),
        };
        let spin = Step::Spin { left: 0 };
        let corruption = Step::Shut {
            turn: ShutTurn::SetBit,
            cause: Cause::Corruption,
        };
        [
            (gate, spin),
            (spin, spin),
            (spin, epoch),
            (spin, copy),
            (spin, corruption),
        ]
        .map(|(from, to)| (Place { side, step: from }, Place { side, step: to }))
    }

    pub fn name(&self) -> String {
        words::step(&Party {
            step: self.step,
            ..Party::unattached(self.side)
        })
    }
}

/// One way through the rules: where the party stood, what was asked, what was answered, where
/// the party then stands, and whether the other was woken.
#[derive(Clone, Copy, Debug, PartialEq, Eq, Hash)]
pub struct Way {
    pub from: Place,
    pub event: Event,
    pub answer: u8,
    /// The futex call that a 17 names.
    operation: Option<Operation>,
    to: Place,
    woke: bool,
}

impl Way {
    /// The ways of one record. A record of an unknown kind asks nobody, so it counts at the
    /// steps of both.
    pub fn of(
        record: &Record,
        answer: Answer,
        before: &Bench,
        after: &Bench,
    ) -> impl Iterator<Item = Way> {
        let sides = match Kind::of_number(record.kind) {
            Some(kind) => [Some(kind.side()), None],
            None => [Some(Side::Sender), Some(Side::Recorder)],
        };
        let event = Event::of(record);
        let way = |side: Side| {
            let other = |bench: &Bench| bench.party(side.other()).step == Step::Asleep;
            Way {
                from: Place::of(before.party(side)),
                event,
                answer: answer.number(),
                operation: match answer {
                    Answer::Syscall { operation, .. } => Some(operation),
                    _ => None,
                },
                to: Place::of(after.party(side)),
                woke: other(before) && !other(after),
            }
        };
        sides.map(|side| side.map(way)).into_iter().flatten()
    }

    pub fn words(&self) -> String {
        let mut words = format!(
            "{} {}, {}: {}",
            self.from.side.name(),
            self.from.name(),
            self.event.name(),
            name_of(self.answer).unwrap_or("unknown")
        );
        if let Some(operation) = self.operation {
            words.push_str(&format!(", {}", operation.name()));
        }
        words.push_str(&format!(", then {}", self.to.name()));
        if self.woke {
            words.push_str(", the other woken");
        }
        words
    }
}
