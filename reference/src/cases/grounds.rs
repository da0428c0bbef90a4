//! Cases of answer 20: each of its grounds, at rest, in a call and asleep.

use crate::cases::case::{Case, Ring, SIDES};
use crate::cases::record::{Ask, Part, Terms};
use crate::header::Header;
use crate::party::Side;
use crate::region::{MOST_POWER, MOST_SLOT_SIZE, MOST_SPINS};
use Side::{Recorder, Sender};

pub fn list() -> Vec<Case> {
    let mut cases = vec![nobody_attached()];
    for side in SIDES {
        for stance in STANCES {
            cases.push(spoiled(side, stance));
            cases.push(other_lengths(side, stance));
        }
        cases.push(cut_totals(side));
        cases.push(while_it_runs(side));
        cases.push(at_last_look(side));
        cases.push(copies(side));
    }
    cases.push(any_length());
    cases
}

/// Where a party stands when it is asked.
#[derive(Clone, Copy)]
pub(super) enum Stance {
    Rest,
    Call,
    Asleep,
}

const STANCES: [Stance; 3] = [Stance::Rest, Stance::Call, Stance::Asleep];

impl Stance {
    fn name(self) -> &'static str {
        match self {
            Stance::Rest => "at rest",
            Stance::Call => "in a call",
            Stance::Asleep => "asleep",
        }
    }

    fn reach(self, case: Case, side: Side) -> Case {
        match self {
            Stance::Rest => case,
            Stance::Call => case.blocking_call(side),
            Stance::Asleep => case.asleep(side),
        }
    }
}

fn push(blocking: bool, length: u32) -> Ask {
    Ask::Push {
        blocking,
        tag: 3,
        length,
    }
}

/// A begin of a push or a pop, as the side has it.
fn begin(side: Side) -> Ask {
    match side {
        Sender => push(false, 1),
        Recorder => Ask::Pop {
            blocking: false,
            length: 8,
        },
    }
}

/// All that may be asked of a side.
pub(super) fn entries(side: Side) -> [Ask; 8] {
    [
        Ask::Turn(side),
        Ask::Failing(side, 5),
        Ask::Failing(side, 0),
        Ask::Spurious(side),
        Ask::TimeOut(side),
        begin(side),
        Ask::Close(side),
        Ask::Shutdown(side),
    ]
}

fn nobody_attached() -> Case {
    Case::new("Answer 20: party not attached")
        .lend(Part::Region, Ring::SMALL.total())
        .ask(Ring::SMALL.create())
        .asks(SIDES.into_iter().flat_map(entries))
}

/// A record in its limits: that of the ring, and of the calls that a stance is reached by.
pub(super) fn good(side: Side, stance: Stance) -> Terms {
    let length = match (side, stance) {
        (_, Stance::Rest) => 0,
        (Recorder, _) => 8,
        (Sender, _) => 5,
    };
    Terms {
        side,
        attached: true,
        power: Ring::SMALL.power,
        slot_size: Ring::SMALL.slot_size,
        length,
        spins: 0,
    }
}

/// Each field out of its limits.
fn bad(good: Terms) -> Vec<Terms> {
    let mut bad = vec![
        Terms {
            attached: false,
            ..good
        },
        Terms {
            side: good.side.other(),
            ..good
        },
    ];
    bad.extend([0, MOST_POWER + 1, 255].map(|power| Terms { power, ..good }));
    bad.extend([0, 12, MOST_SLOT_SIZE + 8, u32::MAX].map(|slot_size| Terms { slot_size, ..good }));
    bad.push(Terms {
        spins: MOST_SPINS + 1,
        ..good
    });
    // A pop may name any length, and then what is asked is done.
    if good.side == Sender {
        bad.extend([9, u32::MAX].map(|length| Terms { length, ..good }));
    }
    bad
}

/// Each field out of its limits, and then as it was.
fn spoiled(side: Side, stance: Stance) -> Case {
    let name = format!(
        "Answer 20: a record out of its limits, {} {}",
        side.name(),
        stance.name()
    );
    let good = good(side, stance);
    let mut case = stance.reach(Case::on(name, Ring::SMALL), side);
    for bad in bad(good) {
        case = case.ask(Ask::Spoil(side, bad)).asks(entries(side));
    }
    case.ask(Ask::Spoil(side, good)).turns(side, 1)
}

/// A region of another length is 20 at every turn, at rest and asleep too; nothing else looks
/// at it.
fn other_lengths(side: Side, stance: Stance) -> Case {
    let total = Ring::SMALL.total();
    let name = format!(
        "Answer 20: wrong region length, {} {}",
        side.name(),
        stance.name()
    );
    let mut case = stance.reach(Case::on(name, Ring::SMALL), side);
    for length in [0, 383, 384, total - 1, total + 1, Case::PATTERNED] {
        case = case
            .lend(Part::Region, length)
            .ask(Ask::Turn(side))
            .ask(Ask::Failing(side, 5));
    }
    case.lend(Part::Region, total)
        .turns(side, 1)
        .ask(Ask::Spurious(side))
}

/// A region of the header alone is not what a record with such sizes speaks of.
fn cut_totals(side: Side) -> Case {
    let name = format!(
        "Answer 20: sizes of the {} whose total is 384 in 32 bits",
        side.name()
    );
    let good = good(side, Stance::Call);
    let mut case = Stance::Call.reach(Case::on(name, Ring::SMALL), side);
    for (power, slot_size) in Ring::CUT {
        let cut = Terms {
            power,
            slot_size,
            length: 0,
            ..good
        };
        case = case
            .ask(Ask::Spoil(side, cut))
            .lend(Part::Region, Header::SIZE as u32)
            .turns(side, 1);
    }
    case.ask(Ask::Spoil(side, good))
        .lend(Part::Region, Ring::SMALL.total())
        .turns(side, 1)
}

/// At every step of a call that sleeps and then copies: what is begun meanwhile, an announced
/// error 0, and what only a sleeper hears.
fn while_it_runs(side: Side) -> Case {
    let other = side.other();
    let name = format!(
        "Answer 20: begun while a call of the {} runs; error 0",
        side.name()
    );
    let mut case = Case::on(name, Ring::SMALL).stuck(side).blocking_call(side);
    let meanwhile = [
        begin(side),
        Ask::Close(side),
        Ask::Shutdown(side),
        Ask::Failing(side, 0),
    ];
    for _ in 0..6 {
        case = case.asks(meanwhile).ask(Ask::TimeOut(side)).turns(side, 1);
    }
    case = case.asks(meanwhile);
    case = match other {
        Sender => case.sent(1),
        Recorder => case.pop(false, 8).turns(Recorder, 6),
    };
    for _ in 0..6 {
        case = case.asks(meanwhile).turns(side, 1);
    }
    case
}

/// The grounds of 20 at the last look, and what only a sleeper hears. Its turn makes no futex
/// call, so an announced failure is ignored there.
fn at_last_look(side: Side) -> Case {
    let total = Ring::SMALL.total();
    let name = format!("Answers 20 and 253 at the last look of the {}", side.name());
    let good = good(side, Stance::Asleep);
    let stranger = Terms {
        attached: false,
        ..good
    };
    Case::on(name, Ring::SMALL)
        .asleep(side)
        .ask(Ask::TimeOut(side))
        .asks(entries(side).into_iter().skip(2))
        .lend(Part::Region, total - 1)
        .turns(side, 1)
        .lend(Part::Region, total)
        .ask(Ask::Spoil(side, stranger))
        .turns(side, 1)
        .ask(Ask::TimeOut(side))
        .ask(Ask::Spoil(side, good))
        .ask(Ask::Failing(side, 22))
}

/// A copy turn lent a buffer of another length than the call named.
fn copies(side: Side) -> Case {
    let (part, named) = match side {
        Sender => (Part::Payload, 5),
        Recorder => (Part::Buffer, 8),
    };
    let name = format!(
        "Answer 20: a copy of the {} lent another length",
        side.name()
    );
    let case = Case::on(name, Ring::SMALL);
    let mut case = match side {
        Sender => case,
        Recorder => case.sent(1),
    };
    case = case.blocking_call(side);
    let wrong = [0, named - 1, named + 1, 65_536];
    // At the look it does not matter.
    case = case.lend(part, 0).turns(side, 1);
    for length in wrong {
        case = case
            .lend(part, length)
            .ask(Ask::Turn(side))
            .ask(Ask::Failing(side, 5));
    }
    case.lend(part, named)
        .turns(side, 1)
        .lend(part, 0)
        .turns(side, 4)
}

/// Begin order and lengths at the type's ends.
fn any_length() -> Case {
    Case::on(
        "Begin order 20, 11, 19, 18; a pop may name any length",
        Ring::OFF,
    )
    .ask(push(true, 9))
    .ask(push(false, 9))
    .ask(push(false, u32::MAX))
    .ask(Ask::Pop {
        blocking: true,
        length: u32::MAX,
    })
    .turns(Recorder, 6)
    .ask(Ask::Close(Sender))
    .turns(Sender, 3)
    .ask(push(true, 9))
    .ask(push(false, 9))
    .ask(Ask::Spoil(
        Sender,
        Terms {
            length: 9,
            ..good(Sender, Stance::Rest)
        },
    ))
    .ask(push(true, 9))
    .ask(Ask::Shutdown(Sender))
}
