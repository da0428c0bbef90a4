//! Cases of spins, S: so many loads of the other side's counter before the epoch is read.

use crate::cases::case::{Case, Ring, SIDES};
use crate::cases::damage::{at_other, too_far};
use crate::cases::grounds::{entries, good, Stance};
use crate::cases::headers::damages;
use crate::cases::last_looks::begun;
use crate::cases::record::{Ask, Part, Terms};
use crate::header::Header;
use crate::party::Side;
use crate::region::MOST_SPINS;
use Side::{Recorder, Sender};

pub fn list() -> Vec<Case> {
    let mut cases = Vec::new();
    for side in SIDES {
        cases.extend([1, 2].map(|spins| spun(side, spins)));
        cases.push(most(side));
        cases.extend([0, 1, 2].map(|before| found(side, before)));
        cases.push(corrupt(side));
        let other = side.other();
        cases.extend([Ask::Close(other), Ask::Shutdown(other)].map(|ends| ended(side, ends)));
        cases.push(rung(side));
        cases.push(at_spin(side));
        cases.push(spoiled(side));
        cases.push(refused_first(side));
    }
    cases.push(sweeps());
    cases
}

/// The counts that no attach takes, and no record may hold.
const TOO_MANY: [u16; 2] = [MOST_SPINS + 1, u16::MAX];

/// The least ring there is, for cases of many records.
const LEAST: Ring = Ring {
    slot_size: 8,
    ..Ring::SMALL
};

/// A blocking call with no room that has taken so many spins of `spins`: the look and the gate
/// come before them.
fn spinning(name: String, side: Side, spins: u16, taken: usize) -> Case {
    Case::spinning(name, Ring::SMALL, spins)
        .stuck(side)
        .blocking_call(side)
        .turns(side, 2 + taken)
}

/// All the spins, and the four steps to sleep; once more after a spurious return, and then the
/// other's call wakes it.
fn spun(side: Side, spins: u16) -> Case {
    let name = format!("Spins of the {}: {spins}, then the epoch", side.name());
    let to_sleep = usize::from(spins) + 4;
    let case = spinning(name, side, spins, 0)
        .turns(side, to_sleep)
        .ask(Ask::Spurious(side))
        .turns(side, 2 + to_sleep);
    begun(case, side.other(), 6).turns(side, 4)
}

/// As many spins as there may be: a push over a full ring, a pop over an empty one.
fn most(side: Side) -> Case {
    let name = format!("Spins of the {}: {MOST_SPINS}, then the epoch", side.name());
    let case = Case::spinning(name, LEAST, MOST_SPINS);
    let case = match side {
        // Head is 0, so this is full.
        Sender => case.put(Header::AT_TAIL, 8, u64::MAX - 1).push(true, 1, 0),
        Recorder => case.pop(true, 0),
    };
    case.turns(side, usize::from(MOST_SPINS) + 6)
}

/// The other stores its counter while the call spins: the next spin finds it, and the epoch is
/// not read.
fn found(side: Side, before: usize) -> Case {
    let which = ["first", "second", "last"][before];
    let name = format!("The {which} of 3 spins of the {} finds room", side.name());
    let case = spinning(name, side, 3, before);
    begun(case, side.other(), 3)
        .turns(side, 4)
        .turns(side.other(), 1)
}

fn corrupt(side: Side) -> Case {
    let name = format!(
        "Answer 7 at a spin of the {}, failed wakes ignored",
        side.name()
    );
    spinning(name, side, 3, 1)
        .put(at_other(side), 8, too_far(side))
        .turns(side, 1)
        .asks([Ask::Failing(side, 22); 5])
}

/// The other closes or shuts down while the call spins: spins do not look at the flags, and the
/// call goes on to its second look at them.
fn ended(side: Side, ends: Ask) -> Case {
    let place = match side {
        Sender => "B4",
        Recorder => "W4",
    };
    let name = format!("{place}: {} while the {} spins", ends.words(), side.name());
    spinning(name, side, 2, 1)
        .ask(ends)
        .turns(side.other(), 5)
        .turns(side, 5)
}

/// A bell raised during the spins is in the epoch already, so the call sleeps.
fn rung(side: Side) -> Case {
    let at = match side {
        Sender => Header::AT_NF,
        Recorder => Header::AT_NE,
    };
    let name = format!("The {} reads its epoch after its last spin", side.name());
    spinning(name, side, 2, 1).put(at, 4, 7).turns(side, 5)
}

/// The grounds of 20 at a spin, and what only a sleeper hears. Its turn makes no futex call, so
/// an announced failure is ignored there.
fn at_spin(side: Side) -> Case {
    let total = Ring::SMALL.total();
    let name = format!("Answers 20 and 253 at a spin of the {}", side.name());
    let good = Terms {
        spins: 2,
        ..good(side, Stance::Call)
    };
    let stranger = Terms {
        attached: false,
        ..good
    };
    spinning(name, side, 2, 0)
        .asks(entries(side).into_iter().skip(2))
        .lend(Part::Region, total - 1)
        .turns(side, 1)
        .lend(Part::Region, total)
        .ask(Ask::Spoil(side, stranger))
        .turns(side, 1)
        .ask(Ask::Spoil(side, good))
        .asks([Ask::Failing(side, 22); 3])
}

/// A record with a count above the limit at a spin: 20 whatever is asked. With the largest count
/// and with none it goes on, by the spins that its step has left.
fn spoiled(side: Side) -> Case {
    let name = format!("Answer 20: a spin count out of its limits, {}", side.name());
    let with = |spins| {
        let good = good(side, Stance::Call);
        Ask::Spoil(side, Terms { spins, ..good })
    };
    let mut case = spinning(name, side, 3, 0);
    for spins in TOO_MANY {
        case = case.ask(with(spins)).asks(entries(side));
    }
    case.ask(with(MOST_SPINS))
        .turns(side, 1)
        .ask(with(0))
        .turns(side, 6)
        // Asleep, and from its gate on by the count that the record then has.
        .ask(with(2))
        .ask(Ask::Spurious(side))
        .turns(side, 5)
}

fn attaches(side: Side) -> impl Iterator<Item = Ask> {
    let counts = TOO_MANY.into_iter().chain([MOST_SPINS]);
    counts.map(move |spins| Ask::Attach { side, spins })
}

/// A count above the limit is 20 before every check of attach: where it is within the limit, the
/// check answers with its own number.
fn refused_first(side: Side) -> Case {
    let name = format!("Attach's 20 before all its checks, {}", side.name());
    let mut case = Case::new(name);
    for length in [0, Header::SIZE as u32 - 1] {
        case = case.lend(Part::Region, length).asks(attaches(side));
    }
    case = case.lend(Part::Region, Ring::SMALL.total());
    for damage in damages() {
        let create = Ring::SMALL.create();
        case = case.asks([create, damage]).asks(attaches(side));
    }
    // Well, and then attached already.
    case.ask(Ring::SMALL.create())
        .asks(attaches(side))
        .asks(attaches(side))
}

/// A sweep with the largest count, and with one above it.
fn sweeps() -> Case {
    let mut case = Case::new("Attach over each value of a byte: the largest spin count, one more")
        .lend(Part::Region, LEAST.total());
    for side in SIDES {
        for at in [Header::AT_FLAGS, Header::AT_SENDER_PID] {
            for spins in [MOST_SPINS, MOST_SPINS + 1] {
                let sweep = Ask::Sweep {
                    side,
                    spins,
                    at: at as u32,
                    flags: LEAST.flags() as u8,
                };
                case = case.asks([LEAST.create(), sweep]);
            }
        }
    }
    case
}
