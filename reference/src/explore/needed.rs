//! What each premise of the theorems is needed for: a run that breaks a claim without it, or
//! the numbers that show that it is not needed.

use super::both::CLAIMS;
use super::claims::Claim;
use super::machine::{Machine, Turns};
use super::meddling::Meddling;
use super::menu::Menu;
use super::report::Report;
use super::search::Walk;
use super::tables;
use crate::party::Side;
use crate::published::NarrowBell;
use crate::rules::Mended;

const CAUSE: &[Claim] = &[Claim::Cause(Side::Sender), Claim::Cause(Side::Recorder)];

/// Tells a shortest run at capacity 2 that breaks one of the claims.
fn run(report: &mut Report, turns: Turns, menu: Menu, claims: &[Claim]) {
    let mut machine = Machine::new(turns, 1, true);
    let raises = u32::MAX;
    report.run(
        &mut machine,
        &Walk {
            menu,
            claims,
            raises,
        },
    );
}

fn mended(power: u8, spins: u16) -> Machine {
    Machine::spinning(Turns::by::<Mended>(), power, true, spins)
}

fn mended_run(report: &mut Report, menu: Menu, claims: &[Claim]) {
    run(report, Turns::by::<Mended>(), menu, claims);
}

fn wake() -> Report {
    let mut report = Report::new(
        "No wake of the other's fails that would have woken the party.\n\
         Needed for T3. It is asked of the other's wakes and of a party asleep, and of no other.\n"
            .into(),
    );
    let notes = Menu {
        wakes_fail: true,
        ..Menu::NOTES
    };
    report.line("\nThe wake of a push fails.");
    mended_run(&mut report, notes, &[Claim::Cause(Side::Recorder)]);
    report.line("\nThe wake of a pop fails.");
    mended_run(&mut report, notes, &[Claim::Cause(Side::Sender)]);
    let closes = Menu {
        closes: true,
        ..notes
    };
    report.line("\nThe wake of a close fails.");
    mended_run(&mut report, closes, CAUSE);
    report.line(
        "\nT2 and T4 as stated do not need it: they count turns that are taken, and a sleeper's\n\
         answer 253; T9 asks nothing of wakes. With every wake failing at will, the most own\n\
         turns at capacity 2:\n",
    );
    report.well &= tables::own_turns(&mut report, &mut mended(1, 0), |_| Menu::ALL);
    report
}

fn time_out() -> Report {
    let mut report = Report::new(
        "Nothing is asked of time-outs, spurious returns and failing waits.\n\
         The most own turns found, every order of turns, in every state that the premises allow;\n\
         `by` is one of the longest stretches.\n"
            .into(),
    );
    for power in [1, 2] {
        report.line(&format!(
            "\nCapacity {}, time-outs everywhere:\n",
            1 << power
        ));
        report.well &= tables::own_turns(&mut report, &mut mended(power, 0), Menu::fair);
        report.line(&format!("\nCapacity {}, no time-outs:\n", 1 << power));
        report.well &= tables::own_turns(&mut report, &mut mended(power, 0), |side| Menu {
            time_outs: false,
            ..Menu::fair(side)
        });
    }
    report
}

/// Power and spin count of the rings whose turns are counted.
const SPUN: [(u8, u16); 8] = [
    (1, 0),
    (1, 1),
    (1, 2),
    (1, 3),
    (1, 4),
    (1, 5),
    (2, 1),
    (2, 2),
];

fn spins() -> Report {
    let mut report = Report::new(
        "Nothing is asked of spin counts: T2's numbers are the same for every count. T4's is 7,\n\
         or the count and 3, for a recorder 4, where that is more; T9's are the count and 9, or 6\n\
         from the look.\n\
         The most own turns found, as `needed time-out` has them:\n"
            .into(),
    );
    for (power, count) in SPUN {
        report.line(&format!("\nCapacity {}, spin count {count}:\n", 1 << power));
        report.well &= tables::own_turns(&mut report, &mut mended(power, count), Menu::fair);
    }
    report
}

fn bell() -> Report {
    let mut report = Report::new(
        "A bell is raised fewer than 2^32 times between the look at it and the wait.\n\
         Needed for T3: a bell that comes round to its epoch hides all its raises. Shown on\n\
         bells of one and of two bits, which come round after 2 and 4 raises.\n"
            .into(),
    );
    report.line("\nA bell of one bit.");
    run(
        &mut report,
        Turns::by::<NarrowBell<1>>(),
        Menu::NOTES,
        CAUSE,
    );
    report.line("\nA bell of two bits.");
    run(
        &mut report,
        Turns::by::<NarrowBell<2>>(),
        Menu::CALLS,
        CAUSE,
    );
    report.line("\nThe most raises that a wait finds since its epoch, at capacities 2 and 4:\n");
    tables::raise_counts(&mut report);
    report.line(
        "\nAs with wakes that fail, the numbers of T2, T4 and T9 stay. With a bell of one bit:\n",
    );
    let mut narrow = Machine::new(Turns::by::<NarrowBell<1>>(), 1, true);
    report.well &= tables::own_turns(&mut report, &mut narrow, Menu::fair);
    report.line(
        "\nA shutdown may be begun again and again, and each raises both bells once: only\n\
         2^32 shutdowns, or nearly as many, bring a bell of 32 bits round.",
    );
    report
}

fn meddled(report: &mut Report, title: &str, meddling: &'static [Meddling], claims: &[Claim]) {
    report.line(&format!("\n{title}"));
    let menu = Menu {
        meddling,
        ..Menu::NOTES
    };
    mended_run(report, menu, claims);
}

fn region() -> Report {
    let mut report = Report::new(
        "Nothing but the parties' turns writes the region.\n\
         Needed for T1 and T3, whatever word is written.\n"
            .into(),
    );
    let order = &[Claim::Order];
    meddled(&mut report, "A slot.", &[Meddling::Slot], order);
    meddled(&mut report, "Head.", &[Meddling::HeadOn], order);
    meddled(&mut report, "Tail.", &[Meddling::TailOn], order);
    meddled(&mut report, "A bell.", &[Meddling::BellBack], CAUSE);
    meddled(&mut report, "The flags.", &[Meddling::ShutBit], CAUSE);
    report
}

fn copy() -> Report {
    let mut report = Report::new(
        "Nobody writes a pop's buffer between its copy (C2) and its store (C3).\n\
         Needed for T1: what is delivered is what the buffer holds at the store.\n"
            .into(),
    );
    let meddling = &[Meddling::BufferBeforeStore];
    meddled(&mut report, "The buffer, at C3.", meddling, &[Claim::Order]);
    report
}

fn buffer() -> Report {
    let mut report = Report::new(
        "Nobody else writes the buffer of a pop that runs.\n\
         Needed for T1: the answer that ends the pop must find the note in the buffer.\n"
            .into(),
    );
    let meddling = &[Meddling::BufferAfterStore];
    meddled(
        &mut report,
        "The buffer, at C4.",
        meddling,
        &[Claim::Carries],
    );
    report
}

/// A premise by its name, what it says, and how it is told.
pub struct Premise {
    pub name: &'static str,
    pub says: &'static str,
    pub told: fn() -> Report,
}

pub const PREMISES: [Premise; 7] = [
    Premise {
        name: "wake",
        says: "no wake fails that would have woken the party (T3)",
        told: wake,
    },
    Premise {
        name: "time-out",
        says: "not a premise: T2, T4 and T9 counted with time-outs and without",
        told: time_out,
    },
    Premise {
        name: "spins",
        says: "not a premise: T2, T4 and T9 counted for spin counts",
        told: spins,
    },
    Premise {
        name: "bell",
        says: "fewer than 2^32 raises between look and wait (T3)",
        told: bell,
    },
    Premise {
        name: "region",
        says: "no second writer of the region (T1, T3)",
        told: region,
    },
    Premise {
        name: "buffer",
        says: "no second writer of a running pop's buffer (T1)",
        told: buffer,
    },
    Premise {
        name: "copy",
        says: "the buffer as the copy left it until the store (T1)",
        told: copy,
    },
];

fn list() -> Report {
    let mut report = Report::new(String::new());
    for premise in PREMISES.iter().chain(&CLAIMS) {
        report.line(&format!("{:<10} {}", premise.name, premise.says));
    }
    report
}

/// What a premise is needed for, by its name; none if the name is unknown.
pub fn answer(name: &str) -> Option<Report> {
    match name {
        "list" => Some(list()),
        _ => PREMISES
            .iter()
            .chain(&CLAIMS)
            .find(|premise| premise.name == name)
            .map(|premise| (premise.told)()),
    }
}
