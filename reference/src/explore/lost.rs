//! What a published rule loses: a shortest run of the machine that has this one rule as
//! document 000 has it, and all else mended.

use super::claims::Claim;
use super::machine::{Machine, Turns};
use super::menu::Menu;
use super::report::Report;
use super::search::{Explored, Walk};
use super::tables;
use crate::party::Side;
use crate::published::{
    ClosedAtOnce, EarlyPop, EarlyPush, LateHead, LateTail, OneLookPop, OneLookPush, SilentClose,
    TimeoutAtOnce,
};
use crate::rules::Mended;

/// A published rule, the claims that its loss shows in, and what the machine must be offered
/// for it.
pub struct Rule {
    /// The paragraph of document 000.
    pub name: &'static str,
    pub says: &'static str,
    pub turns: Turns,
    pub menu: Menu,
    pub claims: &'static [Claim],
}

const FAILING: Menu = Menu {
    wakes_fail: true,
    ..Menu::CALLS
};
const TIMED: Menu = Menu {
    time_outs: true,
    ..Menu::CALLS
};
const CAUSE: &[Claim] = &[Claim::Cause(Side::Sender), Claim::Cause(Side::Recorder)];
const LAST: &[Claim] = &[
    Claim::Closed,
    Claim::Timeout(Side::Sender),
    Claim::Timeout(Side::Recorder),
];

pub fn rules() -> [Rule; 9] {
    let sleeper = |name, says, turns| Rule {
        name,
        says,
        turns,
        menu: Menu::CALLS,
        claims: CAUSE,
    };
    let counter = |name, says, turns, claims| Rule {
        name,
        says,
        turns,
        menu: FAILING,
        claims,
    };
    let last_look = |name, says, turns| Rule {
        name,
        says,
        turns,
        menu: TIMED,
        claims: LAST,
    };
    [
        sleeper(
            "12.5.2",
            "a push reads tail and decides on its wake before it stores head",
            Turns::by::<EarlyPush>(),
        ),
        sleeper(
            "12.7.2",
            "a pop reads head and decides on its wake before it stores tail",
            Turns::by::<EarlyPop>(),
        ),
        sleeper(
            "12.8",
            "a close wakes all and raises no bell",
            Turns::by::<SilentClose>(),
        ),
        sleeper(
            "12.4.2",
            "a pop looks at the flags before it reads the epoch, and not again",
            Turns::by::<OneLookPop>(),
        ),
        sleeper(
            "12.6.3",
            "a push looks at the flags before it reads the epoch, and not again",
            Turns::by::<OneLookPush>(),
        ),
        counter(
            "13.3.2.9",
            "a push moves its own counter after the wake, so not at all if the wake fails",
            Turns::by::<LateHead>(),
            &[Claim::Count],
        ),
        counter(
            "13.4.2.12",
            "a pop moves its own counter after the wake, so not at all if the wake fails",
            Turns::by::<LateTail>(),
            &[Claim::Order],
        ),
        last_look(
            "12.4.2.6",
            "a pop that found the ring empty answers Closed as it sees the sender's close",
            Turns::by::<ClosedAtOnce>(),
        ),
        last_look(
            "12.3.4",
            "a time-out answers Timeout, and the ring is not looked at again",
            Turns::by::<TimeoutAtOnce>(),
        ),
    ]
}

impl Rule {
    pub fn machine(&self, power: u8) -> Machine {
        Machine::new(self.turns, power, true)
    }

    pub fn walk(&self) -> Walk<'static> {
        Walk {
            menu: self.menu,
            claims: self.claims,
            raises: 1,
        }
    }

    pub fn explore(&self, machine: &mut Machine) -> Explored {
        self.walk().from_start(machine)
    }
}

fn at_four(report: &mut Report, rule: &Rule) {
    if let Some(run) = rule.explore(&mut rule.machine(2)).broken {
        let length = run.events.len();
        report.line(&format!("At capacity 4 a shortest has {length} lines."));
    }
}

/// The whole answer for one rule: its shortest loss at capacity 2, and how long at 4.
pub fn told(rule: &Rule) -> Report {
    let mut machine = rule.machine(1);
    let mut report = Report::new(format!(
        "{} of document 000: {}.\nAll other rules mended; capacity 2, not-full on.\n",
        rule.name, rule.says
    ));
    let Some(end) = report.run(&mut machine, &rule.walk()) else {
        return report;
    };
    report.well &= end.for_good;
    at_four(&mut report, rule);
    if let Claim::Cause(_) = end.claim {
        report.line(
            "\nT2 and T4 count turns that are taken, and a sleeper's answer 253: the sleep itself is\n\
             for T3 alone. The most own turns by this rule, ! where they pass the bound:\n",
        );
        tables::own_turns(&mut report, &mut machine, Menu::fair);
    }
    report
}
fn kept(report: &mut Report, name: &str, explored: &Explored) {
    let verdict = match &explored.broken {
        None => format!("kept in all {} states", explored.states.len()),
        Some(run) => format!("broken by a run of {} events", run.events.len()),
    };
    report.well &= explored.broken.is_none();
    report.line(&format!("  {name:<22}  {verdict}"));
}

/// Power, not-full option and spin count of the rings that the mended rules are walked on.
const RINGS: [(u8, bool, u16); 7] = [
    (1, true, 0),
    (1, false, 0),
    (2, true, 0),
    (2, false, 0),
    (1, true, 1),
    (1, false, 1),
    (1, true, 2),
];

/// The mended rules, explored to the end: T1 and T10 with every wake failing at will, T3 for
/// each side under its premise.
pub fn mended() -> Report {
    let mut report = Report::new(
        "The rules as document 01 mends them: every order of turns, however many notes.\n".into(),
    );
    for (power, not_full, spins) in RINGS {
        let mut machine = Machine::spinning(Turns::by::<Mended>(), power, not_full, spins);
        let option = if not_full { "on" } else { "off" };
        let capacity = machine.capacity();
        report.line(&format!(
            "\ncapacity {capacity}, not-full {option}, spin count {spins}"
        ));
        let t1 = Walk {
            menu: Menu::ALL,
            claims: &[Claim::Order, Claim::Count, Claim::Carries],
            raises: 1,
        };
        kept(&mut report, "T1", &t1.from_start(&mut machine));
        for side in [Side::Sender, Side::Recorder] {
            let t3 = Walk {
                menu: Menu::fair(side),
                claims: &[Claim::Cause(side)],
                raises: 1,
            };
            let name = Claim::Cause(side).name();
            kept(&mut report, name, &t3.from_start(&mut machine));
        }
        let t10 = Walk {
            menu: Menu::ALL,
            claims: LAST,
            raises: 1,
        };
        kept(&mut report, "T10", &t10.from_start(&mut machine));
    }
    report
}

/// The names that `answer` takes, each with what it stands for.
fn list() -> Report {
    let mut report = Report::new(String::new());
    for rule in rules() {
        report.line(&format!("{:<10} {}", rule.name, rule.says));
    }
    report.line("mended     no loss: all rules as document 01 has them");
    report
}

/// What is lost by a rule, by its name; none if the name is unknown.
pub fn answer(name: &str) -> Option<Report> {
    match name {
        "list" => Some(list()),
        "mended" => Some(mended()),
        _ => rules().iter().find(|rule| rule.name == name).map(told),
    }
}
