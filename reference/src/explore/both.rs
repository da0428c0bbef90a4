//! What holds where both sides move, whatever bells and wakes do: the numbers, and the wrong rules
//! that they refuse.

use std::collections::BTreeMap;

use super::amid::{most_to_publish, most_to_rest_amid, to_rest_amid, Publishing};
use super::bounds::{most_by_slack, to_no_room_stopped, Largest};
use super::fair::{night, rousing, still};
use super::longest::NO_BOUND;
use super::machine::{Machine, Turns};
use super::menu::Menu;
use super::needed::Premise;
use super::report::Report;
use super::search::Walk;
use super::still::SIDES;
use super::tables::{self, number, step_words};
use super::unfair;
use super::verdicts::{refused_by, Theorem};
use crate::header::Header;
use crate::party::{Side, Step};
use crate::published::NarrowBell;
use crate::rules::Mended;

/// Power, not-full option and spin count.
pub type Ring = (u8, bool, u16);
pub const RINGS: [Ring; 10] = [
    (1, true, 0),
    (1, false, 0),
    (1, true, 2),
    (1, false, 2),
    (2, true, 0),
    (2, false, 0),
    (2, true, 2),
    (2, false, 2),
    (3, true, 0),
    (3, false, 0),
];
/// Those that T4 is asked of.
const STOPPED: [Ring; 5] = [
    (1, true, 0),
    (1, true, 3),
    (1, true, 6),
    (1, false, 6),
    (2, true, 0),
];

pub fn mended(ring: Ring) -> Machine {
    Machine::spinning(Turns::by::<Mended>(), ring.0, ring.1, ring.2)
}

pub fn narrow() -> Machine {
    Machine::new(Turns::by::<NarrowBell<1>>(), 1, true)
}

pub fn title(report: &mut Report, (power, not_full, spins): Ring) {
    let option = if not_full { "on" } else { "off" };
    report.line(&format!(
        "\nCapacity {}, not-full {option}, spin count {spins}:\n",
        1 << power
    ));
}

/// T2 of each side and room, with the other stopped anywhere and every wake failing at will.
fn stopped_rows(report: &mut Report, machine: &mut Machine) {
    report.line(tables::HEAD);
    let all = Walk::all(machine, Menu::ALL);
    for side in SIDES {
        for room in 1..=machine.capacity() {
            let largest = to_no_room_stopped(machine, &all.states, side, Menu::ALL, room);
            let bound = most_by_slack(room, machine.capacity() - room);
            let name = format!("T2, k = {room}");
            report.well &= tables::row(report, &name, side, &largest, bound);
        }
    }
}

fn stopped() -> Report {
    let mut report = Report::new(
        "T2, BoundedTicksDead: the other has stopped at any step, for good, and any wake may fail.\n\
         At most 4k + 3 own turns until no room is left where the other has none, 4k + 2 where it\n\
         has room for one, 4k + 1 where it has more.\n"
            .into(),
    );
    for ring in RINGS {
        title(&mut report, ring);
        stopped_rows(&mut report, &mut mended(ring));
    }
    report.line("\nA bell of one bit, capacity 2:\n");
    stopped_rows(&mut report, &mut narrow());
    report
}

/// T11 of each side and number of notes.
fn wait_free_rows(report: &mut Report, machine: &mut Machine) {
    // The names are one letter longer here.
    report.line("  party     theorem     bound  reached  by");
    let all = Walk::all(machine, Menu::ALL);
    let capacity = machine.capacity();
    let not_full = machine.start().bench.sender.not_full;
    for side in SIDES {
        let publishing = Publishing::new(&all, side, capacity);
        for notes in 1..=capacity {
            let (most, place) = publishing.most(notes);
            let way = publishing.way(notes, place);
            let largest = Largest {
                turns: (most != NO_BOUND).then_some(most),
                steps: publishing.own_steps(&way),
            };
            let bound = most_to_publish(side, not_full, notes, capacity);
            let name = format!("T11, k = {notes}");
            report.well &= tables::row(report, &name, side, &largest, bound);
        }
    }
}

/// Tells one of the longest runs of T11 with one note, from the start of the machine.
fn longest_run(report: &mut Report, machine: &mut Machine, side: Side) {
    let all = Walk::all(machine, Menu::ALL);
    let publishing = Publishing::new(&all, side, 1);
    let (turns, place) = publishing.most(1);
    let mut events = all.events_to(place);
    let from = events.len() + 1;
    let way = publishing.way(1, place);
    events.extend(way.iter().filter_map(|arc| arc.event));
    let name = side.name();
    report.line(&format!(
        "From line {from} on the {name} has room and takes {} turns to publish:\n",
        number(turns)
    ));
    report.story(machine, &events);
}

fn wait_free() -> Report {
    let mut report = Report::new(
        "T11, WaitFree: the most own turns until a willing party with room for k has published k\n\
         more, whatever the other does, and whatever wakes fail. `by` are the own steps of one of\n\
         the longest.\n"
            .into(),
    );
    for ring in RINGS {
        title(&mut report, ring);
        wait_free_rows(&mut report, &mut mended(ring));
    }
    report.line("\nA bell of one bit, capacity 2:\n");
    wait_free_rows(&mut report, &mut narrow());
    report.line("\nOne of the longest at capacity 2, k = 1.");
    longest_run(&mut report, &mut mended(RINGS[0]), Side::Sender);
    report
}

/// A step by its name, with the bound and the most turns from it, after a close and after a shutdown.
pub struct StopRow {
    pub name: String,
    pub bound: [u32; 2],
    pub most: [Option<u32>; 2],
}

/// T4 with the other moving, by the step that a party stands at which must stop.
pub fn stop_rows(machine: &mut Machine, side: Side) -> Vec<StopRow> {
    let all = Walk::all(machine, Menu::ALL);
    let most = to_rest_amid(&all, side);
    let mut rows: BTreeMap<String, StopRow> = BTreeMap::new();
    for (state, &turns) in all.states.iter().zip(&most) {
        let step = state.step(side);
        if state.must_stop(side) && step != Step::Rest {
            let name = step_words(side, step);
            let row = rows.entry(name.clone()).or_insert_with(|| StopRow {
                name,
                bound: [false, true].map(|shut| most_to_rest_amid(side, step, shut)),
                most: [None, None],
            });
            let shut = usize::from(state.flags & Header::SHUTDOWN != 0);
            row.most[shut] = row.most[shut].max(Some(turns));
        }
    }
    rows.into_values().collect()
}

fn stop_row(report: &mut Report, side: Side, row: &StopRow) {
    let cells = [0, 1].map(|shut| {
        let bound = row.bound[shut];
        report.well &= row.most[shut] <= Some(bound);
        row.most[shut].map_or(String::new(), |turns| {
            format!("{} of {bound}", number(turns))
        })
    });
    let [close, shutdown] = cells;
    let line = format!(
        "  {:<8}  {:<24}  {close:>13}  {shutdown:>16}",
        side.name(),
        row.name
    );
    report.line(line.trim_end());
}

fn stop_table(report: &mut Report, machine: &mut Machine) {
    report.line("  party     step                      after a close  after a shutdown");
    for side in SIDES {
        for row in stop_rows(machine, side) {
            stop_row(report, side, &row);
        }
    }
}

fn stop() -> Report {
    let mut report = Report::new(
        "T4, EndsAmid: the other moves. The most own turns of a party that must stop until its call has\n\
         ended, whatever the other does and whatever wakes fail, by the step it stands at.\n"
            .into(),
    );
    for ring in STOPPED {
        title(&mut report, ring);
        stop_table(&mut report, &mut mended(ring));
    }
    report.line("\nA bell of one bit, capacity 2:\n");
    stop_table(&mut report, &mut narrow());
    report
}

fn unfair() -> Report {
    let mut report = Report::new(
        "Wrong rules that give way to one who moves, at capacities 2 and 4: which theorems refuse\n\
         them. T4* is T4 with the other moving; T1 alone is told where it is broken.\n\n"
            .into(),
    );
    for rule in unfair::rules() {
        let refused = refused_by(rule.turns);
        report.well &= refused == rule.refused;
        let names: Vec<&str> = refused.into_iter().map(Theorem::name).collect();
        report.line(&format!("  {:<10}  {}", rule.name, rule.says));
        report.line(&format!("  {:<10}  refused by {}\n", "", names.join(", ")));
    }
    report.line("One of the longest with rule `look` at capacity 2, k = 1.");
    let look = &unfair::rules()[0];
    longest_run(
        &mut report,
        &mut Machine::new(look.turns, 1, true),
        Side::Sender,
    );
    report
}

/// What is told of two who move, beside the premises of `needed`.
pub const CLAIMS: [Premise; 7] = [
    Premise {
        name: "stopped",
        says: "not a premise: T2 with the other stopped at any step",
        told: stopped,
    },
    Premise {
        name: "wait-free",
        says: "not a premise: T11 counted, whatever wakes and bells do",
        told: wait_free,
    },
    Premise {
        name: "rousing",
        says: "wakes and bells: whoever oversleeps is being rung",
        told: rousing,
    },
    Premise {
        name: "still",
        says: "wakes and bells: T12 counted, and what goes wrong",
        told: still,
    },
    Premise {
        name: "night",
        says: "wakes and bells: T13 counted, and what goes wrong",
        told: night,
    },
    Premise {
        name: "stop",
        says: "not a premise: T4 counted with the other moving",
        told: stop,
    },
    Premise {
        name: "unfair",
        says: "rules that only T11 to T13 refuse",
        told: unfair,
    },
];
