//! The numbers of T2, T4 and T9, and how often a bell is raised between a look and a wait.

use super::bounds::{
    most_from_look, most_to_no_room, most_to_rest, most_to_sleep, states, to_no_room, to_rest,
    to_sleep, Largest,
};
use super::longest::NO_BOUND;
use super::machine::{Machine, State, Turns};
use super::menu::Menu;
use super::normal::raises;
use super::report::Report;
use super::search::Walk;
use crate::party::{Party, Side, Step};
use crate::rules::Mended;
use crate::words;

fn turns_words(largest: &Largest) -> String {
    match largest.turns {
        None => "no bound".into(),
        Some(turns) => turns.to_string(),
    }
}

/// A number of turns or rounds.
pub fn number(most: u32) -> String {
    match most {
        NO_BOUND => "no bound".into(),
        most => most.to_string(),
    }
}

/// The name of a step; of a spin also how many follow it.
pub fn step_words(side: Side, step: Step) -> String {
    match step {
        Step::Spin { left } => format!("S, {left} to follow"),
        step => step_name(side, step),
    }
}

fn step_name(side: Side, step: Step) -> String {
    words::step(&Party {
        step,
        ..Party::unattached(side)
    })
}

/// The steps of a stretch, by their names.
fn steps_words(side: Side, steps: &[Step]) -> String {
    let names: Vec<String> = steps.iter().map(|&step| step_name(side, step)).collect();
    names.join(" ")
}

/// The head of the lines that `row` writes.
pub const HEAD: &str = "  party     theorem    bound  reached  by";

/// One line: the bound and the most found, marked where it is more. Gives whether it is kept.
pub fn row(report: &mut Report, name: &str, side: Side, largest: &Largest, bound: u32) -> bool {
    let kept = largest.turns.is_some_and(|turns| turns <= bound);
    let mark = if kept { ' ' } else { '!' };
    report.line(&format!(
        "{mark} {:<8}  {name:<9}  {bound:>5}  {:>7}  {}",
        side.name(),
        turns_words(largest),
        steps_words(side, &largest.steps)
    ));
    kept
}

/// T2 for each room, T4 and T9 of one side.
fn rows(report: &mut Report, machine: &mut Machine, side: Side, menu: Menu) -> bool {
    let found = states(machine, menu);
    let spins = machine.spins();
    let mut kept = true;
    for room in 1..=machine.capacity() {
        let largest = to_no_room(machine, &found, side, menu, room);
        let name = format!("T2, k = {room}");
        kept &= row(report, &name, side, &largest, most_to_no_room(room));
    }
    let largest = to_rest(machine, &found, side, menu);
    kept &= row(report, "T4", side, &largest, most_to_rest(side, spins));
    let largest = to_sleep(machine, &found, side, |_| true);
    kept &= row(report, "T9", side, &largest, most_to_sleep(spins));
    let look = |step| matches!(step, Step::P1 | Step::C1);
    let largest = to_sleep(machine, &found, side, look);
    kept & row(report, "T9, look", side, &largest, most_from_look(spins))
}

/// The most own turns in every state that a menu leads to, in stretches by the same menu.
/// Gives whether the bounds are kept.
pub fn own_turns(report: &mut Report, machine: &mut Machine, menu_of: fn(Side) -> Menu) -> bool {
    report.line(HEAD);
    let [sender, recorder] =
        [Side::Sender, Side::Recorder].map(|side| rows(report, machine, side, menu_of(side)));
    sender && recorder
}

/// More raises than this are told as `at least`.
const MOST: u32 = 9;

/// The most raises of a side's bell that its wait may find since its epoch.
fn most_raises(power: u8, menu: Menu, side: Side) -> u32 {
    let mut machine = Machine::new(Turns::by::<Mended>(), power, true);
    let walk = Walk {
        menu,
        claims: &[],
        raises: MOST,
    };
    let found = walk.from_start(&mut machine).states;
    let waits = |state: &&State| matches!(state.step(side), Step::B5 { .. } | Step::W5 { .. });
    let raised = |state: &State| raises(state, side);
    found.iter().filter(waits).map(raised).max().unwrap_or(0)
}

/// A row for each sort of call that the other may make meanwhile.
pub fn raise_counts(report: &mut Report) {
    let closes = Menu {
        closes: true,
        ..Menu::NOTES
    };
    let rows = [
        ("pushes and pops", Menu::NOTES),
        ("the same and closes", closes),
        ("the same and shutdowns", Menu::CALLS),
    ];
    report.line("  calls                   NE, W2 to W5  NF, B2 to B5");
    for (name, menu) in rows {
        let [ne, nf] = [Side::Recorder, Side::Sender].map(|side| {
            let most = most_raises(1, menu, side).max(most_raises(2, menu, side));
            match most {
                MOST => "no limit".into(),
                _ => most.to_string(),
            }
        });
        report.line(&format!("  {name:<22}  {ne:>12}  {nf:>12}"));
    }
}
