//! What holds of two who move as long as the bells and the wakes are fair, and a shortest run that
//! goes wrong where they are not.

use super::both::{mended, narrow, title, RINGS};
use super::longest::NO_BOUND;
use super::machine::{Machine, State};
use super::menu::Menu;
use super::night::{claimed_rounds, Night};
use super::report::Report;
use super::rousing::{left_asleep, oversleeps, rung_in, to_wake};
use super::search::{Explored, Walk};
use super::still::{both_in_call, pressing, without_publish, SIDES, TURNS};
use super::tables::{number, step_words};
use crate::party::Side;

/// T13 is asked for up to so many notes to send.
const TO_SEND: u64 = 3;

/// Tells a shortest run without each premise, with wakes that fail and with a bell of one bit, to where
/// both are between calls or asleep and it has gone wrong.
fn without_premises(report: &mut Report, wrong: fn(&Explored) -> Vec<bool>) {
    let failing = Menu {
        wakes_fail: true,
        ..Menu::NOTES
    };
    let cases = [
        ("A wake fails.", mended(RINGS[0]), failing),
        ("A bell of one bit comes round.", narrow(), Menu::NOTES),
    ];
    for (name, mut machine, menu) in cases {
        report.line(&format!("\n{name}"));
        let explored = Walk::all(&mut machine, menu);
        let still = |state: &State| SIDES.map(|side| state.is_still(side)) == [true; 2];
        let stuck: Vec<bool> = explored.states.iter().map(still).collect();
        let wrong = wrong(&explored).into_iter().zip(stuck);
        let wrong: Vec<bool> = wrong.map(|(wrong, stuck)| wrong && stuck).collect();
        report.run_to(&mut machine, &explored, &wrong);
    }
}

/// The steps at which the other stands over a sleeper, with the turns until it is awake.
fn rousing_rows(report: &mut Report, machine: &mut Machine, sleeper: Side) {
    let fair = Walk::all(machine, Menu::fair(sleeper));
    let most = to_wake(&fair, sleeper);
    let mut rows: Vec<(String, Option<u32>, u32)> = Vec::new();
    for (state, &turns) in fair.states.iter().zip(&most) {
        if oversleeps(state, sleeper) {
            let other = sleeper.other();
            let step = step_words(other, state.step(other));
            let claimed = rung_in(state, sleeper);
            report.well &= claimed.is_some_and(|claimed| turns <= claimed);
            match rows
                .iter_mut()
                .find(|row| (&row.0, row.1) == (&step, claimed))
            {
                Some(row) => row.2 = row.2.max(turns),
                None => rows.push((step, claimed, turns)),
            }
        }
    }
    rows.sort();
    for (step, claimed, turns) in rows {
        let bound = claimed.map_or("none".into(), number);
        report.line(&format!(
            "  {:<8}  {step:<24}  {bound:>5}  {:>7}",
            sleeper.name(),
            number(turns)
        ));
    }
}

pub fn rousing() -> Report {
    let mut report = Report::new(
        "BeingRung, Rousing: where the other stands while a party sleeps over room, a close or a\n\
         shutdown, and the most turns of the other's until it is awake.\n"
            .into(),
    );
    for ring in RINGS {
        title(&mut report, ring);
        report.line("  sleeper   the other at              bound  reached");
        for side in SIDES {
            rousing_rows(&mut report, &mut mended(ring), side);
        }
    }
    report.line("\nWithout the premises somebody oversleeps and nobody is about to ring.");
    without_premises(&mut report, left_asleep);
    report
}

/// NeverStill and Stirs at one size: the most turns of whoever presses on, and the most that both take
/// with nothing published.
pub fn never_still(machine: &mut Machine) -> [u32; 2] {
    let both = Walk::all(machine, Menu::FAIR);
    let amid = SIDES.map(|side| Walk::all(machine, Menu::fair(side)));
    let presses = pressing(&both, [&amid[0], &amid[1]]).into_iter().flatten();
    let most = 2 * TURNS as usize;
    [
        presses.max().unwrap_or(0),
        without_publish(&both, most) as u32,
    ]
}

/// For every state whether both are in calls, and none that has room is sure to publish.
pub fn stands_still(explored: &Explored) -> Vec<bool> {
    let presses = pressing(explored, [explored, explored]);
    let still = |turns: Option<u32>| turns.is_some_and(|turns| turns > TURNS);
    presses.into_iter().map(still).collect()
}

pub fn still() -> Report {
    let mut report = Report::new(
        "T12: in every state one of the two has room, and has published after at most 6 turns of\n\
         its own, asleep or not (NeverStill); so once each has taken 6, somebody has (Stirs).\n\n\
         \x20                                        one publishes  both, none published\n"
            .into(),
    );
    for (power, not_full, spins) in RINGS {
        let [presses, both] = never_still(&mut mended((power, not_full, spins)));
        let option = if not_full { "on" } else { "off" };
        report.well &= presses <= TURNS && both < TURNS;
        report.line(&format!(
            "  capacity {}, not-full {option:<3}, spins {spins}     {:>8} of 6       {:>8} of 5",
            1 << power,
            number(presses),
            number(both)
        ));
    }
    report.line("\nWithout the premises both may take turn after turn, and nothing is published.");
    without_premises(&mut report, stands_still);
    report
}

fn night_rows(report: &mut Report, machine: &mut Machine) {
    let both = Walk::all(machine, Menu::FAIR);
    let columns: Vec<String> = (0..=machine.capacity())
        .map(|waiting| format!("{:>10}", format!("k = {waiting}")))
        .collect();
    report.line(&format!("  to send  {}", columns.concat()));
    let night = Night::new(&both, TO_SEND);
    for to_send in 0..=TO_SEND {
        let mut line = format!("  n = {to_send}    ");
        for waiting in 0..=machine.capacity() {
            let (most, _) = night.most(to_send, waiting);
            let claimed = claimed_rounds(to_send, waiting);
            report.well &= most <= claimed;
            line += &format!("{:>10}", format!("{} of {claimed}", number(most)));
        }
        report.line(&line);
    }
}

/// Tells one of the longest nights, and after which lines its rounds end.
fn longest_night(report: &mut Report, machine: &mut Machine, to_send: u64, waiting: u64) {
    let both = Walk::all(machine, Menu::FAIR);
    let night = Night::new(&both, to_send);
    let (_, place) = night.most(to_send, waiting);
    let mut events = both.events_to(place);
    let from = events.len() + 1;
    let mut ends = Vec::new();
    for arc in night.way(place, to_send) {
        match arc.event {
            Some(event) => events.push(event),
            None => ends.push(events.len().to_string()),
        }
    }
    report.line(&format!(
        "\nOne of the longest nights at capacity 2, n = {to_send}, k = {waiting}. It begins at line {from}; rounds end\n\
         after lines {}, with notes still to come.\n",
        ends.join(", ")
    ));
    report.story(machine, &events);
}

/// For every state whether the notes that wait there may never be delivered.
pub fn never_over(explored: &Explored) -> Vec<bool> {
    let night = Night::new(explored, 0);
    let unbounded = |(place, state)| both_in_call(state) && night.enough(place, 0) == NO_BOUND;
    explored.states.iter().enumerate().map(unbounded).collect()
}

pub fn night() -> Report {
    let mut report = Report::new(
        "T13, WholeNight: the most rounds until n more notes are sent and all delivered, with k\n\
         waiting at first. The claim: 6n + 4k + 3, and at least 6n + 6.\n"
            .into(),
    );
    for ring in RINGS {
        title(&mut report, ring);
        night_rows(&mut report, &mut mended(ring));
    }
    longest_night(&mut report, &mut mended(RINGS[0]), 1, 0);
    report.line(
        "\nWithout the premises a note may wait for ever, round after round, with none to send.",
    );
    without_premises(&mut report, never_over);
    report
}
