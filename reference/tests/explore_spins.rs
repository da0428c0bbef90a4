//! Every order of turns of parties that spin: the theorems' numbers by the count, and what wrong
//! rules of spinning come to.

use reference::explore::bounds::{
    largest, most_from_look, most_to_no_room, most_to_rest, most_to_sleep, states, to_no_room,
    to_rest, to_sleep, Stretch,
};
use reference::explore::{Machine, Menu, State, Turns};
use reference::rules::{Mended, Rules};
use reference::{Party, Side, Step};

const SIDES: [Side; 2] = [Side::Sender, Side::Recorder];

/// The most own turns at capacity 2: T2 over two notes of room, T4, T9, and T9 from the look; none
/// where there is no bound.
fn most(turns: Turns, spins: u16, side: Side) -> [Option<u32>; 4] {
    let mut machine = Machine::spinning(turns, 1, true, spins);
    let menu = Menu::fair(side);
    let found = states(&mut machine, menu);
    let look = |step| matches!(step, Step::P1 | Step::C1);
    [
        to_no_room(&mut machine, &found, side, menu, 2).turns,
        to_rest(&mut machine, &found, side, menu).turns,
        to_sleep(&mut machine, &found, side, |_| true).turns,
        to_sleep(&mut machine, &found, side, look).turns,
    ]
}

/// Each bound is reached for every count. T4's is more than 7 from four spins of a recorder on: the
/// sender's close, after the recorder's gate, is seen after all its spins, its epoch and its look,
/// and then it looks once more. The sender has no such last look, so it needs one turn less.
#[test]
fn the_numbers_are_reached_for_every_count() {
    for spins in 0..=5 {
        for side in SIDES {
            let numbers = most(Turns::by::<Mended>(), spins, side);
            let bounds = [
                most_to_no_room(2),
                most_to_rest(side, spins),
                most_to_sleep(spins),
                most_from_look(spins),
            ];
            let expected = bounds.map(Some);
            assert_eq!(numbers, expected, "{side:?}, {spins} spins");
        }
    }
}

/// The most own turns from a spin with so many left: of a party that must stop, to its rest, and
/// of one with no room and no cause to stop, to its sleep.
fn from_spin(machine: &mut Machine, found: &[State], side: Side, left: u16) -> [Option<u32>; 2] {
    let there = |state: &&State| state.step(side) == Step::Spin { left };
    let stretch = Stretch {
        side,
        menu: Menu::fair(side),
        arrived: |state, side| state.step(side) == Step::Rest,
    };
    let stopping =
        |state: &&State| there(state) && state.is_still(side.other()) && state.must_stop(side);
    let to_rest = largest(machine, stretch, found.iter().filter(stopping)).turns;
    let stretch = Stretch {
        menu: Menu::NOTES,
        arrived: |state, side| state.step(side) == Step::Asleep,
        ..stretch
    };
    let drowsy = |state: &&State| there(state) && state.room(side) == 0 && !state.must_stop(side);
    let to_sleep = largest(machine, stretch, found.iter().filter(drowsy)).turns;
    [to_rest, to_sleep]
}

/// To its rest a party takes this spin, those left, its epoch, its look and the flags, and the
/// recorder its last look; or it finds room, and then the five turns of a note are all.
#[test]
fn what_is_left_is_counted_down() {
    for side in SIDES {
        let mut machine = Machine::spinning(Turns::by::<Mended>(), 1, true, 5);
        let found = states(&mut machine, Menu::fair(side));
        for left in 0..5 {
            let more = u32::from(left);
            let stops = match side {
                Side::Sender => 6.max(more + 4),
                Side::Recorder => 6.max(more + 5),
            };
            let numbers = from_spin(&mut machine, &found, side, left);
            assert_eq!(
                numbers,
                [stops, more + 5].map(Some),
                "{side:?}, {left} left"
            );
        }
    }
}

/// The count does not fall.
struct Stuck;

impl Rules for Stuck {
    fn after_spin(_party: &Party, left: u16) -> Step {
        Step::Spin { left }
    }
}

/// Whoever spins for ever neither stops nor sleeps. What is there to find is found: T2 stays.
#[test]
fn a_count_that_does_not_fall_has_no_bound() {
    for side in SIDES {
        let numbers = most(Turns::by::<Stuck>(), 2, side);
        assert_eq!(numbers, [Some(11), None, None, None], "{side:?}");
    }
}

/// One spin too many.
struct OneMore;

impl Rules for OneMore {
    fn after_gate(party: &Party) -> Step {
        Step::Spin { left: party.spins }
    }
}

#[test]
fn one_spin_too_many_passes_the_bounds() {
    for (spins, stops) in [(0, [7, 7]), (4, [8, 9])] {
        let count = u32::from(spins);
        for (side, stops) in SIDES.into_iter().zip(stops) {
            let numbers = most(Turns::by::<OneMore>(), spins, side);
            let expected = [11, stops, 10 + count, 7 + count].map(Some);
            assert_eq!(numbers, expected, "{side:?}, {spins} spins");
        }
    }
}
