//! Every order of turns where both sides move: the numbers of T11, T12, T13 and of T4, who is being
//! rung, and what goes wrong without the premises.

use reference::explore::amid::{most_to_publish, Publishing};
use reference::explore::both::stop_rows;
use reference::explore::bounds::slack;
use reference::explore::fair::{never_over, never_still, stands_still};
use reference::explore::longest::{Arc, Graph, NO_BOUND};
use reference::explore::night::{claimed_rounds, Night};
use reference::explore::rousing::{left_asleep, oversleeps, rung_in, to_wake};
use reference::explore::search::Explored;
use reference::explore::{Machine, Menu, Turns, Walk};
use reference::published::NarrowBell;
use reference::rules::Mended;
use reference::Side;

const SIDES: [Side; 2] = [Side::Sender, Side::Recorder];
/// Power, not-full option and spin count.
const RINGS: [(u8, bool, u16); 6] = [
    (1, true, 0),
    (1, false, 0),
    (2, true, 0),
    (2, false, 0),
    (1, true, 2),
    (1, false, 2),
];

fn mended(power: u8, not_full: bool, spins: u16) -> Machine {
    Machine::spinning(Turns::by::<Mended>(), power, not_full, spins)
}

/// The longest ways through a graph of so many places, and one from the first.
fn longest(places: usize, arcs: &[(usize, usize, u32)]) -> (Vec<u32>, Vec<(usize, usize)>) {
    let arc = |&(from, to, cost)| Arc {
        from,
        to,
        cost,
        event: None,
    };
    let graph = Graph::new(places, arcs.iter().map(arc).collect());
    let most = graph.most();
    let way = graph.way(&most, 0);
    (most, way.iter().map(|arc| (arc.from, arc.to)).collect())
}

/// To go round at no cost adds nothing, at a cost everything, also to whoever leads there.
#[test]
fn the_longest_ways_are_found() {
    let (most, way) = longest(4, &[(0, 1, 1), (1, 2, 0), (0, 2, 0), (2, 3, 5)]);
    assert_eq!(most, [6, 5, 5, 0]);
    assert_eq!(way, [(0, 1), (1, 2), (2, 3)]);
    let round = [(2, 1, 0), (1, 2, 0), (0, 1, 1), (2, 3, 1), (1, 3, 0)];
    let (most, way) = longest(4, &round);
    assert_eq!(most, [2, 1, 1, 0]);
    assert_eq!(way, [(0, 1), (1, 2), (2, 3)]);
    let (most, way) = longest(4, &[(0, 1, 0), (1, 2, 0), (2, 1, 1), (2, 3, 1)]);
    assert_eq!(most, [NO_BOUND, NO_BOUND, NO_BOUND, 0]);
    assert_eq!(way, []);
    let (most, _) = longest(3, &[(1, 1, 1), (0, 0, 0), (0, 2, 3)]);
    assert_eq!(most, [3, NO_BOUND, 0]);
}

/// T11's numbers are all reached, and no wake or bell moves them.
#[test]
fn whoever_has_room_publishes_in_six_turns_a_note() {
    let mut machines: Vec<Machine> = RINGS
        .map(|(power, not_full, spins)| mended(power, not_full, spins))
        .into();
    machines.push(Machine::new(Turns::by::<NarrowBell<1>>(), 1, true));
    for mut machine in machines {
        let all = Walk::all(&mut machine, Menu::ALL);
        let capacity = machine.capacity();
        let not_full = machine.start().bench.sender.not_full;
        for side in SIDES {
            let publishing = Publishing::new(&all, side, capacity);
            for notes in 1..=capacity {
                let (most, place) = publishing.most(notes);
                let bound = most_to_publish(side, not_full, notes, capacity);
                assert_eq!(most, bound, "capacity {capacity}, {side:?}, {notes} notes");
                let way = publishing.way(notes, place);
                assert_eq!(publishing.own_steps(&way).len(), most as usize);
            }
        }
    }
}

/// The numbers as they stand in docs/NEEDED.md.
#[test]
fn the_numbers_of_t11() {
    let number = |side, not_full| {
        let numbers = |notes| most_to_publish(side, not_full, notes, 4);
        [1, 2, 3, 4].map(numbers)
    };
    assert_eq!(number(Side::Sender, true), [6, 12, 18, 23]);
    assert_eq!(number(Side::Recorder, true), [6, 12, 18, 23]);
    assert_eq!(number(Side::Sender, false), [6, 12, 18, 23]);
    assert_eq!(number(Side::Recorder, false), [5, 8, 11, 14]);
}

/// Whoever oversleeps is being rung, and each step's number is reached.
#[test]
fn whoever_oversleeps_is_being_rung() {
    for (power, not_full, spins) in RINGS {
        for side in SIDES {
            let fair = Walk::all(&mut mended(power, not_full, spins), Menu::fair(side));
            let most = to_wake(&fair, side);
            let mut largest = 0;
            for (state, &turns) in fair.states.iter().zip(&most) {
                if oversleeps(state, side) {
                    assert_eq!(Some(turns), rung_in(state, side), "{state:?}");
                    largest = largest.max(turns);
                }
            }
            let expected = match (side, not_full) {
                (Side::Recorder, _) => 3,
                (Side::Sender, true) => 4,
                (Side::Sender, false) => 0,
            };
            assert_eq!(largest, expected, "power {power}, {side:?}");
        }
    }
}

#[test]
fn somebody_publishes_within_six_turns_of_each() {
    for (power, not_full, spins) in RINGS {
        assert_eq!(never_still(&mut mended(power, not_full, spins)), [6, 5]);
    }
}

/// The most rounds for each number of notes to send, by how many wait.
fn nights(power: u8, not_full: bool, spins: u16, to_send: u64) -> Vec<Vec<u32>> {
    let mut machine = mended(power, not_full, spins);
    let fair = Walk::all(&mut machine, Menu::FAIR);
    let night = Night::new(&fair, to_send);
    let row = |to_send| {
        let waiting = 0..=machine.capacity();
        waiting
            .map(|waiting| night.most(to_send, waiting).0)
            .collect()
    };
    (0..=to_send).map(row).collect()
}

/// As the walk finds them. What is proved is `claimed_rounds`, and no number is above that.
#[test]
fn the_numbers_of_t13() {
    for spins in [0, 2] {
        assert_eq!(
            nights(1, true, spins, 3),
            [[0, 6, 11], [11, 12, 17], [17, 18, 23], [23, 24, 29]]
        );
        assert_eq!(
            nights(1, false, spins, 3),
            [[0, 6, 8], [11, 12, 14], [17, 18, 20], [23, 24, 26]]
        );
    }
    assert_eq!(
        nights(2, true, 0, 3),
        [
            [0, 6, 9, 14, 19],
            [11, 12, 14, 20, 25],
            [17, 18, 20, 26, 31],
            [23, 24, 26, 32, 37]
        ]
    );
    assert_eq!(
        nights(2, false, 0, 3),
        [
            [0, 6, 8, 11, 14],
            [11, 12, 12, 14, 17],
            [17, 18, 18, 18, 20],
            [23, 24, 24, 24, 26]
        ]
    );
}

/// The rounds that are needed, as far as they were looked at. Where all that is sent and waits has
/// room in the ring together, the recorder may take it in one go, by T2's number.
fn exact_rounds(to_send: u64, waiting: u64, capacity: u64, not_full: bool) -> u32 {
    let all = to_send + waiting;
    let slow = 6 * to_send as u32 + 6;
    match waiting {
        0 if to_send == 0 => 0,
        0 => slow - 1,
        _ if !not_full && waiting == capacity => (slow + 2).max(3 * all as u32 + 2),
        _ if !not_full => slow.max(3 * all as u32 + 2),
        _ if waiting == capacity => slow + 4 * capacity as u32 - 3,
        _ if all < capacity => slow.max(4 * all as u32 + slack(capacity - all)),
        _ => slow.max(6 * all as u32 + 4 - 2 * capacity as u32),
    }
}

#[test]
fn the_rounds_follow_the_ring() {
    for (power, not_full) in [
        (1, true),
        (1, false),
        (2, true),
        (2, false),
        (3, true),
        (3, false),
    ] {
        let capacity = 1 << power;
        for (to_send, row) in (0..).zip(nights(power, not_full, 0, 5)) {
            for (waiting, most) in (0..).zip(row) {
                let exact = exact_rounds(to_send, waiting, capacity, not_full);
                assert_eq!(most, exact, "capacity {capacity}, n {to_send}, k {waiting}");
                let claimed = claimed_rounds(to_send, waiting);
                assert!(most <= claimed);
                let own = 6 * to_send as u32 + 4 * waiting as u32 + slack(capacity - waiting);
                assert!(waiting == 0 || most <= own.max(6 * to_send as u32 + 6));
            }
        }
    }
}

/// T4 with the other moving: seven at most, or what a spin says; each reached with not-full on.
#[test]
fn a_call_ends_whatever_the_other_does() {
    for (power, spins) in [(1, 0), (1, 3), (1, 6), (2, 0)] {
        for side in SIDES {
            let rows = stop_rows(&mut mended(power, true, spins), side);
            let spinning = rows.iter().filter(|row| row.name.starts_with("S, "));
            for (left, row) in (0..).zip(spinning) {
                assert_eq!(row.most, row.bound.map(Some), "{side:?}, {}", row.name);
                let last_look = u32::from(side == Side::Recorder);
                assert_eq!(row.bound, [6.max(left + 4 + last_look), left + 8]);
            }
            let stopping = rows.iter().filter(|row| !row.name.starts_with("S, "));
            let most = |shut: usize| stopping.clone().filter_map(move |row| row.most[shut]).max();
            assert_eq!([most(0), most(1)], [Some(7), Some(7)]);
        }
    }
}

fn first(explored: &Explored, wrong: Vec<bool>) -> Option<usize> {
    let still = |place: usize| SIDES.map(|side| explored.states[place].is_still(side));
    (0..wrong.len()).find(|&place| wrong[place] && still(place) == [true; 2])
}

/// How many events a shortest run has that goes wrong, of each kind.
fn lengths(machine: &mut Machine, menu: Menu) -> [Option<usize>; 3] {
    let explored = Walk::all(machine, menu);
    [left_asleep, stands_still, never_over].map(|wrong| {
        let place = first(&explored, wrong(&explored));
        place.map(|place| explored.events_to(place).len())
    })
}

/// Without the premise on wakes, and without the one on bells, T12 and T13 are broken, and somebody
/// oversleeps; with both nothing is. The lengths are those of the shortest stories, as the walk
/// finds them.
#[test]
fn wakes_and_bells_are_needed() {
    let failing = Menu {
        wakes_fail: true,
        ..Menu::NOTES
    };
    let lost = lengths(&mut mended(1, true, 0), failing);
    assert_eq!(lost, [14, 19, 14].map(Some));
    let mut narrow = Machine::new(Turns::by::<NarrowBell<1>>(), 1, true);
    let round = lengths(&mut narrow, Menu::NOTES);
    assert_eq!(round, [26, 31, 26].map(Some));
    assert_eq!(lengths(&mut mended(1, true, 0), Menu::FAIR), [None; 3]);
}
