//! Every order of turns: what the published rules lose, and what the theorems need.

use std::collections::HashSet;

use reference::dice::Dice;
use reference::explore::afterwards::afterwards;
use reference::explore::bounds::{
    most_by_slack, states, to_no_room, to_no_room_stopped, to_rest, to_sleep, Counter, Stretch,
};
use reference::explore::lost;
use reference::explore::normal::normal;
use reference::explore::{needed, Claim, Event, Machine, Meddling, Menu, State, Turns, Walk};
use reference::published::{NarrowBell, TimeoutAtOnce};
use reference::rules::Mended;
use reference::{Answer, Side, Step};

const SIDES: [Side; 2] = [Side::Sender, Side::Recorder];
/// Power, not-full option and spin count.
const RINGS: [(u8, bool, u16); 7] = [
    (1, true, 0),
    (1, false, 0),
    (2, true, 0),
    (2, false, 0),
    (1, true, 1),
    (1, false, 1),
    (1, true, 2),
];

fn mended(power: u8, not_full: bool, spins: u16) -> Machine {
    Machine::spinning(Turns::by::<Mended>(), power, not_full, spins)
}

fn walk(menu: Menu, claims: &[Claim]) -> Walk<'_> {
    Walk {
        menu,
        claims,
        raises: 1,
    }
}

/// Plays a run without making any state normal.
fn played(machine: &mut Machine, events: &[Event]) -> State {
    let start = machine.start();
    let play = |state: State, &event: &Event| machine.play(&state, event).0;
    events.iter().fold(start, play)
}

#[test]
fn each_published_rule_loses_what_it_should() {
    let cause = Claim::Cause;
    let expected = [
        ("12.5.2", cause(Side::Recorder), [24, 24]),
        ("12.7.2", cause(Side::Sender), [24, 34]),
        ("12.8", cause(Side::Recorder), [10, 10]),
        ("12.4.2", cause(Side::Recorder), [10, 10]),
        ("12.6.3", cause(Side::Sender), [22, 32]),
        ("13.3.2.9", Claim::Count, [11, 11]),
        ("13.4.2.12", Claim::Order, [20, 32]),
        ("12.4.2.6", Claim::Closed, [12, 12]),
        ("12.3.4", Claim::Timeout(Side::Recorder), [11, 11]),
    ];
    assert_eq!(lost::rules().len(), expected.len());
    for (rule, (name, claim, lengths)) in lost::rules().iter().zip(expected) {
        assert_eq!(rule.name, name);
        for (power, length) in [1, 2].into_iter().zip(lengths) {
            let mut machine = rule.machine(power);
            let run = rule.explore(&mut machine).broken.expect(name);
            assert_eq!((run.claim, run.events.len()), (claim, length), "{name}");
            if let Claim::Cause(sleeper) = claim {
                let end = played(&mut machine, &run.events);
                assert_eq!(end.step(sleeper), Step::Asleep, "{name}");
                assert_eq!(end.step(sleeper.other()), Step::Rest, "{name}");
                assert!(end.room(sleeper) > 0 || end.must_stop(sleeper), "{name}");
                assert!(afterwards(&mut machine, &end, sleeper).for_good, "{name}");
            }
        }
    }
}

/// The note that a failed wake leaves is lost: it was sent, and it is neither delivered nor
/// in the ring.
#[test]
fn a_failed_wake_overwrites_a_sent_note() {
    let rules = lost::rules();
    let rule = rules.iter().find(|rule| rule.name == "13.3.2.9").unwrap();
    let mut machine = rule.machine(1);
    let run = rule.explore(&mut machine).broken.unwrap();
    let failed = |event: &&Event| matches!(event, Event::Fails(Side::Sender, _));
    assert_eq!(run.events.iter().filter(failed).count(), 1);
    let end = played(&mut machine, &run.events);
    assert_eq!((end.sent, end.got, end.waiting()), (2, 0, 1));
    assert_eq!(end.ring[0], 1, "note 1 lies where note 0 lay");
}

/// The note that was sent before the close lies in the ring, and the pop has been told that
/// there is none.
#[test]
fn a_close_is_told_over_a_note() {
    let rules = lost::rules();
    let rule = rules.iter().find(|rule| rule.name == "12.4.2.6").unwrap();
    let mut machine = rule.machine(1);
    let run = rule.explore(&mut machine).broken.unwrap();
    let end = played(&mut machine, &run.events);
    assert_eq!((end.sent, end.got, end.waiting()), (1, 0, 1));
    assert_eq!(end.step(Side::Recorder), Step::Rest);
    assert!(end.bench.sender.closed);
}

/// A time-out is told by its event, and over a wait that fails; either side has room by then.
#[test]
fn a_time_out_is_told_over_room() {
    let turns = Turns::by::<TimeoutAtOnce>();
    for power in [1, 2] {
        let mut machine = Machine::new(turns, power, true);
        let mut told = HashSet::new();
        for state in states(&mut machine, Menu::ALL) {
            for event in Menu::ALL.offers(&state) {
                let (after, answer) = machine.play(&state, event);
                let side = event.side().unwrap();
                if answer == Answer::Timeout && after.room(side) > 0 {
                    told.insert(event);
                }
            }
        }
        assert_eq!(told.len(), 4, "{told:?}");
    }
}

#[test]
fn the_mended_rules_lose_nothing() {
    for (power, not_full, spins) in RINGS {
        let mut machine = mended(power, not_full, spins);
        let t1 = [Claim::Order, Claim::Count, Claim::Carries];
        let explored = walk(Menu::ALL, &t1).from_start(&mut machine);
        assert_eq!(explored.broken, None);
        assert!(explored.states.len() > 1500);
        let [sender, recorder] = SIDES.map(Claim::Timeout);
        let t10 = [Claim::Closed, sender, recorder];
        let explored = walk(Menu::ALL, &t10).from_start(&mut machine);
        assert_eq!(explored.broken, None);
        for side in SIDES {
            let claims = [Claim::Cause(side)];
            let explored = walk(Menu::fair(side), &claims).from_start(&mut machine);
            assert_eq!(explored.broken, None);
            assert!(explored.states.len() > 1500);
        }
    }
}

/// A walk goes on from normal states only. That leaves nothing out if a state and its normal
/// form go on alike, whatever happens.
#[test]
fn a_state_and_its_normal_form_go_on_alike() {
    let mut dice = Dice::new(5);
    for (power, not_full, spins) in RINGS {
        let mut machine = mended(power, not_full, spins);
        let found: HashSet<State> = states(&mut machine, Menu::ALL).into_iter().collect();
        let mut state = machine.start();
        for _ in 0..4000 {
            let form = normal(&state, u32::MAX, 1);
            assert!(found.contains(&form), "{state:?}");
            let events = Menu::ALL.offers(&state);
            assert_eq!(events, Menu::ALL.offers(&form));
            let event = events[dice.below(events.len() as u64) as usize];
            let (after, answer) = machine.play(&state, event);
            let (after_form, answer_form) = machine.play(&form, event);
            let normal = |state| normal(state, u32::MAX, 1);
            assert_eq!(normal(&after), normal(&after_form), "{event:?}");
            let same_note = matches!(
                (answer, answer_form),
                (Answer::Delivered { .. }, Answer::Delivered { .. })
                    | (
                        Answer::Syscall { .. },
                        Answer::Done | Answer::Syscall { .. }
                    )
            );
            assert!(same_note || answer == answer_form, "{event:?}");
            // After a close of both nothing more happens.
            let over = SIDES.map(|side| after.bench.party(side).closed) == [true; 2];
            state = if over { machine.start() } else { after };
        }
    }
}

/// T2's and T4's bounds are kept, for few spins as for none. T2's is reached where all slots are
/// room and the party rings; T4's where both sides ring.
fn bounds(mut machine: Machine, side: Side, menu: Menu) {
    let not_full = machine.start().bench.sender.not_full;
    let found = states(&mut machine, menu);
    let capacity = machine.capacity() as u32;
    for k in 1..=capacity {
        let most = to_no_room(&mut machine, &found, side, menu, k.into()).turns;
        let bound = 4 * k + 3;
        assert!(
            most.unwrap() <= bound,
            "capacity {capacity}, {side:?}, k = {k}"
        );
        let reached = k == capacity && (not_full || side == Side::Sender);
        assert_eq!(
            most == Some(bound),
            reached,
            "capacity {capacity}, {side:?}, k = {k}"
        );
    }
    let most = to_rest(&mut machine, &found, side, menu).turns.unwrap();
    assert!(
        most <= 7 && (most == 7) == not_full,
        "capacity {capacity}, {side:?}"
    );
}

#[test]
fn the_bounds_are_kept_with_time_outs_and_without() {
    for (power, not_full, spins) in RINGS {
        for side in SIDES {
            let menu = Menu::fair(side);
            bounds(mended(power, not_full, spins), side, menu);
            let time_outs = false;
            let menu = Menu { time_outs, ..menu };
            bounds(mended(power, not_full, spins), side, menu);
        }
    }
}

/// T2 and T4 count turns that are taken, so a wake that fails and a bell that comes round move
/// no count.
#[test]
fn the_bounds_are_kept_without_premises() {
    for power in [1, 2] {
        for side in SIDES {
            let narrow = Machine::new(Turns::by::<NarrowBell<1>>(), power, true);
            bounds(narrow, side, Menu::ALL);
            bounds(mended(power, true, 0), side, Menu::ALL);
        }
    }
}

/// T2's number by the other's room is kept and reached with not-full on, with the other stopped at
/// whatever step. With not-full off no push waits and no pop rings.
fn bounds_by_slack(mut machine: Machine, side: Side, menu: Menu) {
    let not_full = machine.start().bench.sender.not_full;
    let found = states(&mut machine, menu);
    let capacity = machine.capacity();
    for k in 1..=capacity {
        let most = to_no_room_stopped(&mut machine, &found, side, menu, k).turns;
        let expected = match (not_full, side) {
            (true, _) => most_by_slack(k, capacity - k),
            (false, Side::Sender) if capacity - k > 1 => 4 * k as u32,
            (false, Side::Sender) => most_by_slack(k, capacity - k),
            (false, Side::Recorder) => 3 * k as u32 + 2,
        };
        assert_eq!(
            most,
            Some(expected),
            "capacity {capacity}, {side:?}, k = {k}"
        );
    }
}

#[test]
fn the_bounds_by_the_others_room_are_reached() {
    for (power, not_full, spins) in RINGS {
        for side in SIDES {
            let menu = Menu::fair(side);
            bounds_by_slack(mended(power, not_full, spins), side, menu);
            let time_outs = false;
            let menu = Menu { time_outs, ..menu };
            bounds_by_slack(mended(power, not_full, spins), side, menu);
        }
    }
    for power in [1, 2] {
        for side in SIDES {
            let narrow = Machine::new(Turns::by::<NarrowBell<1>>(), power, true);
            bounds_by_slack(narrow, side, Menu::ALL);
            bounds_by_slack(mended(power, true, 0), side, Menu::ALL);
        }
    }
}

/// T9's numbers, from any step of a wait and from the look, are reached in states that time-outs
/// and failing waits lead to; with not-full off no push waits.
#[test]
fn whoever_has_no_room_sleeps_within_nine_turns_and_its_spins() {
    for (power, not_full, spins) in RINGS {
        for side in SIDES {
            let mut machine = mended(power, not_full, spins);
            let found = states(&mut machine, Menu::ALL);
            let mut most = |from| to_sleep(&mut machine, &found, side, from).turns;
            let numbers = [
                most(|_| true),
                most(|step| matches!(step, Step::P1 | Step::C1)),
            ];
            let expected = match not_full || side == Side::Recorder {
                true => [9, 6].map(|turns| Some(turns + u32::from(spins))),
                false => [Some(0), Some(0)],
            };
            assert_eq!(numbers, expected, "power {power}, {side:?}");
        }
    }
}

/// Every way out of the last look is walked: a copy, 13, and 11 for the recorder.
#[test]
fn the_last_look_leads_to_a_copy_or_to_the_end() {
    let mut machine = mended(1, true, 0);
    let mut found = HashSet::new();
    for state in states(&mut machine, Menu::ALL) {
        for side in SIDES {
            if matches!(state.step(side), Step::B6 | Step::W6 { .. }) {
                let (after, answer) = machine.play(&state, Event::Turn(side));
                found.insert((state.step(side), after.step(side), answer));
            }
        }
    }
    let [timed_out, closed] = [true, false].map(|timed_out| Step::W6 { timed_out });
    let expected = [
        (Step::B6, Step::P2, Answer::GoesOn),
        (Step::B6, Step::Rest, Answer::Timeout),
        (timed_out, Step::C2, Answer::GoesOn),
        (timed_out, Step::Rest, Answer::Timeout),
        (closed, Step::C2, Answer::GoesOn),
        (closed, Step::Rest, Answer::Closed),
    ];
    assert_eq!(found, expected.into_iter().collect());
}

/// A party that would look again without end has no bound, and the count says so.
#[test]
fn a_count_without_end_is_told() {
    let mut machine = mended(1, true, 0);
    let start = machine.start();
    let (looking, _) = machine.play(&start, Event::Pop { blocking: true });
    let stretch = Stretch {
        side: Side::Recorder,
        menu: Menu::ALL,
        arrived: |state, side| state.room(side) > 0,
    };
    assert_eq!(Counter::new(&mut machine, stretch).most(&looking), None);
}

fn breaks(turns: Turns, menu: Menu, claims: &[Claim]) -> Option<Claim> {
    let mut machine = Machine::new(turns, 1, true);
    let walk = Walk {
        menu,
        claims,
        raises: u32::MAX,
    };
    let explored = walk.from_start(&mut machine);
    explored.broken.map(|run| run.claim)
}

#[test]
fn a_narrow_bell_hides_its_raises() {
    let causes = SIDES.map(Claim::Cause);
    let one = Turns::by::<NarrowBell<1>>();
    let two = Turns::by::<NarrowBell<2>>();
    let recorder = Some(Claim::Cause(Side::Recorder));
    assert_eq!(breaks(one, Menu::NOTES, &causes), recorder);
    // Pushes raise a bell twice at most between look and wait, so they need not four.
    assert_eq!(breaks(two, Menu::NOTES, &causes), None);
    assert_eq!(breaks(two, Menu::CALLS, &causes), recorder);
    // T1 asks nothing of bells.
    let t1 = [Claim::Order, Claim::Count, Claim::Carries];
    assert_eq!(breaks(one, Menu::ALL, &t1), None);
}

#[test]
fn a_failed_wake_breaks_t3_only_where_somebody_sleeps() {
    let turns = Turns::by::<Mended>();
    for side in SIDES {
        let menu = Menu {
            wakes_fail: true,
            ..Menu::NOTES
        };
        let claim = Claim::Cause(side);
        assert_eq!(breaks(turns, menu, &[claim]), Some(claim));
        let lands: &[Side] = match side {
            Side::Sender => &[Side::Sender],
            Side::Recorder => &[Side::Recorder],
        };
        assert_eq!(breaks(turns, Menu { lands, ..menu }, &[claim]), None);
    }
}

#[test]
fn a_second_writer_breaks_a_claim_by_every_word() {
    let cause = Claim::Cause(Side::Recorder);
    let expected: [(&'static [Meddling], Claim); 7] = [
        (&[Meddling::Slot], Claim::Order),
        (&[Meddling::HeadOn], Claim::Order),
        (&[Meddling::TailOn], Claim::Order),
        (&[Meddling::BellBack], cause),
        (&[Meddling::ShutBit], cause),
        (&[Meddling::BufferBeforeStore], Claim::Order),
        (&[Meddling::BufferAfterStore], Claim::Carries),
    ];
    for (meddling, claim) in expected {
        let menu = Menu {
            meddling,
            ..Menu::NOTES
        };
        let broken = breaks(Turns::by::<Mended>(), menu, &[claim]);
        assert_eq!(broken, Some(claim), "{meddling:?}");
    }
}

#[test]
fn raises_between_look_and_wait_are_counted() {
    let bell = needed::answer("bell").unwrap().words;
    assert!(bell.contains("pushes and pops                    2             2\n"));
    assert!(bell.contains("the same and closes                3             3\n"));
    assert!(bell.contains("the same and shutdowns      no limit      no limit\n"));
}
