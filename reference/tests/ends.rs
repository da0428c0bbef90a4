//! Close, shutdown, corruption, and regions with not-full off.

mod common;

use common::House;
use reference::{Answer, Header, Operation, Side, Step};

const SENDER: Side = Side::Sender;
const RECORDER: Side = Side::Recorder;

fn asleep(side: Side) -> House {
    let mut house = House::new(1, 16, true, 0);
    match side {
        Side::Sender => {
            house.push(1, b"a");
            house.push(2, b"b");
            house.begin_push(true, 3, b"c");
        }
        Side::Recorder => assert_eq!(house.begin_pop(true, 8), Answer::Begun),
    }
    house.go_on(side, 6);
    assert_eq!(house.step(side), Step::Asleep);
    house
}

#[test]
fn close_of_the_sender() {
    let mut house = asleep(RECORDER);
    assert_eq!(house.bench.sender.begin_close(SENDER), Answer::Begun);
    assert!(!house.bench.sender.closed);
    house.go_on(SENDER, 1);
    assert!(house.bench.sender.closed);
    assert_eq!((house.flags(), house.bells()), (0x4F, (0, 0)));
    house.go_on(SENDER, 1);
    assert_eq!(
        (house.bells(), house.step(RECORDER)),
        ((1, 0), Step::Asleep)
    );
    assert_eq!(house.turn(SENDER), Answer::Done);
    assert_eq!(house.step(RECORDER), Step::C1);
    assert_eq!(house.finish(RECORDER), (Answer::Closed, 3));
    assert_eq!(house.begin_push(true, 0, b""), Answer::Closed);
    assert_eq!(house.bench.sender.begin_close(SENDER), Answer::Closed);
    assert_eq!(house.bench.sender.begin_shutdown(SENDER), Answer::Begun);
}

#[test]
fn close_of_the_recorder() {
    let mut house = asleep(SENDER);
    assert_eq!(house.bench.recorder.begin_close(RECORDER), Answer::Begun);
    house.go_on(RECORDER, 2);
    assert_eq!((house.flags(), house.bells()), (0x57, (1, 1)));
    assert_eq!(house.turn(RECORDER), Answer::Done);
    assert_eq!(house.finish(SENDER), (Answer::Closed, 2));
    assert_eq!(house.begin_pop(false, 8), Answer::Closed);
    // A try push still looks at nothing but the counters.
    assert_eq!(house.push(9, b""), Answer::Full);
}

/// Waiting notes are delivered after the sender's close.
#[test]
fn close_comes_after_the_notes() {
    let mut house = House::new(1, 16, true, 0);
    house.push(1, b"a");
    house.bench.sender.begin_close(SENDER);
    assert_eq!(house.finish(SENDER), (Answer::Done, 3));
    house.begin_pop(true, 8);
    let note = Answer::Delivered { tag: 1, length: 1 };
    assert_eq!(house.finish(RECORDER).0, note);
    house.begin_pop(true, 8);
    assert_eq!(house.finish(RECORDER), (Answer::Closed, 3));
}

#[test]
fn a_close_whose_wake_fails() {
    let mut house = asleep(RECORDER);
    house.bench.sender.begin_close(SENDER);
    house.go_on(SENDER, 2);
    let operation = Operation::WakeNe;
    assert_eq!(
        house.failing_turn(SENDER, Some(4)),
        Answer::Syscall {
            operation,
            error: 4
        }
    );
    assert_eq!(house.step(RECORDER), Step::Asleep);
    assert_eq!(house.bench.sender.begin_close(SENDER), Answer::Closed);
}

#[test]
fn shutdown_by_either_party() {
    for side in [SENDER, RECORDER] {
        let sleeper = side.other();
        let mut house = asleep(sleeper);
        let (ne, nf) = house.bells();
        assert_eq!(
            house.bench.party_mut(side).begin_shutdown(side),
            Answer::Begun
        );
        house.go_on(side, 1);
        assert_eq!((house.flags(), house.bells()), (0x67, (ne, nf)));
        house.go_on(side, 1);
        assert_eq!(house.bells(), (ne + 1, nf));
        assert_eq!(house.step(sleeper), Step::Asleep);
        house.go_on(side, 1);
        assert_eq!(house.step(sleeper) == Step::C1, sleeper == RECORDER);
        house.go_on(side, 1);
        assert_eq!(house.bells(), (ne + 1, nf + 1));
        assert_eq!(house.turn(side), Answer::Done);
        assert_eq!(house.step(sleeper), sleeper.first_step());
        assert_eq!(house.finish(sleeper), (Answer::Shutdown, 2));
    }
}

#[test]
fn shutdown_answers_the_first_failed_wake() {
    for (first, second, answer) in [
        (Some(5), Some(6), Some((Operation::WakeNe, 5))),
        (Some(5), None, Some((Operation::WakeNe, 5))),
        (None, Some(6), Some((Operation::WakeNf, 6))),
        (None, None, None),
    ] {
        let mut house = asleep(RECORDER);
        house.bench.sender.begin_shutdown(SENDER);
        house.go_on(SENDER, 2);
        assert_eq!(house.failing_turn(SENDER, first), Answer::GoesOn);
        // The wake on NF does not reach the recorder, who sleeps on NE.
        house.go_on(SENDER, 1);
        let last = house.failing_turn(SENDER, second);
        let awake = house.step(RECORDER) == Step::C1;
        assert_eq!(awake, first.is_none());
        assert_eq!(
            last,
            match answer {
                Some((operation, error)) => Answer::Syscall { operation, error },
                None => Answer::Done,
            }
        );
        assert_eq!(house.bells(), (1, 1));
    }
}

#[test]
fn shutdown_is_seen_before_close() {
    for (flags, answer) in [
        (0x77, Answer::Shutdown),
        (0x67, Answer::Shutdown),
        (0x57, Answer::Closed),
        (0x6F, Answer::Shutdown),
    ] {
        // At B1 and at B4.
        for turns in [1, 4] {
            let mut house = House::new(1, 16, true, 0);
            house.push(1, b"");
            house.push(2, b"");
            house.begin_push(true, 3, b"");
            house.go_on(SENDER, turns);
            house.put(Header::AT_FLAGS, &[flags]);
            assert_eq!(house.turn(SENDER), answer);
        }
    }
    for (flags, ended) in [(0x6F, (Answer::Shutdown, 1)), (0x4F, (Answer::Closed, 2))] {
        for turns in [1, 4] {
            let mut house = House::new(1, 16, true, 0);
            house.begin_pop(true, 8);
            house.go_on(RECORDER, turns);
            house.put(Header::AT_FLAGS, &[flags]);
            assert_eq!(house.finish(RECORDER), ended);
        }
    }
    // One's own close is not the other's: nobody closes the sender's push with bit 3.
    let mut house = asleep(SENDER);
    house.put(Header::AT_FLAGS, &[0x4F]);
    house.bench.sender.spurious_return(SENDER);
    house.go_on(SENDER, 6);
    assert_eq!(house.step(SENDER), Step::Asleep);
}

/// The turn that finds the corruption goes on; shutdown's five turns follow, the fifth says 7.
fn corruption(mut house: House, side: Side) {
    let (ne, nf) = house.bells();
    let counters = (house.u64_at(Header::AT_HEAD), house.u64_at(Header::AT_TAIL));
    house.go_on(side, 1);
    assert_eq!((house.flags() & 0x20, house.bells()), (0, (ne, nf)));
    house.go_on(side, 1);
    assert_eq!(house.flags() & 0x20, 0x20);
    house.go_on(side, 1);
    assert_eq!(house.bells(), (ne + 1, nf));
    // Failed wakes are ignored.
    assert_eq!(house.failing_turn(side, Some(22)), Answer::GoesOn);
    house.go_on(side, 1);
    assert_eq!(house.bells(), (ne + 1, nf + 1));
    assert_eq!(house.failing_turn(side, Some(22)), Answer::CorruptIndices);
    assert_eq!(house.step(side), Step::Rest);
    let after = (house.u64_at(Header::AT_HEAD), house.u64_at(Header::AT_TAIL));
    assert_eq!(counters, after);
}

#[test]
fn corruption_at_p1_b3_c1_and_w3() {
    for not_full in [true, false] {
        let mut house = House::new(2, 32, not_full, 0);
        house.begin_push(false, 1, b"");
        house.put(Header::AT_TAIL, &[1]);
        corruption(house, SENDER);

        let mut house = House::new(2, 32, not_full, 0);
        house.begin_pop(true, 0);
        house.put(Header::AT_HEAD, &[5]);
        corruption(house, RECORDER);

        let mut house = House::new(2, 32, not_full, 0);
        house.begin_pop(true, 0);
        house.go_on(RECORDER, 3);
        house.put(Header::AT_HEAD, &[5]);
        corruption(house, RECORDER);
    }
    let mut house = House::new(1, 16, true, 0);
    house.push(1, b"");
    house.push(2, b"");
    house.begin_push(true, 3, b"");
    house.go_on(SENDER, 3);
    house.put(Header::AT_TAIL, &[0xFF; 8]);
    corruption(house, SENDER);
}

/// After a time-out of either side, and after the sender's close: neither 13 nor 11 is given.
#[test]
fn corruption_at_b6_and_w6() {
    let mut house = asleep(SENDER);
    assert_eq!(house.bench.sender.time_out(SENDER), Answer::GoesOn);
    house.put(Header::AT_TAIL, &[0xFF; 8]);
    corruption(house, SENDER);

    let mut house = asleep(RECORDER);
    assert_eq!(house.bench.recorder.time_out(RECORDER), Answer::GoesOn);
    house.put(Header::AT_HEAD, &[3]);
    corruption(house, RECORDER);

    for turns in [1, 4] {
        let mut house = House::new(1, 16, true, 0);
        house.begin_pop(true, 8);
        house.go_on(RECORDER, turns);
        house.bench.sender.begin_close(SENDER);
        house.finish(SENDER);
        house.go_on(RECORDER, 1);
        assert_eq!(house.step(RECORDER), Step::W6 { timed_out: false });
        house.put(Header::AT_HEAD, &[3]);
        corruption(house, RECORDER);
    }
}

/// A corruption's wakes wake, unless they fail.
#[test]
fn corruption_wakes_the_other() {
    let mut house = asleep(RECORDER);
    house.begin_push(false, 1, b"");
    house.put(Header::AT_TAIL, &[1]);
    house.go_on(SENDER, 4);
    assert_eq!(house.step(RECORDER), Step::C1);
    house.go_on(SENDER, 1);
    assert_eq!(house.turn(SENDER), Answer::CorruptIndices);
}

#[test]
fn not_full_off() {
    let mut house = House::new(1, 16, false, 0);
    assert_eq!(house.flags(), 0x07);
    let before = house.bench;
    assert_eq!(house.begin_push(true, 1, b"a"), Answer::NotFullOff);
    // 19 is tested before 18, 11 before both.
    assert_eq!(house.begin_push(true, 1, &[0; 9]), Answer::NotFullOff);
    assert_eq!(house.begin_push(false, 1, &[0; 9]), Answer::PayloadTooLong);
    assert_eq!(house.bench, before);
    house.push(1, b"a");
    house.push(2, b"b");
    // Full, yet the pop ends at C3 and bell NF stays.
    house.begin_pop(true, 8);
    let note = Answer::Delivered { tag: 1, length: 1 };
    assert_eq!(house.finish(RECORDER), (note, 3));
    assert_eq!(house.bells(), (1, 0));
    // The option was read at attach: turning it on later changes nothing.
    house.put(Header::AT_FLAGS, &[0x47]);
    assert_eq!(house.begin_push(true, 1, b"a"), Answer::NotFullOff);
    house.bench.recorder.begin_close(RECORDER);
    assert_eq!(house.finish(RECORDER), (Answer::Done, 1));
    assert_eq!((house.flags(), house.bells()), (0x57, (1, 0)));
    // The sender's close and a shutdown still raise.
    house.bench.sender.begin_close(SENDER);
    assert_eq!(house.finish(SENDER), (Answer::Done, 3));
    assert_eq!(house.begin_push(true, 1, &[0; 9]), Answer::Closed);
    house.bench.recorder.begin_shutdown(RECORDER);
    assert_eq!(house.finish(RECORDER), (Answer::Done, 5));
    assert_eq!(house.bells(), (3, 1));
}
