//! Pushes and pops step by step.

mod common;

use common::House;
use reference::{Answer, Header, Operation, Side, Step};

const SENDER: Side = Side::Sender;
const RECORDER: Side = Side::Recorder;

fn delivered(tag: u16, length: u16) -> Answer {
    Answer::Delivered { tag, length }
}

/// "Reaching the bound": capacity 2, the recorder past an empty C1, two pushes done.
#[test]
fn eleven_turns() {
    let mut house = House::new(1, 16, true, 0);
    assert_eq!(house.begin_pop(true, 8), Answer::Begun);
    assert_eq!(house.turn(RECORDER), Answer::GoesOn);
    assert_eq!(house.push(1, b"one"), Answer::Done);
    assert_eq!(house.push(2, b"two"), Answer::Done);
    let length = 3;
    let steps = [
        Step::W1,
        Step::W2,
        Step::W3 { epoch: 1 },
        Step::C2,
        Step::C3 { length },
        Step::C4 { length },
        Step::C5 { length },
        Step::C6 { length },
    ];
    for step in steps {
        assert_eq!(house.step(RECORDER), step);
        let answer = house.turn(RECORDER);
        let last = matches!(step, Step::C6 { .. });
        assert_eq!(
            answer,
            if last {
                delivered(1, 3)
            } else {
                Answer::GoesOn
            }
        );
    }
    assert_eq!(house.begin_pop(true, 8), Answer::Begun);
    for step in [Step::C1, Step::C2, Step::C3 { length }] {
        assert_eq!(house.step(RECORDER), step);
        assert_eq!(house.turn(RECORDER), Answer::GoesOn);
    }
    // Eleven turns, 4 x 2 + 3, and the second note is delivered.
    assert_eq!(house.u64_at(Header::AT_TAIL), 2);
    assert_eq!(house.turn(RECORDER), delivered(2, 3));
}

#[test]
fn push_steps_and_slot_bytes() {
    let mut house = House::new(2, 32, true, 0);
    assert_eq!(house.begin_push(false, 0x1234, b"abc"), Answer::Begun);
    assert_eq!(house.turn(SENDER), Answer::GoesOn);
    let mut before = house.region.clone();
    assert_eq!(house.turn(SENDER), Answer::GoesOn);
    before[384..395].copy_from_slice(&[3, 0, 0x34, 0x12, 0, 0, 0, 0, b'a', b'b', b'c']);
    assert_eq!(house.region, before, "P2 leaves the bytes past the payload");
    assert_eq!(house.turn(SENDER), Answer::GoesOn);
    assert_eq!(house.u64_at(Header::AT_HEAD), 1);
    assert_eq!((house.step(SENDER), house.bells()), (Step::P4, (0, 0)));
    assert_eq!(house.finish(SENDER), (Answer::Done, 3));
    assert_eq!(house.bells(), (1, 0));
    // The ring is not empty now, so a second push ends at P4.
    house.begin_push(false, 0, b"");
    assert_eq!(house.finish(SENDER), (Answer::Done, 4));
    assert_eq!(house.bells(), (1, 0));
}

#[test]
fn begins_fill_the_record() {
    let mut house = House::new(2, 32, true, 0);
    house.begin_push(true, 7, b"abc");
    let sender = house.bench.sender;
    let named = (sender.blocking, sender.tag, sender.length, sender.step);
    assert_eq!(named, (true, 7, 3, Step::P1));
    house.finish(SENDER);
    // A pop's tag is the note's: the begin clears what an earlier pop has left there.
    assert_eq!(house.pop(24), delivered(7, 3));
    assert_eq!(house.bench.recorder.tag, 7);
    house.begin_pop(true, 9);
    let recorder = house.bench.recorder;
    let named = (
        recorder.blocking,
        recorder.tag,
        recorder.length,
        recorder.step,
    );
    assert_eq!(named, (true, 0, 9, Step::C1));
    // A close or a shutdown leaves what a push named.
    house.bench.sender.begin_close(SENDER);
    let sender = house.bench.sender;
    assert_eq!((sender.blocking, sender.tag, sender.length), (true, 7, 3));
}

#[test]
fn pop_allows_slot_flag_0_and_keeps_the_rest_of_the_buffer() {
    let mut house = House::new(2, 32, true, 0);
    house.push(9, b"abc");
    house.put(388, &[1]);
    house.put(395, &[0x77; 21]);
    house.begin_pop(false, 10);
    assert_eq!(house.finish(RECORDER), (delivered(9, 3), 4));
    assert_eq!(house.buffer, b"abc\xEE\xEE\xEE\xEE\xEE\xEE\xEE");
}

/// 8 before 15, and no byte changed; the note is still there for the next pop.
#[test]
fn any_other_slot_flag_and_any_bit_of_the_zero_word_is_a_corrupt_slot() {
    let mut house = House::new(1, 16, true, 0);
    house.push(9, b"abc");
    for bit in 1..32 {
        house.put(388, &(1u32 << bit).to_le_bytes());
        let before = house.clone();
        assert_eq!(house.pop(2), Answer::CorruptSlot, "bit {bit}");
        assert_eq!(house.pop(8), Answer::CorruptSlot, "bit {bit}");
        assert_eq!(house.region, before.region);
        assert_eq!(house.buffer, [0xEE; 8]);
    }
    house.put(388, &[0; 4]);
    assert_eq!(house.pop(8), delivered(9, 3));
}

#[test]
fn full_empty_too_small_and_corrupt_slot() {
    let mut house = House::new(1, 16, true, 0);
    assert_eq!(house.pop(8), Answer::Empty);
    assert_eq!(house.push(1, b"12345678"), Answer::Done);
    assert_eq!(house.push(2, b""), Answer::Done);
    let before = house.clone();
    assert_eq!(house.push(3, b"x"), Answer::Full);
    assert_eq!(house.pop(7), Answer::OutputTooSmall { length: 8 });
    assert_eq!(house.region, before.region);
    assert_eq!(house.buffer, [0xEE; 7]);
    assert_eq!(house.bench.recorder.tag, 0);
    assert_eq!(house.bench.recorder.count, 0);
    // Above the payload capacity is corrupt before it is too long for the buffer.
    house.put(384, &9u16.to_le_bytes());
    assert_eq!(house.pop(7), Answer::CorruptSlot);
    assert_eq!(house.pop(70), Answer::CorruptSlot);
    house.put(384, &8u16.to_le_bytes());
    assert_eq!(house.pop(8), delivered(1, 8));
    assert_eq!(house.bells(), (1, 1));
    assert_eq!(house.pop(0), delivered(2, 0));
    assert_eq!(house.bells(), (1, 1));
}

#[test]
fn counters_near_the_wrap() {
    let start = u64::MAX - 2;
    let mut house = House::new(2, 32, true, start);
    for round in 0..4 {
        assert_eq!(house.push(round, &[round as u8]), Answer::Done);
    }
    assert_eq!(house.push(4, b""), Answer::Full);
    assert_eq!(house.u64_at(Header::AT_HEAD), 1);
    for round in 0..4 {
        assert_eq!(house.pop(24), delivered(round, 1));
        assert_eq!(house.buffer[0], round as u8);
    }
    assert_eq!(house.pop(24), Answer::Empty);
    assert_eq!(house.u64_at(Header::AT_TAIL), 1);
    // The first push woke on empty, the first pop on full, and nothing else did.
    assert_eq!(house.bells(), (1, 1));
}

fn asleep_recorder() -> House {
    let mut house = House::new(1, 16, true, 0);
    house.begin_pop(true, 8);
    house.go_on(RECORDER, 6);
    assert_eq!(house.step(RECORDER), Step::Asleep);
    house
}

fn asleep_sender() -> House {
    let mut house = House::new(1, 16, true, 0);
    house.push(1, b"a");
    house.push(2, b"b");
    house.begin_push(true, 3, b"c");
    house.go_on(SENDER, 6);
    assert_eq!(house.step(SENDER), Step::Asleep);
    house
}

#[test]
fn sleep_and_wake() {
    let mut house = asleep_recorder();
    assert_eq!(house.turn(RECORDER), Answer::Nothing);
    assert_eq!(house.push(5, b"up"), Answer::Done);
    assert_eq!(house.step(RECORDER), Step::C1);
    assert_eq!(house.finish(RECORDER), (delivered(5, 2), 4));

    let mut house = asleep_sender();
    assert_eq!(house.pop(8), delivered(1, 1));
    assert_eq!(house.step(SENDER), Step::P1);
    assert_eq!(house.finish(SENDER), (Answer::Done, 4));
}

#[test]
fn a_failed_wake_wakes_nobody_and_keeps_the_note() {
    let mut house = asleep_recorder();
    house.begin_push(false, 5, b"up");
    house.go_on(SENDER, 5);
    let operation = Operation::WakeNe;
    assert_eq!(
        house.failing_turn(SENDER, Some(4)),
        Answer::Syscall {
            operation,
            error: 4
        }
    );
    assert_eq!(house.step(RECORDER), Step::Asleep);
    assert_eq!(house.push(6, b"next"), Answer::Done);
    assert_eq!(
        house.bench.recorder.spurious_return(RECORDER),
        Answer::GoesOn
    );
    assert_eq!(house.finish(RECORDER).0, delivered(5, 2));

    let mut house = asleep_sender();
    house.begin_pop(false, 8);
    house.go_on(RECORDER, 5);
    let operation = Operation::WakeNf;
    assert_eq!(
        house.failing_turn(RECORDER, Some(9)),
        Answer::Syscall {
            operation,
            error: 9
        }
    );
    assert_eq!(house.step(SENDER), Step::Asleep);
    // Nor does it keep the slot: the sender finds it when its time is over.
    assert_eq!(house.bench.sender.time_out(SENDER), Answer::GoesOn);
    assert_eq!(house.finish(SENDER).0, Answer::Done);
}

#[test]
fn failed_waits() {
    for (error, sender, recorder) in [
        (4, Step::P1, Step::C1),
        (11, Step::P1, Step::C1),
        (110, Step::B6, Step::W6 { timed_out: true }),
        (22, Step::Rest, Step::Rest),
    ] {
        // Whatever the word holds: once as the epoch says, once raised.
        for raised in [false, true] {
            let mut house = House::new(1, 16, true, 0);
            house.begin_pop(true, 8);
            house.go_on(RECORDER, 5);
            if raised {
                house.put(Header::AT_NE, &[77]);
            }
            let answer = |operation| match error {
                4 | 11 | 110 => Answer::GoesOn,
                _ => Answer::Syscall { operation, error },
            };
            assert_eq!(
                house.failing_turn(RECORDER, Some(error)),
                answer(Operation::WaitNe)
            );
            assert_eq!(house.step(RECORDER), recorder);

            house.push(1, b"");
            house.push(2, b"");
            house.begin_push(true, 3, b"");
            house.go_on(SENDER, 5);
            if raised {
                house.put(Header::AT_NF, &[77]);
            }
            assert_eq!(
                house.failing_turn(SENDER, Some(error)),
                answer(Operation::WaitNf)
            );
            assert_eq!(house.step(SENDER), sender);
        }
    }
}

#[test]
fn a_raised_bell_does_not_let_sleep() {
    let mut house = House::new(1, 16, true, 0);
    house.begin_pop(true, 8);
    house.go_on(RECORDER, 5);
    assert_eq!(house.step(RECORDER), Step::W5 { epoch: 0 });
    house.push(1, b"now");
    assert_eq!(house.turn(RECORDER), Answer::GoesOn);
    assert_eq!(house.step(RECORDER), Step::C1);
    assert_eq!(house.finish(RECORDER).0, delivered(1, 3));
}

#[test]
fn an_announced_failure_is_ignored_without_a_futex_call() {
    let mut house = House::new(1, 16, true, 0);
    house.begin_push(true, 1, b"a");
    for _ in 0..5 {
        assert_eq!(house.failing_turn(SENDER, Some(22)), Answer::GoesOn);
    }
    assert_eq!(house.step(SENDER), Step::P6);
    house.turn(SENDER);
    house.begin_pop(true, 8);
    for _ in 0..3 {
        assert_eq!(house.failing_turn(RECORDER, Some(22)), Answer::GoesOn);
    }
    assert_eq!(house.failing_turn(RECORDER, Some(22)), delivered(1, 1));
    house.begin_pop(true, 8);
    for _ in 0..5 {
        assert_eq!(house.failing_turn(RECORDER, Some(110)), Answer::GoesOn);
    }
    assert_eq!(house.step(RECORDER), Step::W5 { epoch: 1 });
    assert_eq!(house.failing_turn(RECORDER, Some(110)), Answer::GoesOn);
    assert_eq!(house.step(RECORDER), Step::W6 { timed_out: true });
    assert_eq!(house.failing_turn(RECORDER, Some(22)), Answer::Timeout);
}
