//! Every ground of 20, that 20 comes first, and that a refusal changes nothing.

mod common;

use common::House;
use reference::{Answer, Party, Side, Step};

const SENDER: Side = Side::Sender;
const RECORDER: Side = Side::Recorder;

/// Asks everything of a spoilt record. Each must be 20 and leave record and bytes alone.
fn all_refused(party: Party, side: Side, region: &mut [u8]) {
    let bytes = region.to_vec();
    let begins: [fn(&mut Party, Side) -> Answer; 5] = [
        |party, side| match side {
            Side::Sender => party.begin_push(false, 1, 0),
            Side::Recorder => party.begin_pop(false, 0),
        },
        |party, side| party.begin_close(side),
        |party, side| party.begin_shutdown(side),
        |party, side| party.spurious_return(side),
        |party, side| party.time_out(side),
    ];
    for begin in begins {
        let mut asked = party;
        assert_eq!(begin(&mut asked, side), Answer::BadCall, "{party:?}");
        assert_eq!(asked, party);
    }
    let mut asked = party;
    let mut lent = vec![0xEE; party.length];
    for failure in [None, Some(0), Some(4)] {
        let taken = match side {
            Side::Sender => asked.sender_turn(region, &lent, failure),
            Side::Recorder => asked.recorder_turn(region, &mut lent, failure),
        };
        assert_eq!((taken.answer, taken.wake), (Answer::BadCall, None));
        assert_eq!(asked, party);
    }
    assert_eq!(region, bytes);
    assert!(lent.iter().all(|&byte| byte == 0xEE));
}

#[test]
fn spoilt_records() {
    for side in [SENDER, RECORDER] {
        let mut house = House::new(2, 32, true, 0);
        let good = *house.bench.party(side);
        all_refused(Party::unattached(side), side, &mut house.region);
        let spoil: &[fn(&mut Party)] = &[
            |party| party.attached = false,
            |party| party.side = party.side.other(),
            |party| party.power = 0,
            |party| party.power = 31,
            |party| party.power = 255,
            |party| party.slot_size = 0,
            |party| party.slot_size = 12,
            |party| party.slot_size = 65_544,
            |party| party.spins = 1001,
            |party| party.spins = u16::MAX,
        ];
        for spoil in spoil {
            // Before 253, for parties at rest and asleep, and before 11.
            let spin = Step::Spin { left: 2 };
            for step in [Step::Rest, Step::Asleep, side.first_step(), spin] {
                for closed in [false, true] {
                    let mut party = Party {
                        step,
                        closed,
                        ..good
                    };
                    spoil(&mut party);
                    all_refused(party, side, &mut house.region);
                }
            }
        }
    }
}

#[test]
fn a_length_in_the_record_above_the_payload_capacity() {
    let mut house = House::new(2, 32, true, 0);
    for step in [Step::Rest, Step::Asleep, Step::P1, Step::P2] {
        for closed in [false, true] {
            let party = Party {
                length: 25,
                step,
                closed,
                ..house.bench.sender
            };
            all_refused(party, SENDER, &mut house.region);
        }
    }
    // A pop may name any length.
    assert_eq!(house.begin_pop(false, 100_000), Answer::Begun);
    house.push(3, b"abc");
    let note = Answer::Delivered { tag: 3, length: 3 };
    assert_eq!(house.finish(RECORDER).0, note);
    assert_eq!(house.buffer.len(), 100_000);
}

#[test]
fn begun_while_a_call_runs() {
    for closed in [false, true] {
        let mut house = House::new(2, 32, true, 0);
        house.begin_push(false, 1, b"a");
        house.begin_pop(true, 5);
        // 20 comes before 11 and 18.
        house.bench.sender.closed = closed;
        house.bench.recorder.closed = closed;
        for step in [Step::P1, Step::P5, Step::Asleep] {
            house.bench.sender.step = step;
            let before = house.bench.sender;
            assert_eq!(house.begin_push(false, 2, &[0; 25]), Answer::BadCall);
            assert_eq!(house.bench.sender.begin_close(SENDER), Answer::BadCall);
            assert_eq!(house.bench.sender.begin_shutdown(SENDER), Answer::BadCall);
            assert_eq!(house.bench.sender, before);
        }
        for step in [Step::C1, Step::W5 { epoch: 3 }, Step::Asleep] {
            house.bench.recorder.step = step;
            let before = house.bench.recorder;
            assert_eq!(house.begin_pop(false, 2), Answer::BadCall);
            assert_eq!(house.bench.recorder.begin_close(RECORDER), Answer::BadCall);
            assert_eq!(
                house.bench.recorder.begin_shutdown(RECORDER),
                Answer::BadCall
            );
            assert_eq!(house.bench.recorder, before);
        }
    }
}

/// A record asked as the other side counts as not attached.
#[test]
fn asked_of_the_wrong_side() {
    let mut house = House::new(2, 32, true, 0);
    assert_eq!(house.bench.sender.begin_pop(false, 1), Answer::BadCall);
    assert_eq!(
        house.bench.recorder.begin_push(false, 1, 1),
        Answer::BadCall
    );
    for side in [SENDER, RECORDER] {
        let party = house.bench.party_mut(side);
        assert_eq!(party.begin_close(side.other()), Answer::BadCall);
        assert_eq!(party.begin_shutdown(side.other()), Answer::BadCall);
        party.step = Step::Asleep;
        assert_eq!(party.spurious_return(side.other()), Answer::BadCall);
        assert_eq!(party.time_out(side.other()), Answer::BadCall);
    }
    let region = &mut house.region;
    let taken = house.bench.sender.recorder_turn(region, &mut [], None);
    assert_eq!(taken.answer, Answer::BadCall);
    let taken = house.bench.recorder.sender_turn(region, &[], None);
    assert_eq!(taken.answer, Answer::BadCall);
    // A record at a step of the other side was made by no begin.
    for step in [Step::C1, Step::W6 { timed_out: true }] {
        house.bench.sender.step = step;
        assert_eq!(house.turn(SENDER), Answer::BadCall);
    }
    for step in [Step::P1, Step::B6] {
        house.bench.recorder.step = step;
        assert_eq!(house.turn(RECORDER), Answer::BadCall);
    }
}

#[test]
fn wrong_region_length() {
    let mut house = House::new(2, 32, true, 0);
    let mut longer = house.region.clone();
    longer.push(0);
    for step in [Step::Rest, Step::Asleep, Step::P1] {
        house.bench.sender.step = step;
        for region in [&mut longer[..], &mut house.region[..511], &mut []] {
            let taken = house.bench.sender.sender_turn(region, &[], None);
            assert_eq!(taken.answer, Answer::BadCall);
        }
    }
}

#[test]
fn wrong_buffer_length_only_at_the_copy_turns() {
    let mut house = House::new(2, 32, true, 0);
    house.begin_push(false, 1, b"abc");
    let region = &mut house.region;
    let bench = &mut house.bench;
    assert_eq!(bench.sender_turn(region, b"", None), Answer::GoesOn);
    let before = (region.clone(), *bench);
    for lent in [&b"ab"[..], b"abcd", b""] {
        assert_eq!(bench.sender_turn(region, lent, None), Answer::BadCall);
    }
    assert_eq!((region.clone(), *bench), before);
    assert_eq!(bench.sender_turn(region, b"abc", None), Answer::GoesOn);
    for _ in 0..3 {
        assert_eq!(bench.sender_turn(region, b"longer", None), Answer::GoesOn);
    }
    assert_eq!(bench.sender_turn(region, b"", None), Answer::Done);

    bench.recorder.begin_pop(false, 4);
    let mut other = [0xEE; 9];
    let answer = bench.recorder_turn(region, &mut other, None);
    assert_eq!(answer, Answer::GoesOn);
    let before = (region.clone(), *bench);
    for length in [0, 3, 5, 9] {
        let answer = bench.recorder_turn(region, &mut other[..length], None);
        assert_eq!(answer, Answer::BadCall);
    }
    assert_eq!(
        (region.clone(), *bench, other),
        (before.0, before.1, [0xEE; 9])
    );
    let mut buffer = [0xEE; 4];
    let answer = bench.recorder_turn(region, &mut buffer, None);
    assert_eq!((answer, &buffer), (Answer::GoesOn, b"abc\xEE"));
    let answer = bench.recorder_turn(region, &mut other[..1], None);
    assert_eq!(answer, Answer::GoesOn);
    let note = Answer::Delivered { tag: 1, length: 3 };
    assert_eq!(bench.recorder_turn(region, &mut [], None), note);
}

/// Error 0 is 20 at every step of a push, a pop, a close and a shutdown, at rest and asleep.
#[test]
fn error_zero_at_any_step() {
    let mut house = House::new(1, 16, true, 0);
    let refused = |house: &mut House| {
        for side in [SENDER, RECORDER] {
            let before = (house.bench, house.region.clone());
            assert_eq!(house.failing_turn(side, Some(0)), Answer::BadCall);
            assert_eq!((house.bench, house.region.clone()), before);
        }
    };
    refused(&mut house);
    house.begin_pop(true, 8);
    for _ in 0..6 {
        house.turn(RECORDER);
        refused(&mut house);
    }
    assert_eq!(house.step(RECORDER), Step::Asleep);
    for _ in 0..3 {
        house.begin_push(true, 1, b"x");
        for _ in 0..6 {
            house.turn(SENDER);
            refused(&mut house);
        }
    }
    for _ in 0..6 {
        house.turn(RECORDER);
        refused(&mut house);
    }
    house.bench.recorder.begin_shutdown(RECORDER);
    for _ in 0..5 {
        house.turn(RECORDER);
        refused(&mut house);
    }
}

#[test]
fn nothing_for_those_at_rest_or_awake() {
    let mut house = House::new(1, 16, true, 0);
    for side in [SENDER, RECORDER] {
        assert_eq!(house.turn(side), Answer::Nothing);
        assert_eq!(house.failing_turn(side, Some(5)), Answer::Nothing);
        let party = house.bench.party_mut(side);
        assert_eq!(party.spurious_return(side), Answer::Nothing);
        assert_eq!(party.time_out(side), Answer::Nothing);
        party.step = side.first_step();
        let before = *party;
        assert_eq!(party.spurious_return(side), Answer::Nothing);
        assert_eq!(party.time_out(side), Answer::Nothing);
        assert_eq!(*party, before);
    }
}
