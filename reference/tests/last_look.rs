//! The look at the ring before 11 and 13 (request (iii)): what came since the look before it is
//! found, and nothing else is looked at.

mod common;

use common::House;
use reference::{Answer, Header, Side, Step};

const SENDER: Side = Side::Sender;
const RECORDER: Side = Side::Recorder;
const SIDES: [Side; 2] = [SENDER, RECORDER];

/// A pop's first turns, up to its two looks at the flags: C1, and C1 W1 W2 W3.
const TO_FLAGS: [usize; 2] = [1, 4];

fn last_look(side: Side) -> Step {
    match side {
        Side::Sender => Step::B6,
        Side::Recorder => Step::W6 { timed_out: true },
    }
}

fn delivered(tag: u16, length: u16) -> Answer {
    Answer::Delivered { tag, length }
}

/// A blocking call of a side with no room, so many turns on.
fn blocked(side: Side, turns: usize) -> House {
    let mut house = House::new(1, 16, true, 0);
    match side {
        Side::Sender => {
            house.push(1, b"a");
            house.push(2, b"b");
            assert_eq!(house.begin_push(true, 3, b"c"), Answer::Begun);
        }
        Side::Recorder => assert_eq!(house.begin_pop(true, 8), Answer::Begun),
    }
    house.go_on(side, turns);
    house
}

fn asleep(side: Side) -> House {
    let house = blocked(side, 6);
    assert_eq!(house.step(side), Step::Asleep);
    house
}

fn close(house: &mut House, side: Side) {
    assert_eq!(house.bench.party_mut(side).begin_close(side), Answer::Begun);
    assert_eq!(house.finish(side).0, Answer::Done);
}

/// What a side can use, a note or a free slot, by so many turns of the other's: three store its
/// counter, five raise the bell too.
fn comes_to(house: &mut House, side: Side, turns: usize) {
    let begun = match side {
        Side::Sender => house.begin_pop(false, 8),
        Side::Recorder => house.begin_push(false, 7, b"late"),
    };
    assert_eq!(begun, Answer::Begun);
    house.go_on(side.other(), turns);
}

/// A call at its last look finds what came, and goes on to its end.
fn finds(house: &mut House, side: Side) {
    assert_eq!(house.step(side), last_look(side));
    house.go_on(side, 1);
    let (copy, done) = match side {
        Side::Sender => (Step::P2, Answer::Done),
        Side::Recorder => (Step::C2, delivered(7, 4)),
    };
    assert_eq!(house.step(side), copy);
    // Copy, store, and the look after the store.
    assert_eq!(house.finish(side), (done, 3));
    match side {
        Side::Sender => assert_eq!(house.u64_at(Header::AT_HEAD), 3),
        Side::Recorder => assert_eq!(house.buffer, b"late\xEE\xEE\xEE\xEE"),
    }
}

/// A call at its last look finds nothing: its answer, and no byte changed.
fn finds_nothing(house: &mut House, side: Side, answer: Answer) {
    let before = house.clone();
    assert_eq!(house.turn(side), answer);
    assert_eq!(house.step(side), Step::Rest);
    assert_eq!(house.region, before.region);
    assert_eq!(house.buffer, before.buffer);
    assert_eq!(
        house.bench.party(side).count,
        before.bench.party(side).count
    );
}

/// The request's own night: the pop has seen the ring empty, the sender pushes its last note and
/// closes, and then the pop sees the close.
#[test]
fn the_last_note_before_a_close_is_delivered() {
    for turns in TO_FLAGS {
        let mut house = blocked(RECORDER, turns);
        house.push(9, b"last");
        close(&mut house, SENDER);
        house.go_on(RECORDER, 1);
        assert_eq!(house.step(RECORDER), Step::W6 { timed_out: false });
        house.go_on(RECORDER, 1);
        assert_eq!(house.step(RECORDER), Step::C2);
        assert_eq!(house.finish(RECORDER), (delivered(9, 4), 3));
        assert_eq!(house.buffer, b"last\xEE\xEE\xEE\xEE");
        // C1, W1, W6.
        house.begin_pop(true, 8);
        assert_eq!(house.finish(RECORDER), (Answer::Closed, 3));
    }
}

#[test]
fn a_close_over_an_empty_ring_is_11() {
    for turns in TO_FLAGS {
        let mut house = blocked(RECORDER, turns);
        close(&mut house, SENDER);
        house.go_on(RECORDER, 1);
        finds_nothing(&mut house, RECORDER, Answer::Closed);
    }
}

/// The recorder takes a note and closes between P1, or B3, and the look at the flags: there is
/// room by then, and nobody who would take a note.
#[test]
fn a_sender_is_told_of_a_close_at_once() {
    for turns in TO_FLAGS {
        let mut house = blocked(SENDER, turns);
        assert_eq!(house.pop(8), delivered(1, 1));
        close(&mut house, RECORDER);
        finds_nothing(&mut house, SENDER, Answer::Closed);
    }
}

#[test]
fn a_time_out_over_nothing_is_13() {
    for side in SIDES {
        let mut house = asleep(side);
        let party = house.bench.party_mut(side);
        assert_eq!(party.time_out(side), Answer::GoesOn);
        assert_eq!(party.step, last_look(side));
        finds_nothing(&mut house, side, Answer::Timeout);
    }
}

/// The other has stored its counter and not yet rung.
#[test]
fn a_time_out_finds_what_came_meanwhile() {
    for side in SIDES {
        let mut house = asleep(side);
        comes_to(&mut house, side, 3);
        assert_eq!(house.step(side), Step::Asleep);
        assert_eq!(house.bench.party_mut(side).time_out(side), Answer::GoesOn);
        finds(&mut house, side);
    }
}

/// Whatever the word holds: the epoch still, or raised.
#[test]
fn error_110_takes_the_same_path() {
    for side in SIDES {
        for turns in [3, 5] {
            let mut house = blocked(side, 5);
            comes_to(&mut house, side, turns);
            assert_eq!(house.failing_turn(side, Some(110)), Answer::GoesOn);
            finds(&mut house, side);
        }
        let mut house = blocked(side, 5);
        assert_eq!(house.failing_turn(side, Some(110)), Answer::GoesOn);
        finds_nothing(&mut house, side, Answer::Timeout);
    }
}

/// Shutdown and both closes are set just before the last look.
#[test]
fn the_flags_are_not_looked_at_again() {
    for side in SIDES {
        for room in [false, true] {
            let mut house = asleep(side);
            if room {
                comes_to(&mut house, side, 3);
            }
            house.bench.party_mut(side).time_out(side);
            house.put(Header::AT_FLAGS, &[0x7F]);
            match room {
                true => finds(&mut house, side),
                false => finds_nothing(&mut house, side, Answer::Timeout),
            }
        }
    }
    let mut house = blocked(RECORDER, 1);
    house.put(Header::AT_FLAGS, &[0x4F]);
    house.go_on(RECORDER, 1);
    house.put(Header::AT_FLAGS, &[0x7F]);
    finds_nothing(&mut house, RECORDER, Answer::Closed);
}

/// A wake reaches whoever sleeps, and a party at its last look does not.
#[test]
fn a_wake_does_not_move_a_party_at_its_last_look() {
    for side in SIDES {
        let mut house = asleep(side);
        comes_to(&mut house, side, 5);
        house.bench.party_mut(side).time_out(side);
        house.turn(side.other());
        assert_eq!(house.step(side.other()), Step::Rest);
        finds(&mut house, side);
    }
}

/// 253 for what only a sleeper hears, and 20 for what is begun, for error 0 and for a region of
/// another length. Any other announced failure is ignored: the turn makes no futex call.
#[test]
fn what_is_refused_at_the_last_look() {
    for side in SIDES {
        let mut house = asleep(side);
        house.bench.party_mut(side).time_out(side);
        let before = house.clone();
        let party = house.bench.party_mut(side);
        assert_eq!(party.time_out(side), Answer::Nothing);
        assert_eq!(party.spurious_return(side), Answer::Nothing);
        let begun = match side {
            Side::Sender => party.begin_push(false, 1, 1),
            Side::Recorder => party.begin_pop(false, 1),
        };
        assert_eq!(begun, Answer::BadCall);
        assert_eq!(party.begin_close(side), Answer::BadCall);
        assert_eq!(party.begin_shutdown(side), Answer::BadCall);
        assert_eq!(house.failing_turn(side, Some(0)), Answer::BadCall);
        house.region.push(0);
        assert_eq!(house.turn(side), Answer::BadCall);
        house.region.pop();
        assert_eq!(house.bench, before.bench);
        assert_eq!(house.region, before.region);
        assert_eq!(house.failing_turn(side, Some(22)), Answer::Timeout);
    }
}
