//! Spins before the epoch (request (v)): how many there are, what each of them finds, and which
//! counts are refused.

mod common;

use common::House;
use reference::region::MOST_SPINS;
use reference::{attach, create, Answer, Header, Party, Side, Step};

const SENDER: Side = Side::Sender;
const RECORDER: Side = Side::Recorder;
const SIDES: [Side; 2] = [SENDER, RECORDER];

/// A blocking call with no room, so many turns on.
fn blocked(side: Side, spins: u16, turns: usize) -> House {
    let mut house = House::spinning(1, 16, true, 0, spins);
    match side {
        Side::Sender => {
            house.push(1, b"a");
            house.push(2, b"b");
            assert_eq!(house.begin_push(true, 3, b"c"), Answer::Begun);
        }
        Side::Recorder => assert_eq!(house.begin_pop(true, 8), Answer::Begun),
    }
    house.go_on(side, turns);
    house
}

/// The steps of a blocking call that finds no room, with the epoch that it reads.
fn steps(side: Side, spins: u16, epoch: u32) -> Vec<Step> {
    let ([look, gate, read], last) = match side {
        Side::Sender => (
            [Step::P1, Step::B1, Step::B2],
            [
                Step::B3 { epoch },
                Step::B4 { epoch },
                Step::B5 { epoch },
                Step::Asleep,
            ],
        ),
        Side::Recorder => (
            [Step::C1, Step::W1, Step::W2],
            [
                Step::W3 { epoch },
                Step::W4 { epoch },
                Step::W5 { epoch },
                Step::Asleep,
            ],
        ),
    };
    let mut steps = vec![look, gate];
    steps.extend((0..spins).rev().map(|left| Step::Spin { left }));
    steps.push(read);
    steps.extend(last);
    steps
}

fn closed_flag(side: Side) -> u32 {
    match side {
        Side::Sender => Header::SENDER_CLOSED,
        Side::Recorder => Header::RECORDER_CLOSED,
    }
}

fn bell_of(side: Side) -> usize {
    match side {
        Side::Sender => Header::AT_NF,
        Side::Recorder => Header::AT_NE,
    }
}

/// As many spins as the count says, each leading to the next, and then the epoch.
#[test]
fn the_spins_come_between_the_gate_and_the_epoch() {
    for side in SIDES {
        for spins in [0, 1, 2, 7, MOST_SPINS] {
            let mut house = blocked(side, spins, 0);
            house.put(bell_of(side), &[5]);
            let before = house.clone();
            let steps = steps(side, spins, 5);
            for (turn, &step) in steps.iter().enumerate() {
                assert_eq!(house.step(side), step, "{side:?}, {spins} spins, {turn}");
                if step != Step::Asleep {
                    house.go_on(side, 1);
                }
            }
            assert_eq!(house.region, before.region);
            assert_eq!(house.bench.party(side).spins, spins);
            assert_eq!(house.bench.party(side.other()).step, Step::Rest);
        }
    }
}

/// A bell that rings during the spins is in the epoch already, and the call sleeps; an epoch from
/// before them would not let it.
#[test]
fn the_epoch_is_read_after_the_last_spin() {
    for side in SIDES {
        for taken in 0..3 {
            let mut house = blocked(side, 3, 2 + taken);
            house.put(bell_of(side), &[9]);
            let steps = steps(side, 3, 9);
            for &step in &steps[2 + taken..steps.len() - 1] {
                assert_eq!(house.step(side), step);
                house.go_on(side, 1);
            }
            assert_eq!(house.step(side), Step::Asleep);
        }
    }
}

/// After a wake or a spurious return the call spins as often as before.
#[test]
fn every_round_spins_anew() {
    for side in SIDES {
        let mut house = blocked(side, 2, 8);
        for _ in 0..3 {
            assert_eq!(house.step(side), Step::Asleep);
            let answer = house.bench.party_mut(side).spurious_return(side);
            assert_eq!(answer, Answer::GoesOn);
            house.go_on(side, 2);
            assert_eq!(house.step(side), Step::Spin { left: 1 });
            house.go_on(side, 6);
        }
    }
}

/// What a side can use, a note or a free slot, by so many turns of the other's: three store its
/// counter, six ring and wake too.
fn comes_to(house: &mut House, side: Side, turns: usize) {
    let begun = match side {
        Side::Sender => house.begin_pop(false, 8),
        Side::Recorder => house.begin_push(false, 7, b"late"),
    };
    assert_eq!(begun, Answer::Begun);
    for _ in 0..turns {
        house.turn(side.other());
    }
}

/// The first, a middle and the last spin find what came. A wake does not move a party that spins.
#[test]
fn a_spin_that_finds_room_leads_to_the_copy() {
    for side in SIDES {
        for taken in 0..3 {
            for turns in [3, 6] {
                let mut house = blocked(side, 3, 2 + taken);
                comes_to(&mut house, side, turns);
                let left = 2 - taken as u16;
                assert_eq!(house.step(side), Step::Spin { left });
                house.go_on(side, 1);
                let (copy, done) = match side {
                    Side::Sender => (Step::P2, Answer::Done),
                    Side::Recorder => (Step::C2, Answer::Delivered { tag: 7, length: 4 }),
                };
                assert_eq!(house.step(side), copy);
                assert_eq!(house.finish(side), (done, 3));
            }
        }
    }
}

#[test]
fn a_corrupt_counter_at_a_spin_is_7() {
    for side in SIDES {
        let mut house = blocked(side, 3, 3);
        let (at, other) = match side {
            Side::Sender => (Header::AT_TAIL, u64::MAX),
            Side::Recorder => (Header::AT_HEAD, 3),
        };
        house.put(at, &other.to_le_bytes());
        house.go_on(side, 1);
        assert_eq!(house.flags() & Header::SHUTDOWN, 0);
        assert_eq!(house.finish(side), (Answer::CorruptIndices, 5));
        assert_ne!(house.flags() & Header::SHUTDOWN, 0);
    }
}

/// A spin loads a counter and no flags: the second look at the flags sees what came meanwhile.
#[test]
fn flags_are_not_seen_before_the_second_look() {
    for side in SIDES {
        for (bit, answer) in [
            (Header::SHUTDOWN, Answer::Shutdown),
            (closed_flag(side.other()), Answer::Closed),
        ] {
            let mut house = blocked(side, 2, 2);
            let flags = house.flags() | bit;
            house.put(Header::AT_FLAGS, &flags.to_le_bytes());
            // Both spins, the epoch and the look after it.
            house.go_on(side, 4);
            let last_look = side == RECORDER && answer == Answer::Closed;
            house.go_on(side, usize::from(last_look));
            assert_eq!(house.turn(side), answer, "{side:?}");
        }
    }
}

/// 253 for what only a sleeper hears, and 20 for what is begun, for error 0 and for a region of
/// another length. Any other announced failure is ignored: a spin makes no futex call.
#[test]
fn what_is_refused_at_a_spin() {
    for side in SIDES {
        let mut house = blocked(side, 2, 2);
        let before = house.clone();
        let party = house.bench.party_mut(side);
        assert_eq!(party.time_out(side), Answer::Nothing);
        assert_eq!(party.spurious_return(side), Answer::Nothing);
        let begun = match side {
            Side::Sender => party.begin_push(false, 1, 1),
            Side::Recorder => party.begin_pop(false, 1),
        };
        assert_eq!(begun, Answer::BadCall);
        assert_eq!(party.begin_close(side), Answer::BadCall);
        assert_eq!(party.begin_shutdown(side), Answer::BadCall);
        assert_eq!(house.failing_turn(side, Some(0)), Answer::BadCall);
        house.region.push(0);
        assert_eq!(house.turn(side), Answer::BadCall);
        house.region.pop();
        assert_eq!(house.bench, before.bench);
        assert_eq!(house.region, before.region);
        for step in [Step::Spin { left: 0 }, side.after_spins(0)] {
            assert_eq!(house.failing_turn(side, Some(110)), Answer::GoesOn);
            assert_eq!(house.step(side), step);
        }
    }
}

fn fresh() -> Vec<u8> {
    let mut region = vec![0xA5; 400];
    assert_eq!(create(&mut region, 1, 8, true, 0), Answer::Done);
    region
}

/// Every count: 0 to 1,000 stand in the record, and a larger one is 20 and changes nothing.
#[test]
fn every_count_is_taken_or_refused() {
    let fresh = fresh();
    for side in SIDES {
        for spins in 0..=u16::MAX {
            let mut region = fresh.clone();
            let (answer, party) = attach(&mut region, side, spins);
            if spins <= 1000 {
                assert_eq!((answer, party.spins), (Answer::Done, spins));
                assert!(party.attached);
            } else {
                assert_eq!((answer, party), (Answer::BadCall, Party::unattached(side)));
                assert_eq!(region, fresh);
            }
        }
    }
}

/// 20 before every check of attach, each of which answers with its own number to a count within
/// the limit.
#[test]
fn a_count_above_the_limit_is_refused_first() {
    let damages: [(usize, u8, Answer); 7] = [
        (Header::AT_MAGIC, 0, Answer::InvalidMagic),
        (Header::AT_VERSION_MINOR, 9, Answer::UnsupportedVersion),
        (Header::AT_HEADER_SIZE, 0, Answer::InvalidHeaderSize),
        (Header::AT_TOTAL_SIZE, 0, Answer::InvalidLayout),
        (Header::AT_SLOT_SIZE, 12, Answer::InvalidSlotSize),
        (Header::AT_POWER, 0, Answer::InvalidCapacity),
        (Header::AT_FLAGS, 0x40, Answer::WouldBlock),
    ];
    for side in SIDES {
        let mut regions: Vec<(Vec<u8>, Answer)> = vec![
            (Vec::new(), Answer::InvalidLayout),
            (vec![0; 383], Answer::InvalidLayout),
        ];
        regions.extend(damages.map(|(at, byte, answer)| {
            let mut region = fresh();
            region[at] = byte;
            (region, answer)
        }));
        let mut attached = fresh();
        assert_eq!(attach(&mut attached, side, 0).0, Answer::Done);
        regions.push((attached, Answer::AlreadyAttached));
        for (region, own) in regions {
            for (spins, answer) in [
                (MOST_SPINS, own),
                (MOST_SPINS + 1, Answer::BadCall),
                (u16::MAX, Answer::BadCall),
            ] {
                let mut lent = region.clone();
                let refused = attach(&mut lent, side, spins);
                assert_eq!(refused, (answer, Party::unattached(side)));
                assert_eq!(lent, region);
            }
        }
    }
}

/// The largest count goes in a record that somebody has spoilt; how many spins are left stands in
/// the step.
#[test]
fn the_step_carries_what_is_left() {
    for side in SIDES {
        let mut house = blocked(side, 2, 2);
        house.bench.party_mut(side).spins = MOST_SPINS;
        house.go_on(side, 1);
        assert_eq!(house.step(side), Step::Spin { left: 0 });
        house.bench.party_mut(side).step = Step::Spin { left: u16::MAX };
        house.go_on(side, 1);
        let left = u16::MAX - 1;
        assert_eq!(house.step(side), Step::Spin { left });
    }
}
