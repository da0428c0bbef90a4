//! The cases do what their names say: the answers that end their calls, and the spins they take.

use std::sync::OnceLock;

use reference::cases::case::{Case, SIDES};
use reference::cases::list;
use reference::cases::record::{Ask, Record};
use reference::cases::stage::Stage;
use reference::{Answer, Side, Step};
use Side::{Recorder, Sender};

fn cases() -> &'static [Case] {
    static CASES: OnceLock<Vec<Case>> = OnceLock::new();
    CASES.get_or_init(list)
}

/// The records of a case, by its name.
fn records(name: &str) -> impl Iterator<Item = Record> {
    let case = cases().iter().find(|case| case.name == name);
    case.expect(name).records.iter().copied()
}

/// What a flipped bit of the header of a note of three bytes with tag 1 gives, payload capacity
/// 8: the other length or tag, or 8. Of slot flags and zero word flag 0 alone is accepted.
fn flipped(bit: u32) -> Answer {
    let (length, tag) = match bit {
        0..16 => (3 ^ 1 << bit, 1),
        16..32 => (3, 1 ^ 1 << (bit - 16)),
        32 => (3, 1),
        _ => return Answer::CorruptSlot,
    };
    match length {
        0..=8 => Answer::Delivered { tag, length },
        _ => Answer::CorruptSlot,
    }
}

#[test]
fn every_bit_of_a_slot_header_is_flipped_and_has_its_answer() {
    for bit in 0..64 {
        let name = format!("C2: bit {bit} of a slot's header is flipped");
        let ended = ended(&name).into_iter();
        let ended: Vec<Answer> = ended
            .filter(|(side, _)| *side == Recorder)
            .map(|(_, answer)| answer)
            .collect();
        let short = match flipped(bit) {
            Answer::Delivered { length, .. } => Answer::OutputTooSmall { length },
            other => other,
        };
        assert_eq!(ended, [short, flipped(bit)], "{name}");
    }
}

/// What the turns of a case that are no GoesOn answer, with their sides. What is refused with 253
/// is left out.
fn ended(name: &str) -> Vec<(Side, Answer)> {
    let mut stage = Stage::new();
    let mut ended = Vec::new();
    for record in records(name) {
        let answer = stage.play(record).answer;
        let turn = matches!(record.ask, Ask::Turn(_) | Ask::Failing(..));
        if turn && answer.number() < 253 {
            ended.push((record.ask.actor().expect("a turn is a party's"), answer));
        }
    }
    ended
}

/// The cases of the last look are what their names say.
#[test]
fn the_last_looks_have_their_answers() {
    let note = |tag, length| (Recorder, Answer::Delivered { tag, length });
    let done = (Sender, Answer::Done);
    let timeout = |side| (side, Answer::Timeout);
    let corrupt = |side| (side, Answer::CorruptIndices);
    let closed = (Recorder, Answer::Closed);
    for place in ["W1", "W4"] {
        let name = format!("{place} and W6: the last note, then the close; 11 comes after it");
        assert_eq!(ended(&name), [done, done, note(1, 3), closed], "{name}");
    }
    let expected: [(&str, &[(Side, Answer)]); 11] = [
        (
            "A time-out of the sender: what came meanwhile",
            &[done, done, done, note(1, 3)],
        ),
        (
            "A time-out of the recorder: what came meanwhile",
            &[note(3, 4), done],
        ),
        (
            "Error 110 of the sender: what came meanwhile",
            &[done, done, note(1, 3), done],
        ),
        (
            "Error 110 of the recorder: what came meanwhile",
            &[done, note(3, 4)],
        ),
        (
            "Last look of the sender over all flags: 13 and not 12",
            &[done, done, timeout(Sender)],
        ),
        (
            "Last look of the recorder over all flags: 13 and not 12",
            &[timeout(Recorder)],
        ),
        (
            "W6 after a shutdown: 11 and not 12, and a note is delivered",
            &[closed, done, note(1, 3)],
        ),
        (
            "Answer 7 at B6 after a time-out, failed wakes ignored",
            &[done, done, corrupt(Sender)],
        ),
        (
            "Answer 7 at W6 after a time-out, failed wakes ignored",
            &[corrupt(Recorder)],
        ),
        (
            "Answer 7 at W6 after a close, 11 is not given",
            &[done, corrupt(Recorder)],
        ),
        (
            "Close recorder: the other wakes and answers 11",
            &[
                done,
                done,
                (Recorder, Answer::Done),
                (Sender, Answer::Closed),
                (Recorder, Answer::Done),
                (Sender, Answer::Shutdown),
            ],
        ),
    ];
    for (name, answers) in expected {
        assert_eq!(ended(name), answers, "{name}");
    }
}

/// The largest note goes through the largest slot, and no total or product is cut to 32 bits.
#[test]
fn sizes_at_the_limits_have_their_answers() {
    let (tag, length) = (u16::MAX, 65_528);
    let through = [
        (Sender, Answer::Done),
        (Sender, Answer::Full),
        (Recorder, Answer::Delivered { tag, length }),
    ];
    assert_eq!(ended("Sizes: power 1, slot 65536"), through);

    let mut stage = Stage::new();
    let mut refused = [0, 0];
    for case in cases()
        .iter()
        .filter(|case| case.name.ends_with("in 32 bits"))
    {
        for &record in &case.records {
            let answer = stage.play(record).answer;
            match record.region {
                384 if answer == Answer::InvalidLayout => refused[0] += 1,
                384 if answer == Answer::BadCall => refused[1] += 1,
                384 => assert_eq!(answer, Answer::Done, "{record:?}"),
                _ => {}
            }
        }
    }
    assert_eq!(refused, [9, 6]);
}

/// The turns of a side in a case that go on: from which step, to which.
fn taken(name: &str, side: Side) -> Vec<(Step, Step)> {
    let mut stage = Stage::new();
    let mut taken = Vec::new();
    for record in records(name) {
        let before = stage.bench.party(side).step;
        let answer = stage.play(record).answer;
        let turn = matches!(record.ask, Ask::Turn(who) | Ask::Failing(who, _) if who == side);
        if turn && answer == Answer::GoesOn {
            taken.push((before, stage.bench.party(side).step));
        }
    }
    taken
}

/// How many spins a side takes in a case, and how many epochs it reads.
fn spins_and_epochs(name: &str, side: Side) -> (usize, usize) {
    let taken = taken(name, side);
    let count = |of: fn(Step) -> bool| taken.iter().filter(|(from, _)| of(*from)).count();
    (
        count(|step| matches!(step, Step::Spin { .. })),
        count(|step| matches!(step, Step::B2 | Step::W2)),
    )
}

/// The counts 1, 2 and 1,000, and then the epoch and sleep.
#[test]
fn the_cases_spin_as_often_as_they_say() {
    for side in SIDES {
        for (spins, rounds) in [(1, 2), (2, 2), (1000, 1)] {
            let name = format!("Spins of the {}: {spins}, then the epoch", side.name());
            let expected = (spins * rounds, rounds);
            assert_eq!(spins_and_epochs(&name, side), expected, "{name}");
            let sleeps = taken(&name, side)
                .iter()
                .filter(|(_, to)| *to == Step::Asleep)
                .count();
            assert_eq!(sleeps, rounds, "{name}");
        }
        let name = format!("The {} reads its epoch after its last spin", side.name());
        assert_eq!(spins_and_epochs(&name, side), (2, 1));
        let last = taken(&name, side).last().map(|(_, to)| *to);
        assert_eq!(last, Some(Step::Asleep), "{name}");
    }
}

/// What the calls of a case answer after those of the sender that fill the ring for it.
fn ended_spinning(name: &str, side: Side) -> Vec<(Side, Answer)> {
    let filled = match side {
        Sender => 2,
        Recorder => 0,
    };
    ended(name).split_off(filled)
}

#[test]
fn what_spins_find_has_its_answer() {
    let done = |side| (side, Answer::Done);
    let note = |tag, length| (Recorder, Answer::Delivered { tag, length });
    for side in SIDES {
        let (who, other) = (side.name(), side.other());
        for (before, which) in ["first", "second", "last"].into_iter().enumerate() {
            let name = format!("The {which} of 3 spins of the {who} finds room");
            assert_eq!(spins_and_epochs(&name, side), (before + 1, 0), "{name}");
            let expected = match side {
                Sender => [done(Sender), note(1, 3)],
                Recorder => [note(3, 4), done(Sender)],
            };
            assert_eq!(ended_spinning(&name, side), expected, "{name}");
        }
        let name = format!("Answer 7 at a spin of the {who}, failed wakes ignored");
        let corrupt = [(side, Answer::CorruptIndices)];
        assert_eq!(ended_spinning(&name, side), corrupt, "{name}");
        let place = match side {
            Sender => "B4",
            Recorder => "W4",
        };
        for (ends, answer) in [("close", Answer::Closed), ("shutdown", Answer::Shutdown)] {
            let name = format!("{place}: {ends} {} while the {who} spins", other.name());
            let expected = [done(other), (side, answer)];
            assert_eq!(ended_spinning(&name, side), expected, "{name}");
            assert_eq!(spins_and_epochs(&name, side), (2, 1), "{name}");
        }
    }
}

/// The answer numbers of the asks of a case that are of some kind.
fn numbers(name: &str, of: fn(Ask) -> bool) -> Vec<u8> {
    let mut stage = Stage::new();
    let played = records(name).map(|record| (record.ask, stage.play(record).answer.number()));
    let wanted = played.filter(|(ask, _)| of(*ask));
    wanted.map(|(_, number)| number).collect()
}

/// 1,001 and 65,535 spins are 20 whatever is wrong with the region, and with nothing; 1,000 get
/// the number of what is wrong.
#[test]
fn too_many_spins_are_refused_before_all_else() {
    for side in SIDES {
        let name = format!("Attach's 20 before all its checks, {}", side.name());
        let attaches = numbers(&name, |ask| {
            matches!(ask, Ask::Attach { spins: 1000.., .. })
        });
        let own = [4, 4, 1, 2, 3, 4, 4, 4, 4, 6, 5, 4, 4, 14, 0, 16];
        assert_eq!(attaches, own.map(|own| [20, 20, own]).concat(), "{name}");
    }
}

#[test]
fn what_is_asked_at_a_spin_has_its_answer() {
    let asked = |ask: Ask| ask.actor().is_some();
    for side in SIDES {
        let filling = match side {
            // Two pushes with their six and four turns.
            Sender => 2 + 6 + 4,
            Recorder => 0,
        };
        let after_gate = |name: &str| numbers(name, asked).split_off(filling + 1 + 2);
        let name = format!("Answers 20 and 253 at a spin of the {}", side.name());
        let expected = [20, 253, 253, 20, 20, 20, 20, 20, 255, 255, 255];
        assert_eq!(after_gate(&name), expected, "{name}");
        let name = format!("Answer 20: a spin count out of its limits, {}", side.name());
        let mut expected = vec![20; 16];
        expected.extend([255; 13]);
        assert_eq!(after_gate(&name), expected, "{name}");
    }
}
