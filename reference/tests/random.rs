//! Random scripts: the same for the same seed, of every sort, and never against the rules.

mod common;

use std::collections::{BTreeSet, VecDeque};

use reference::random::Generator;
use reference::script::{Kind, Player, Record};
use reference::{words, Answer, Header, Side, Step};

fn used(player: &Player) -> u64 {
    let word = |at: usize| u64::from_le_bytes(player.region()[at..at + 8].try_into().unwrap());
    word(Header::AT_HEAD).wrapping_sub(word(Header::AT_TAIL))
}

#[test]
fn the_same_for_the_same_seed() {
    let script = |seed| Generator::new(seed, 500).collect::<Vec<_>>();
    assert_eq!(script(8), script(8));
    assert_ne!(script(8), script(9));
    assert_eq!(Generator::new(1, 0).count(), 0);
    assert_eq!(Generator::new(1, 1).count(), 1);
}

/// A pop's turn answers 11 over an empty ring alone, and 13 so; a push's 13 over a full one.
fn ended_over_nothing(record: &Record, answer: Answer, waiting: usize) {
    let side = match Kind::of_number(record.kind) {
        Some(Kind::Turn(side) | Kind::FailingTurn(side)) => side,
        _ => {
            assert_ne!(answer, Answer::Timeout);
            return;
        }
    };
    match (answer, side) {
        (Answer::Closed | Answer::Timeout, Side::Recorder) => assert_eq!(waiting, 0),
        (Answer::Timeout, Side::Sender) => assert_eq!(waiting, 4),
        _ => {}
    }
}

/// Plays a script beside a plain list of notes.
#[test]
fn delivered_notes_are_the_sent_ones_in_order() {
    let mut deliveries = 0;
    for seed in 0..100 {
        let mut player = Player::new();
        let mut waiting = VecDeque::new();
        let mut delivered = None;
        for bytes in Generator::new(seed, 2000) {
            let before = *player.bench();
            let record = Record::from_bytes(&bytes);
            let answer = player.answer(&record);
            let after = player.bench();
            if before.sender.step == Step::P3 && after.sender.step == Step::P4 {
                let note = player.payload()[..after.sender.length].to_vec();
                waiting.push_back((after.sender.tag, note));
            }
            if let (Step::C3 { length }, Step::C4 { .. }) =
                (before.recorder.step, after.recorder.step)
            {
                let note = player.buffer()[..usize::from(length)].to_vec();
                assert_eq!(
                    waiting.pop_front(),
                    Some((after.recorder.tag, note.clone()))
                );
                delivered = Some((after.recorder.tag, note));
                deliveries += 1;
            }
            if let Answer::Delivered { tag, length } = answer {
                let note = player.buffer()[..usize::from(length)].to_vec();
                assert_eq!(delivered.take(), Some((tag, note)));
            }
            assert_eq!(used(&player), waiting.len() as u64);
            assert!(waiting.len() <= 4, "more waiting than the capacity");
            ended_over_nothing(&record, answer, waiting.len());
        }
    }
    assert!(deliveries > 5000, "only {deliveries} notes delivered");
}

/// Without failed wakes nobody sleeps on while there is something for him, unless the other
/// party is on its way to the wake.
#[test]
fn no_wake_is_lost() {
    let mut sleeps = 0;
    for seed in (0..200).step_by(2) {
        let mut player = Player::new();
        for bytes in Generator::new(seed, 2000) {
            let mut record = Record::from_bytes(&bytes);
            if let Some(Kind::FailingTurn(side)) = Kind::of_number(record.kind) {
                record.kind = Kind::Turn(side).number();
            }
            player.answer(&record);
            let bench = player.bench();
            if bench.recorder.step == Step::Asleep && used(&player) > 0 {
                assert!(matches!(bench.sender.step, Step::P4 | Step::P5 | Step::P6));
            }
            if bench.sender.step == Step::Asleep && used(&player) < 4 {
                assert!(matches!(
                    bench.recorder.step,
                    Step::C4 { .. } | Step::C5 { .. } | Step::C6 { .. }
                ));
            }
            let asleep = [Side::Sender, Side::Recorder].map(|s| bench.party(s).step);
            assert_ne!(asleep, [Step::Asleep; 2], "both asleep");
            sleeps += u32::from(asleep.contains(&Step::Asleep));
        }
    }
    assert!(sleeps > 1000, "only {sleeps} records with a sleeper");
}

#[test]
fn scripts_hold_everything() {
    let mut kinds = BTreeSet::new();
    let mut answers = BTreeSet::new();
    let mut steps = BTreeSet::new();
    let mut errors = BTreeSet::new();
    for seed in 0..60 {
        let mut player = Player::new();
        for bytes in Generator::new(seed, 1500) {
            let record = Record::from_bytes(&bytes);
            let answer = player.answer(&record);
            kinds.insert(record.kind);
            answers.insert(answer.number());
            if let Answer::Syscall { operation, .. } = answer {
                errors.insert(operation.number());
            }
            for side in [Side::Sender, Side::Recorder] {
                steps.insert(side.name().to_string() + &words::step(player.bench().party(side)));
            }
            if seed % 2 == 0 {
                assert!(!(10..=13).contains(&record.kind), "an end in an even seed");
            }
        }
    }
    assert!((0..=13).all(|kind| kinds.contains(&kind)));
    assert!(kinds.iter().any(|&kind| kind > 13));
    let all = [0, 9, 10, 11, 12, 13, 15, 17, 18, 20, 253, 254, 255];
    assert!(answers.iter().eq(all.iter()), "{answers:?}");
    assert!(errors.iter().eq([0, 1, 2, 3].iter()), "{errors:?}");
    // 6 + 6 steps, at rest, asleep, 3 turns of close and 5 of shutdown, for each side.
    assert_eq!(steps.len(), 2 * (6 + 6 + 2 + 3 + 5), "{steps:?}");
}

/// Seeds 3 above a multiple of 4 close and shut down anywhere, other odd ones late.
#[test]
fn ends_come_late_or_anywhere() {
    let early_ends = |seed: u64| {
        let first_half = Generator::new(seed, 1000).take(500);
        first_half
            .filter(|bytes| (10..=13).contains(&bytes[0]))
            .count()
    };
    let total = |rest: u64| {
        (0..40)
            .map(|index| early_ends(4 * index + rest))
            .sum::<usize>()
    };
    assert_eq!(total(1), 0);
    assert!(total(3) > 40);
}
