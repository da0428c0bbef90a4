//! The table of what a run has played: what it holds for reachable, and what it says of gaps.

use std::collections::HashSet;

use reference::cases::record::Ask;
use reference::cases::stage::Stage;
use reference::coverage::event::Event;
use reference::coverage::reach::reach;
use reference::coverage::strays::Strays;
use reference::coverage::way::Place;
use reference::coverage::Coverage;
use reference::random::Generator;
use reference::script::{Player, Record, RECORD};
use reference::{cases, Answer, Side};

fn play(coverage: &mut Coverage, script: impl IntoIterator<Item = [u8; RECORD]>) {
    let mut player = Player::new();
    for bytes in script {
        let record = Record::from_bytes(&bytes);
        let before = *player.bench();
        let answer = player.answer(&record);
        coverage.count(&record, answer, &before, player.bench());
    }
}

fn records(script: &[u8]) -> impl Iterator<Item = [u8; RECORD]> + '_ {
    let records = script.chunks_exact(RECORD);
    assert!(records.remainder().is_empty());
    records.map(|bytes| bytes.try_into().unwrap())
}

fn gaps(coverage: &Coverage, of: &str) -> usize {
    let faults = coverage.faults();
    faults.iter().filter(|line| line.starts_with(of)).count()
}

/// Document 01 has 6 + 5 steps of a call, two of no turn, 3 of a close and 5 of a shutdown for
/// each side, and request (iii) a last look; whoever asks may ask for anything at any of them. The
/// spin of request (v) is not among them: the script program's parties have none.
#[test]
fn every_step_meets_every_event() {
    let reach = reach();
    let sides = [Side::Sender, Side::Recorder];
    let places: HashSet<Place> = sides.into_iter().flat_map(Place::all).collect();
    assert_eq!(places.len(), 2 * (6 + 5 + 1 + 2 + 3 + 5));
    let pairs: HashSet<(Place, Event)> =
        reach.ways.iter().map(|way| (way.from, way.event)).collect();
    let all = places
        .iter()
        .flat_map(|&place| Event::ALL.map(|event| (place, event)));
    assert_eq!(pairs, all.collect());
}

/// No script plays a way of a spin, and the cases play each of them, and no other.
#[test]
fn the_ways_of_a_spin_are_the_cases() {
    let sides = [Side::Sender, Side::Recorder];
    let expected: HashSet<(Place, Place)> = sides.into_iter().flat_map(Place::of_spins).collect();
    let spins: HashSet<Place> = expected
        .iter()
        .flat_map(|&(from, to)| [from, to])
        .filter(|place| place.name() == "S")
        .collect();
    assert_eq!(spins.len(), 2);
    assert!(reach().ways.iter().all(|way| !spins.contains(&way.from)));

    let mut stage = Stage::new();
    let mut found = HashSet::new();
    for record in cases::list().into_iter().flat_map(|case| case.records) {
        let before = stage.bench;
        let answer = stage.play(record).answer;
        let (Ask::Turn(side) | Ask::Failing(side, _), Answer::GoesOn) = (record.ask, answer) else {
            continue;
        };
        let way = [before, stage.bench].map(|bench| Place::of(bench.party(side)));
        if way.iter().any(|place| spins.contains(place)) {
            found.insert((way[0], way[1]));
        }
    }
    assert_eq!(found, expected);
}

/// The script program creates and attaches by itself, its counters and slots are sound and
/// not-full is on: so 1 to 8, 14, 16 and 19 do not come up.
#[test]
fn every_answer_of_the_script_program() {
    let mut answers: Vec<u8> = reach().ways.iter().map(|way| way.answer).collect();
    answers.sort();
    answers.dedup();
    let all = [0, 9, 10, 11, 12, 13, 15, 17, 18, 20, 253, 254, 255];
    assert_eq!(answers, all);
}

#[test]
fn tours_leave_no_way_out() {
    let mut coverage = Coverage::new();
    let tours = coverage.tours();
    let ways = gaps(&coverage, "not played: sender") + gaps(&coverage, "not played: recorder");
    assert_eq!(ways, reach().ways.len());
    for tour in &tours {
        assert!(gaps(&coverage, "not played: ") > 0);
        play(&mut coverage, records(tour));
    }
    assert_eq!(gaps(&coverage, "not played: sender"), 0);
    assert_eq!(gaps(&coverage, "not played: recorder"), 0);
    assert_eq!(gaps(&coverage, "played, "), 0);
}

/// Random records carry lengths, errors and rubbish that the walk through all states does not,
/// and must lead nowhere else.
#[test]
fn no_random_script_leaves_the_known_ways() {
    let mut coverage = Coverage::new();
    for seed in 1000..1200 {
        play(&mut coverage, Generator::new(seed, 700));
    }
    assert_eq!(gaps(&coverage, "played, "), 0, "{:?}", coverage.faults());
}

#[test]
fn gaps_are_shown() {
    let mut coverage = Coverage::new();
    let marks = |coverage: &Coverage| coverage.table().matches("      !").count();
    assert_eq!(marks(&coverage), 44 * Event::ALL.len());
    let mut push = [0; RECORD];
    push[0] = 8;
    play(&mut coverage, [push]);
    assert_eq!(marks(&coverage), 44 * Event::ALL.len() - 1);
    assert!(coverage.table().contains("254 Begun 1,"));
    for length in 1..RECORD {
        let fault = format!("not played: cut last record, bytes {length}");
        assert!(coverage.faults().contains(&fault), "{fault}");
        coverage.count_cut(length);
        assert!(!coverage.faults().contains(&fault), "{fault}");
    }
}

/// Each sort of stray is told apart by the field that makes it one.
#[test]
fn strays_are_counted_where_they_are() {
    let covered = |bytes: &[u8]| -> Vec<String> {
        let mut record = [0; RECORD];
        record[..bytes.len()].copy_from_slice(bytes);
        let mut strays = Strays::new();
        strays.count(&Record::from_bytes(&record));
        let left: Vec<String> = strays.missing().collect();
        let all = Strays::new();
        let gone = all.missing().filter(|stray| !left.contains(stray));
        gone.collect()
    };
    assert_eq!(covered(&[0]), [""; 0]);
    assert_eq!(
        covered(&[0, 3]),
        ["unused field not zero mode of turn sender"]
    );
    assert_eq!(
        covered(&[13, 0, 0, 0, 0, 0, 0, 2]),
        ["unused field not zero error of shutdown recorder"]
    );
    assert_eq!(covered(&[7, 0, 0, 0, 0, 0, 4]), [""; 0]);
    assert_eq!(covered(&[8, 1, 5, 5, 1, 0, 0, 0, 9]), [""; 0]);
    assert_eq!(
        covered(&[8, 1, 5, 5, 1, 0, 0, 0, 9, 9]),
        ["unused field not zero payload of push"]
    );
    assert_eq!(covered(&[8, 7]), ["unknown mode of a push 7"]);
    assert_eq!(covered(&[9, 255]), ["unknown mode of a pop 255"]);
    assert_eq!(covered(&[14]), ["unknown kind 14"]);
    assert_eq!(covered(&[8, 0, 0, 0, 25]), ["length of a push 25"]);
    assert_eq!(covered(&[9, 0, 0, 0, 255, 255]), ["length of a pop 65535"]);
}
