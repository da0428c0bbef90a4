//! The cases: what they reach, what their reports show, and that a difference is found.

use std::collections::BTreeSet;
use std::process::{Command, Output};
use std::slice;
use std::sync::OnceLock;

use reference::cases::case::Case;
use reference::cases::record::{Ask, Record, RECORD};
use reference::cases::stage::{Came, Stage, REPORT};
use reference::cases::sums::Sum;
use reference::cases::{difference, list, report, script};
use reference::{Answer, Side};

/// A record, what came of it and its report.
type Played = (Record, Came, [u8; REPORT]);

/// Every record of every case, played once for all tests.
fn played() -> &'static [Played] {
    static PLAYED: OnceLock<Vec<Played>> = OnceLock::new();
    PLAYED.get_or_init(|| {
        let mut stage = Stage::new();
        let records = list().into_iter().flat_map(|case| case.records);
        records
            .map(|record| {
                let came = stage.play(record);
                (record, came, stage.report(record, came))
            })
            .collect()
    })
}

/// The report of all cases.
fn whole() -> Vec<u8> {
    played().iter().flat_map(|(.., report)| *report).collect()
}

/// The sums of both parties' records, with their steps.
fn parties(report: &[u8; REPORT]) -> &[u8] {
    &report[8..24]
}

fn region_sum(report: &[u8; REPORT]) -> &[u8] {
    &report[24..28]
}

fn buffer_sum(report: &[u8; REPORT]) -> &[u8] {
    &report[28..]
}

#[test]
fn every_answer_and_every_step_is_reached() {
    let played = played();
    let answers: BTreeSet<u8> = played
        .iter()
        .map(|(_, came, _)| came.answer.number())
        .collect();
    let all: BTreeSet<u8> = (0..=20).chain(253..=255).collect();
    assert_eq!(answers, all);
    for seat in [8, 16] {
        let steps: BTreeSet<u8> = played.iter().map(|(.., report)| report[seat]).collect();
        assert_eq!(steps, (0..=22).collect(), "seat at {seat}");
    }
}

#[test]
fn the_bound_is_reached_in_eleven_turns() {
    let case = &list()[0];
    assert!(case.name.starts_with("Reaching the bound"), "{}", case.name);
    let mut stage = Stage::new();
    let mut turns = 0;
    for &record in &case.records {
        assert_ne!(stage.bench.recorder.count, 2, "both are delivered already");
        let both_sent = stage.bench.sender.count == 2;
        stage.play(record);
        turns += usize::from(both_sent && record.ask == Ask::Turn(Side::Recorder));
    }
    assert_eq!(stage.bench.recorder.count, 2);
    assert_eq!(turns, 11);
}

/// "Answers 1 to 6, 14, 16, 18 to 20, 253: nothing changes anywhere. 8 to 13 and 15: the last
/// turn changes no byte of region or buffer." A refused attach gives a stranger's record, so
/// its parties are not compared. Regions are compared where both records were lent the same.
#[test]
fn what_is_refused_changes_nothing() {
    let played = played();
    let mut refused = 0;
    for pair in played.windows(2) {
        let [(earlier, _, before), (record, came, after)] = pair else {
            unreachable!("a window of two");
        };
        let number = came.answer.number();
        let nothing = matches!(number, 1..=6 | 14 | 16 | 18..=20 | 253);
        if nothing || matches!(number, 8..=13 | 15) {
            let zeros = Sum::default().mix_bytes(&vec![0; record.lent as usize]);
            let untouched = zeros.value().to_le_bytes();
            assert_eq!(buffer_sum(after), untouched, "{record:?} {came:?}");
            refused += 1;
            if earlier.region == record.region {
                assert_eq!(region_sum(before), region_sum(after), "{record:?} {came:?}");
            }
        }
        if nothing && !matches!(record.ask, Ask::Attach { .. }) {
            assert_eq!(parties(before), parties(after), "{record:?} {came:?}");
        }
    }
    assert!(refused > 1000, "only {refused} are refused");
}

/// A sweep tries every value: a field that is never checked takes all of them, a reserved byte
/// zero alone, and the flags any set of their bits with 0 and without the own attach bit. With too
/// many spins none is taken.
#[test]
fn sweeps_accept_what_document_01_accepts() {
    let mut sweeps = 0;
    for (record, came, _) in played() {
        let Ask::Sweep { at, spins, .. } = record.ask else {
            continue;
        };
        sweeps += 1;
        let expected = match at {
            _ if spins > 1000 => 0,
            0x048 => 32,
            0x050..0x05C | 0x080..0x088 | 0x0C0..0x0C8 | 0x100..0x104 | 0x140..0x144 => 256,
            _ => 1,
        };
        assert_eq!(came.accepted, expected, "byte {at:#X}");
    }
    assert_eq!(sweeps, 2 * 384 + 8);
}

/// Nothing is left of the cases before it, once its first record has seated a sender and its
/// second a recorder. Sweeps are left out for their time.
#[test]
fn each_case_stands_alone() {
    let whole = whole();
    let mut at = 0;
    for case in list() {
        let end = at + case.records.len() * REPORT;
        let sweeps = |record: &Record| matches!(record.ask, Ask::Sweep { .. });
        if !case.records.iter().any(sweeps) {
            let alone = report(slice::from_ref(&case));
            assert!(alone[REPORT..] == whole[at + REPORT..end], "{}", case.name);
        }
        at = end;
    }
    assert_eq!(at, whole.len());
}

/// Both files lie in the tree. A sixth of the report is the two cases of 1,000 spins.
#[test]
fn files_are_whole_records_and_small() {
    let cases = list();
    let records: usize = cases.iter().map(|case| case.records.len()).sum();
    assert_eq!(script(&cases).len(), records * RECORD);
    assert_eq!(whole().len(), records * REPORT);
    assert!(whole().len() < 400_000);
}

#[test]
fn a_difference_is_found_wherever_it_is() {
    let cases = &list()[..12];
    let good = report(cases);
    assert_eq!(difference(cases, &good), None);
    for at in [0, 1, REPORT * 37 + 9, good.len() / 2, good.len() - 1] {
        let mut bad = good.clone();
        bad[at] ^= 0x10;
        let found = difference(cases, &bad).expect("a byte differs");
        assert!(found.contains(&place(cases, at / REPORT)), "{at}: {found}");
    }
    let last = place(cases, good.len() / REPORT - 1);
    let cut = difference(cases, &good[..good.len() - 1]).expect("a byte is missing");
    assert!(cut.contains(&last), "{cut}");
    let longer = [&good[..], &[0]].concat();
    assert_eq!(
        difference(cases, &longer).as_deref(),
        Some("1 bytes follow the last record")
    );
}

/// How a difference names the record of this number in the whole script.
fn place(cases: &[Case], mut number: usize) -> String {
    for case in cases {
        if number < case.records.len() {
            return format!("case `{}`, record {} differs", case.name, number + 1);
        }
        number -= case.records.len();
    }
    panic!("there are not as many records");
}

/// Whatever is asked otherwise shows: each case with one of its records left out gives another
/// report. Left out are records that change something: the begins that were begun.
#[test]
fn a_begin_left_out_shows() {
    let mut stage = Stage::new();
    for case in list().into_iter().take(20) {
        let good = report(slice::from_ref(&case));
        for k in 0..case.records.len() {
            if stage.play(case.records[k]).answer != Answer::Begun {
                continue;
            }
            // A record that is refused stands in, so that all others keep their places.
            let mut other = case.clone();
            other.records[k].ask = Ask::Unknown(99);
            let rest = (k + 1) * REPORT;
            assert!(
                report(slice::from_ref(&other))[rest..] != good[rest..],
                "{}, {k}",
                case.name
            );
        }
    }
}

fn run(arguments: &[&str]) -> Output {
    Command::new(env!("CARGO_BIN_EXE_reference"))
        .args(arguments)
        .output()
        .unwrap()
}

#[test]
fn the_command_writes_script_and_report() {
    for (what, expected) in [("script", script(&list())), ("report", whole())] {
        let output = run(&["cases", what]);
        assert!(output.status.success(), "{what}");
        assert!(output.stdout == expected, "{what}");
    }
}

#[test]
fn the_command_names_every_case_and_no_two_alike() {
    let output = run(&["cases", "read"]);
    assert!(output.status.success());
    let lines = String::from_utf8(output.stdout).unwrap();
    let heads = lines
        .lines()
        .filter(|line| line.starts_with(char::is_alphabetic));
    let names: BTreeSet<&str> = heads.collect();
    let cases = list();
    assert_eq!(names.len(), cases.len());
    assert!(cases.iter().all(|case| names.contains(case.name.as_str())));
}

#[test]
fn the_command_compares() {
    let path = std::path::Path::new(env!("CARGO_TARGET_TMPDIR")).join("cases.report");
    let name = path.to_str().unwrap();
    let mut bytes = whole();
    std::fs::write(&path, &bytes).unwrap();
    let same = run(&["cases", "compare", name]);
    assert!(same.status.success(), "{same:?}");
    let records = bytes.len() / REPORT;
    assert_eq!(same.stdout, format!("same, {records} records\n").as_bytes());
    bytes[1] += 1;
    std::fs::write(&path, &bytes).unwrap();
    let differs = run(&["cases", "compare", name]);
    assert_eq!(differs.status.code(), Some(1));
    assert!(String::from_utf8(differs.stdout)
        .unwrap()
        .starts_with("case `Reaching the bound: eleven turns at capacity 2`, record 1 differs"));
}

#[test]
fn bad_arguments_are_status_two() {
    for arguments in [
        &["cases"][..],
        &["cases", "dance"],
        &["cases", "script", "more"],
        &["cases", "compare"],
    ] {
        let output = run(arguments);
        assert_eq!(output.status.code(), Some(2), "{arguments:?}");
        assert!(output.stdout.is_empty());
    }
}
