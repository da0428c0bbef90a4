//! Other script programs, held to the reference by `rounds`: right ones, wrong ones and broken
//! ones. Each is a line of shell around the reference's own `play`.
#![cfg(unix)]

mod tools;

use std::path::PathBuf;
use std::process::{Command, Output};

use tools::{executable, output};

const REFERENCE: &str = env!("CARGO_BIN_EXE_reference");

fn program(name: &str, line: &str) -> PathBuf {
    let path = PathBuf::from(env!("CARGO_TARGET_TMPDIR")).join(name);
    let line = line.replace("PLAY", &format!("'{REFERENCE}' play"));
    executable(&path, &line);
    path
}

fn rounds(name: &str, line: &str, numbers: &[&str]) -> Output {
    output(
        Command::new(REFERENCE)
            .arg("rounds")
            .arg(program(name, line))
            .args(numbers),
    )
}

/// What a run that must fail says.
fn refused(name: &str, line: &str) -> String {
    let output = rounds(name, line, &["2", "50"]);
    assert_eq!(output.status.code(), Some(1), "{output:?}");
    assert!(output.stdout.is_empty(), "{output:?}");
    String::from_utf8(output.stderr).unwrap()
}

/// A short run agrees too, but says what it left out.
#[test]
fn a_short_run_has_gaps() {
    let output = rounds("short", "exec PLAY", &["3", "10"]);
    assert_eq!(output.status.code(), Some(1));
    let message = String::from_utf8(output.stderr).unwrap();
    assert!(message.contains("the table has gaps"), "{message}");
    assert!(
        message.contains("not played: unknown kind 200"),
        "{message}"
    );
    let table = String::from_utf8(output.stdout).unwrap();
    assert!(!table.contains("same, "), "{table}");
}

/// A program may read all before it writes: longer than any pipe holds.
#[test]
fn nobody_waits_for_ever() {
    let output = rounds(
        "patient",
        "t=$(mktemp); cat >$t; PLAY <$t; rm $t",
        &["2", "20000"],
    );
    let message = String::from_utf8(output.stderr).unwrap();
    assert!(message.contains("the table has gaps"), "{message}");
}

#[test]
fn a_difference_is_named() {
    let message = refused("tampered", "PLAY | tr '\\376' '\\375'");
    assert!(message.contains("tour 0: record "), "{message}");
    assert!(message.contains("expected Begun"), "{message}");
    assert!(message.contains("found Nothing"), "{message}");
}

/// The tours have whole records, so a wrong answer to a cut one comes up at seed 1.
#[test]
fn a_difference_in_a_random_script_is_named() {
    let message = refused(
        "uncut",
        "PLAY | tr '\\377' '\\376' | cat >/dev/null; exit 0",
    );
    assert!(message.contains("found nothing"), "{message}");
    let wrong = "t=$(mktemp); cat >$t; s=$(wc -c <$t); head -c $((s / 32 * 32)) $t | PLAY; rm $t";
    let message = refused("cut", wrong);
    assert!(
        message.contains("random script of seed 1, 50 records and 1 bytes: record 51 differs"),
        "{message}"
    );
}

#[test]
fn missing_and_extra_records_are_differences() {
    let message = refused("missing", "PLAY | head -c 320");
    assert!(message.contains("record 11 differs"), "{message}");
    let message = refused("cut-report", "PLAY | head -c 330");
    assert!(message.contains("found a cut record"), "{message}");
    let message = refused("extra", "PLAY; echo more");
    assert!(message.contains("the script has ended"), "{message}");
    let message = refused("endless", "while :; do echo more; done");
    assert!(message.contains("record 1 differs"), "{message}");
}

#[test]
fn a_program_that_fails_is_told() {
    let message = refused("status", "PLAY; exit 3");
    assert!(message.contains("all records agree, but"), "{message}");
    assert!(message.contains("exit status: 3"), "{message}");
    let message = refused("deaf", "exit 0");
    assert!(message.contains("record 1 differs"), "{message}");
    let output = output(Command::new(REFERENCE).args(["rounds", "./no such program"]));
    assert_eq!(output.status.code(), Some(1));
    let message = String::from_utf8(output.stderr).unwrap();
    assert!(
        message.contains("cannot start ./no such program"),
        "{message}"
    );
}

#[test]
fn bad_arguments_have_status_two() {
    for arguments in [
        &["rounds"][..],
        &["rounds", "./play", "3"],
        &["rounds", "./play", "three", "3"],
        &["rounds", "./play", "3", "-3"],
        &["tour"],
        &["tour", "first"],
        &["tour", "1", "2"],
    ] {
        let output = output(Command::new(REFERENCE).args(arguments));
        assert_eq!(output.status.code(), Some(2), "{arguments:?}");
        let message = String::from_utf8(output.stderr).unwrap();
        assert!(message.contains("usage:"), "{message}");
    }
}

/// A tour is whole records, and the numbers end somewhere.
#[test]
fn a_tour_is_written() {
    let first = output(Command::new(REFERENCE).args(["tour", "0"]));
    assert!(first.status.success());
    assert!(!first.stdout.is_empty() && first.stdout.len().is_multiple_of(32));
    let beyond = output(Command::new(REFERENCE).args(["tour", "1000000"]));
    assert_eq!(beyond.status.code(), Some(1));
    let message = String::from_utf8(beyond.stderr).unwrap();
    assert!(message.contains("there is no tour 1000000"), "{message}");
}
