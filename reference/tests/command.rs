//! The command itself: streams, files, messages and exit status.

use std::fs;
use std::io::Write;
use std::path::PathBuf;
use std::process::{Command, Output, Stdio};

fn run(arguments: &[&str], input: &[u8]) -> Output {
    let mut child = Command::new(env!("CARGO_BIN_EXE_reference"))
        .args(arguments)
        .stdin(Stdio::piped())
        .stdout(Stdio::piped())
        .stderr(Stdio::piped())
        .spawn()
        .unwrap();
    let mut pipe = child.stdin.take().unwrap();
    let input = input.to_vec();
    // A command that reads nothing closes the pipe early; that is no concern of the test.
    let feeder = std::thread::spawn(move || drop(pipe.write_all(&input)));
    let output = child.wait_with_output().unwrap();
    feeder.join().unwrap();
    output
}

/// Runs with success expected and gives what was written.
fn good(arguments: &[&str], input: &[u8]) -> Vec<u8> {
    let output = run(arguments, input);
    assert!(output.status.success(), "{output:?}");
    assert!(output.stderr.is_empty(), "{output:?}");
    output.stdout
}

fn file(name: &str, bytes: &[u8]) -> PathBuf {
    let path = PathBuf::from(env!("CARGO_TARGET_TMPDIR")).join(name);
    fs::write(&path, bytes).unwrap();
    path
}

#[test]
fn usage_and_status_two() {
    for arguments in [
        &[][..],
        &["dance"],
        &["play", "more"],
        &["random"],
        &["random", "1"],
        &["random", "one", "2"],
        &["random", "1", "-2"],
        &["compare", "one"],
        &["read"],
        &["write", "file"],
    ] {
        let output = run(arguments, b"");
        assert_eq!(output.status.code(), Some(2), "{arguments:?}");
        assert!(output.stdout.is_empty());
        let message = String::from_utf8(output.stderr).unwrap();
        assert!(message.contains("usage:"), "{message}");
    }
    assert!(good(&["--help"], b"").starts_with(b"The queue"));
}

#[test]
fn from_lines_to_a_comparison() {
    let script = good(&["write"], b"push 7 \"J1\"\nturn sender # P1\n");
    assert_eq!(script.len(), 64);
    let report = good(&["play"], &script);
    let script = file("lines.script", &script);
    let same = file("lines.same", &report);
    let mut wrong = report.clone();
    wrong[33] = 0;
    let wrong = file("lines.wrong", &wrong);
    let (script, same, wrong) = (
        script.to_str().unwrap(),
        same.to_str().unwrap(),
        wrong.to_str().unwrap(),
    );
    assert_eq!(good(&["compare", script, same], b""), b"same, 2 records\n");
    let output = run(&["compare", script, wrong], b"");
    assert_eq!(output.status.code(), Some(1));
    assert_eq!(
        String::from_utf8(output.stdout).unwrap(),
        "record 2 differs: kind 0 (turn sender), expected GoesOn [00 FF], found Done [00 00]\n"
    );
    let lines = String::from_utf8(good(&["read", script, wrong], b"")).unwrap();
    assert_eq!(lines.lines().count(), 2);
    assert!(lines.lines().nth(1).unwrap().starts_with('!'));
    let missing = run(&["compare", script, "no such file"], b"");
    assert_eq!(missing.status.code(), Some(1));
    assert!(String::from_utf8(missing.stderr)
        .unwrap()
        .contains("no such file"));
}

#[test]
fn a_bad_line_writes_nothing() {
    let output = run(&["write"], b"pop 24\n\npop many\n");
    assert_eq!(output.status.code(), Some(1));
    assert!(output.stdout.is_empty());
    assert_eq!(
        String::from_utf8(output.stderr).unwrap(),
        "reference: line 3: expected a buffer's length from 0 to 65535 \
         in pop [try|blocking] LENGTH, found `many`\n"
    );
}

#[test]
fn a_long_random_script() {
    let script = good(&["random", "11", "100001"], b"");
    assert_eq!(script.len(), 100_001 * 32);
    assert_eq!(script, good(&["random", "11", "100001"], b""));
    let report = good(&["play"], &script);
    let script = file("long.script", &script);
    let report = file("long.report", &report);
    let arguments = [
        "compare",
        script.to_str().unwrap(),
        report.to_str().unwrap(),
    ];
    assert_eq!(good(&arguments, b""), b"same, 100001 records\n");
}

/// What has come through the pipe is answered before the next read.
#[test]
fn answers_do_not_wait_for_the_end() {
    use std::io::Read;
    let mut child = Command::new(env!("CARGO_BIN_EXE_reference"))
        .arg("play")
        .stdin(Stdio::piped())
        .stdout(Stdio::piped())
        .spawn()
        .unwrap();
    let mut to = child.stdin.take().unwrap();
    let mut from = child.stdout.take().unwrap();
    let mut record = [0; 32];
    for kind in [9u8, 1, 0] {
        record[0] = kind;
        to.write_all(&record).unwrap();
        let mut answer = [0; 32];
        from.read_exact(&mut answer).unwrap();
        assert_eq!(answer[0], kind);
    }
    to.write_all(&[8, 0, 0]).unwrap();
    drop(to);
    let mut rest = Vec::new();
    from.read_to_end(&mut rest).unwrap();
    assert_eq!(rest[..2], [0xFF, 0x14]);
    assert_eq!(rest.len(), 32);
    assert!(child.wait().unwrap().success());
}

#[cfg(target_os = "linux")]
#[test]
fn failed_reads_and_writes_have_status_one() {
    let full = || {
        fs::OpenOptions::new()
            .write(true)
            .open("/dev/full")
            .unwrap()
    };
    let output = Command::new(env!("CARGO_BIN_EXE_reference"))
        .args(["random", "1", "10"])
        .stdout(full())
        .output()
        .unwrap();
    assert_eq!(output.status.code(), Some(1));
    assert!(!output.stderr.is_empty());
    let script = file("full.script", &[0; 64]);
    let output = Command::new(env!("CARGO_BIN_EXE_reference"))
        .arg("play")
        .stdin(fs::File::open(script).unwrap())
        .stdout(full())
        .output()
        .unwrap();
    assert_eq!(output.status.code(), Some(1));
    assert!(!output.stderr.is_empty());
    let output = Command::new(env!("CARGO_BIN_EXE_reference"))
        .arg("play")
        .stdin(fs::File::open(env!("CARGO_TARGET_TMPDIR")).unwrap())
        .output()
        .unwrap();
    assert_eq!(output.status.code(), Some(1));
    assert!(!output.stderr.is_empty());
}
