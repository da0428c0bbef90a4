//! Scripts as lines: written, read back, and refused with line numbers.

mod common;

use common::{joined, record};
use reference::random::Generator;
use reference::script::Record;
use reference::stream::play;
use reference::{readout, text, words};

fn written(lines: &str) -> Vec<u8> {
    text::write(lines.as_bytes()).unwrap()
}

fn read_back(script: &[u8], report: &[u8]) -> Vec<String> {
    let mut out = Vec::new();
    readout::read(script, report, &mut out).unwrap();
    let text = String::from_utf8(out).unwrap();
    text.lines().map(str::to_string).collect()
}

fn played(script: &[u8]) -> Vec<u8> {
    let mut report = Vec::new();
    play(script, &mut report).unwrap();
    report
}

#[test]
fn every_line_becomes_its_record() {
    let lines = r##"
        # a comment alone, then a blank line

        push 7 "J1"
        push blocking 65535 "a\"b\\c\x00\xff#"   # after a text with a hash
        push try 0 ""
        push 1 length 30 "abc"
        pop 24
        pop blocking 0
        pop try 25# close to a word
        turn sender
        turn recorder
        turn sender fails 110
        turn recorder fails 0
        spurious sender
        spurious recorder
        time-out sender
        time-out recorder
        close sender
        close recorder
        shutdown sender
        shutdown recorder
        bytes c8 01 FF
    "##;
    let expected = joined(&[
        &[8, 0, 7, 0, 2, 0, 0, 0, b'J', b'1'],
        b"\x08\x01\xFF\xFF\x08\0\0\0a\"b\\c\0\xFF#",
        &[8],
        &[8, 0, 1, 0, 30, 0, 0, 0, b'a', b'b', b'c'],
        &[9, 0, 0, 0, 24],
        &[9, 1],
        &[9, 0, 0, 0, 25],
        &[0],
        &[1],
        &[6, 0, 0, 0, 0, 0, 110],
        &[7],
        &[2],
        &[3],
        &[4],
        &[5],
        &[10],
        &[11],
        &[12],
        &[13],
        &[0xC8, 1, 0xFF],
    ]);
    assert_eq!(written(lines), expected);
    assert_eq!(written(&lines.replace('\n', "\r\n")), expected);
    assert_eq!(written(""), []);
}

#[test]
fn bad_lines_are_refused_with_their_number() {
    for (line, part) in [
        ("push", "expected a tag from 0 to 65535"),
        ("push \"J1\"", "expected a tag from 0 to 65535"),
        ("push 7", "expected a text"),
        ("push 7 J1", "expected a text in push"),
        ("push 65536 \"\"", "found `65536`"),
        ("push +1 \"\"", "found `+1`"),
        ("push -1 \"\"", "found `-1`"),
        ("push 7 \"J1", "expected a closing \""),
        ("push 7 \"J1\\\"", "expected a closing \""),
        ("push 7 \"\\n\"", "after a backslash"),
        ("push 7 \"\\x4\"", "two hexadecimal digits"),
        ("push 7 \"\\xG0\"", "two hexadecimal digits"),
        ("push 7 \"a\" \"b\"", "expected the line's end"),
        ("push maybe 7 \"a\"", "found `maybe`"),
        ("push 7 \"1234567890123456789012345\"", "at most 24 bytes"),
        ("push 7 length \"a\"", "expected a length"),
        ("pop", "expected a buffer's length"),
        ("pop 24 24", "expected the line's end"),
        ("pop twenty", "found `twenty`"),
        ("turn", "expected sender or recorder"),
        ("turn both", "found `both`"),
        ("turn sender fails", "expected an error number"),
        ("turn sender slowly", "expected the line's end"),
        ("spurious", "expected sender or recorder in spurious"),
        ("time-out 5", "expected sender or recorder in time-out"),
        ("timeout sender", "expected push, pop, turn"),
        ("close", "expected sender or recorder in close"),
        ("shutdown all", "expected sender or recorder in shutdown"),
        ("\"J1\"", "expected push, pop, turn"),
        ("bytes", "expected bytes HH"),
        ("bytes 1", "found `1`"),
        ("bytes 100", "found `100`"),
        ("\u{e9}t\u{e9}", "expected push, pop, turn"),
    ] {
        let lines = format!("# first\n\npop 24\n  {line}\npop 24\nnonsense\n");
        let bad = text::write(lines.as_bytes()).unwrap_err();
        assert_eq!(bad.line, 4, "{line}");
        assert!(bad.message.contains(part), "{line}: {}", bad.message);
    }
    let many = format!("bytes{}", " 00".repeat(33));
    let bad = text::write(many.as_bytes()).unwrap_err();
    assert_eq!(bad.line, 1);
    assert!(bad.message.contains("at most 32 bytes"));
    // Bytes that are no text spoil their line, but not a comment.
    assert!(text::write(b"# \xFF\xFE").is_ok());
    assert_eq!(text::write(b"\n\xFF\xFE").unwrap_err().line, 2);
}

/// What is read as asked can be written again, and asks for the same.
#[test]
fn asked_words_are_lines_that_can_be_written() {
    for seed in 0..20 {
        for bytes in Generator::new(seed, 2000) {
            let asked = Record::from_bytes(&bytes);
            let line = words::asked(&asked);
            if line.contains("unknown") {
                continue;
            }
            let again: [u8; 32] = written(&line).try_into().unwrap();
            let again = Record::from_bytes(&again);
            assert_eq!(words::asked(&again), line);
            assert_eq!(again.kind, asked.kind);
            if asked.kind == 6 || asked.kind == 7 {
                assert_eq!(again.error, asked.error);
            }
            if asked.kind == 8 {
                let length = usize::from(asked.length).min(24);
                assert_eq!(again.payload[..length], asked.payload[..length]);
            }
            if asked.kind == 8 || asked.kind == 9 {
                assert_eq!((again.mode, again.length), (asked.mode, asked.length));
            }
        }
    }
}

#[test]
fn a_night_on_the_screen() {
    let mut script = written(
        "pop blocking 24\n turn recorder\n turn recorder\n turn recorder\n turn recorder\n\
         turn recorder\n turn recorder\n push 7 \"J1\"\n turn sender\n turn sender\n\
         turn sender\n turn sender\n turn sender\n turn sender\n turn recorder\n\
         turn recorder\n turn recorder\n turn recorder\n close recorder\n turn recorder\n\
         turn recorder\n turn recorder fails 22\n shutdown sender\n turn sender\n bytes 0E\n",
    );
    script.push(1);
    let expected = r#"
     1  pop blocking 24            Begun                       recorder  C1
     2  turn recorder              GoesOn                      recorder  W1
     3  turn recorder              GoesOn                      recorder  W2
     4  turn recorder              GoesOn                      recorder  W3
     5  turn recorder              GoesOn                      recorder  W4
     6  turn recorder              GoesOn                      recorder  W5
     7  turn recorder              GoesOn                      recorder  asleep
     8  push 7 "J1"                Begun                       sender    P1
     9  turn sender                GoesOn                      sender    P2
    10  turn sender                GoesOn                      sender    P3
    11  turn sender                GoesOn                      sender    P4
    12  turn sender                GoesOn                      sender    P5
    13  turn sender                GoesOn                      sender    P6
    14  turn sender                Done                        sender    at rest, woke recorder to C1
    15  turn recorder              GoesOn                      recorder  C2
    16  turn recorder              GoesOn                      recorder  C3
    17  turn recorder              GoesOn                      recorder  C4
    18  turn recorder              Done, tag 7, "J1"           recorder  at rest
    19  close recorder             Begun                       recorder  close: set bit 4
    20  turn recorder              GoesOn                      recorder  close: raise NF
    21  turn recorder              GoesOn                      recorder  close: wake all on NF
    22  turn recorder fails 22     Syscall, wake NF, error 22  recorder  at rest
    23  shutdown sender            Begun                       sender    shutdown: set bit 5
    24  turn sender                GoesOn                      sender    shutdown: raise NE
    25  unknown kind 14            BadCall                     nobody asked
    26  cut record, 1 of 32 bytes  BadCall                     nobody asked"#;
    let expected: Vec<&str> = expected.lines().skip(1).collect();
    assert_eq!(read_back(&script, &played(&script)), expected);
}

#[test]
fn what_differs_is_marked() {
    let script = written("pop 24\nturn recorder\nclose sender");
    let mut report = played(&script);
    report[33] = 99;
    let lines = read_back(&script, &report[..64]);
    assert!(lines[0].starts_with("     1  pop 24"));
    assert!(lines[1].starts_with("!    2  turn recorder"));
    assert!(lines[1].contains("  unknown answer 99  "));
    assert!(lines[1].ends_with("  expected Empty [01 0A], found [01 63]"));
    assert!(lines[2].starts_with("!    3  close sender"));
    assert!(lines[2].ends_with("  expected Begun [0A FE]"));
    // A report that goes on after its script.
    report[33] = 10;
    report.extend(record(&[0, 0xFF]));
    let lines = read_back(&script, &report);
    assert_eq!(lines.len(), 4);
    assert!(lines[2].starts_with(' '));
    assert!(lines[3].starts_with("!    4  nothing"));
    assert!(lines[3].ends_with("  expected nothing, found [00 FF]"));
}

#[test]
fn a_long_run_is_one_line_a_record() {
    let script: Vec<u8> = Generator::new(1, 3000).flatten().collect();
    let lines = read_back(&script, &played(&script));
    assert_eq!(lines.len(), 3000);
    for (index, line) in lines.iter().enumerate() {
        let number = line.split_whitespace().next().unwrap();
        assert_eq!(number, (index + 1).to_string());
    }
}
