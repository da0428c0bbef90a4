//! The script program, record by record and as a stream.

mod common;

use std::io::{self, ErrorKind, Read, Write};

use common::{joined, record};
use reference::compare::{compare, Verdict};
use reference::random::Generator;
use reference::script::Player;
use reference::stream::play;

fn report_of(script: &[u8]) -> Vec<u8> {
    let mut report = Vec::new();
    play(script, &mut report).unwrap();
    report
}

/// Plays records and checks the start of each report; the rest must be zero.
fn check(pairs: &[(&[u8], &[u8])]) {
    let mut player = Player::new();
    for (number, (asked, expected)) in pairs.iter().enumerate() {
        assert_eq!(
            player.play(&record(asked)),
            record(expected),
            "record {}",
            number + 1
        );
    }
}

const WHOLE_IN: &[&[u8]] = &[
    &[9, 0, 0, 0, 0x18],
    &[1],
    &[8, 0, 7, 0, 2, 0, 0, 0, 0x4A, 0x31],
    &[0],
    &[0],
    &[0],
    &[0],
    &[0],
    &[0],
    &[9, 0, 0, 0, 0x18],
    &[1],
    &[1],
    &[1],
    &[1],
];

const WHOLE_OUT: &[&[u8]] = &[
    &[9, 0xFE],
    &[1, 0x0A],
    &[8, 0xFE],
    &[0, 0xFF],
    &[0, 0xFF],
    &[0, 0xFF],
    &[0, 0xFF],
    &[0, 0xFF],
    &[0, 0],
    &[9, 0xFE],
    &[1, 0xFF],
    &[1, 0xFF],
    &[1, 0xFF],
    &[1, 0, 7, 0, 2, 0, 0, 0, 0x4A, 0x31],
];

#[test]
fn the_whole_case() {
    assert_eq!(report_of(&joined(WHOLE_IN)), joined(WHOLE_OUT));
    assert_eq!(report_of(&[]), []);
}

#[test]
fn a_cut_last_record() {
    let whole = joined(WHOLE_IN);
    let answers = joined(WHOLE_OUT);
    for cut in [1, 2, 16, 31] {
        let mut script = whole.clone();
        script.extend(&record(&[8, 0, 1])[..cut]);
        let mut expected = answers.clone();
        expected.extend(record(&[0xFF, 0x14]));
        assert_eq!(report_of(&script), expected);
    }
}

/// A pipe that delivers one byte at a time and is interrupted now and then.
struct Drops<'a> {
    rest: &'a [u8],
    interrupted: bool,
}

impl Read for Drops<'_> {
    fn read(&mut self, into: &mut [u8]) -> io::Result<usize> {
        self.interrupted = !self.interrupted;
        if self.interrupted {
            return Err(ErrorKind::Interrupted.into());
        }
        match (self.rest.split_first(), into.first_mut()) {
            (Some((&byte, rest)), Some(place)) => {
                *place = byte;
                self.rest = rest;
                Ok(1)
            }
            _ => Ok(0),
        }
    }
}

#[test]
fn one_byte_at_a_time() {
    for length in [0, 1, 31, 32, 33, 5000 * 32, 5000 * 32 + 7] {
        let mut script: Vec<u8> = Generator::new(5, 5001).flatten().collect();
        script.truncate(length);
        let mut report = Vec::new();
        let drops = Drops {
            rest: &script,
            interrupted: false,
        };
        play(drops, &mut report).unwrap();
        assert_eq!(report, report_of(&script));
        assert_eq!(report.len(), length.div_ceil(32) * 32);
    }
}

/// A write that takes few bytes at a time, and then none.
struct Full(usize);

impl Write for Full {
    fn write(&mut self, bytes: &[u8]) -> io::Result<usize> {
        let taken = bytes.len().min(self.0).min(10);
        self.0 -= taken;
        match taken {
            0 => Err(ErrorKind::StorageFull.into()),
            _ => Ok(taken),
        }
    }

    fn flush(&mut self) -> io::Result<()> {
        Ok(())
    }
}

struct Broken;

impl Read for Broken {
    fn read(&mut self, _: &mut [u8]) -> io::Result<usize> {
        Err(ErrorKind::ConnectionReset.into())
    }
}

#[test]
fn failed_reads_and_writes_are_told() {
    let script = joined(WHOLE_IN);
    assert!(play(&script[..], Full(script.len())).is_ok());
    let trouble = play(&script[..], Full(script.len() - 1)).unwrap_err();
    assert_eq!(trouble.doing, "write the report");
    let trouble = play(Broken, Vec::new()).unwrap_err();
    assert_eq!(trouble.doing, "read the script");
}

#[test]
fn what_the_program_refuses_itself() {
    check(&[
        (&[14], &[14, 20]),
        (&[255], &[255, 20]),
        // Unknown modes, and a pop's length above 24.
        (&[8, 2, 0, 0, 1], &[8, 20]),
        (&[9, 255, 0, 0, 1], &[9, 20]),
        (&[9, 0, 0, 0, 25], &[9, 20]),
        (&[9, 1, 0, 0, 0, 1], &[9, 20]),
        // Error 0 at rest: 20 before 253.
        (&[6], &[6, 20]),
        (&[7], &[7, 20]),
        (&[6, 0, 0, 0, 0, 0, 1], &[6, 253]),
        (&[0], &[0, 253]),
        (&[3], &[3, 253]),
        (&[4], &[4, 253]),
        // A push length above 24 is the queue's own 18.
        (&[8, 0, 0, 0, 25], &[8, 18]),
        (&[8, 1, 0, 0, 0xFF, 0xFF], &[8, 18]),
        // 20 before 18 once a call runs, and 11 before 18 after one's own close.
        (&[10, 9, 9, 9, 9, 9, 9, 9, 9], &[10, 254]),
        (&[8, 0, 0, 0, 25], &[8, 20]),
        (&[0], &[0, 255]),
        (&[0], &[0, 255]),
        (&[0], &[0, 0]),
        (&[8, 0, 0, 0, 25], &[8, 11]),
        (&[8, 2, 0, 0, 25], &[8, 20]),
        (&[10], &[10, 11]),
        (&[12], &[12, 254]),
    ]);
}

#[test]
fn mode_and_other_unused_fields_are_ignored() {
    check(&[
        (&[9, 1, 7, 7, 24, 0, 7, 7, 7, 7], &[9, 254]),
        (&[1, 7, 7, 7, 7, 7, 7, 7, 7], &[1, 255]),
        (&[5, 9, 9], &[5, 253]),
        (&[3, 200], &[3, 253]),
        (&[13, 2], &[13, 20]),
    ]);
}

/// The running push keeps the payload of the record that began it; the refused begins between
/// its turns carry other bytes.
#[test]
fn a_refused_push_does_not_touch_the_payload() {
    check(&[
        (&[8, 0, 1, 0, 3, 0, 0, 0, b'a', b'b', b'c', b'd'], &[8, 254]),
        (&[8, 0, 2, 0, 3, 0, 0, 0, b'x', b'y', b'z'], &[8, 20]),
        (&[0], &[0, 255]),
        (&[8, 9, 2, 0, 3, 0, 0, 0, b'x', b'y', b'z'], &[8, 20]),
        (&[0], &[0, 255]),
        (&[0], &[0, 255]),
        (&[0], &[0, 255]),
        (&[0], &[0, 255]),
        (&[0], &[0, 0]),
        (&[8, 0, 2, 0, 25, 0, 0, 0, b'x'], &[8, 18]),
        (&[8, 0, 4, 0, 0, 0, 0, 0, b'x'], &[8, 254]),
        (&[0], &[0, 255]),
        (&[0], &[0, 255]),
        (&[0], &[0, 255]),
        (&[0], &[0, 0]),
        // Too small first, then delivered with zeros after the note.
        (&[9, 0, 0, 0, 2], &[9, 254]),
        (&[1], &[1, 255]),
        (&[1], &[1, 15, 0, 0, 3]),
        (&[9, 0, 0, 0, 24], &[9, 254]),
        (&[9, 0, 0, 0, 1], &[9, 20]),
        (&[1], &[1, 255]),
        (&[1], &[1, 255]),
        (&[1], &[1, 255]),
        (&[1], &[1, 0, 1, 0, 3, 0, 0, 0, b'a', b'b', b'c']),
        // The buffer still holds abc; a note of no bytes shows none of them.
        (&[9, 0, 0, 0, 24], &[9, 254]),
        (&[1], &[1, 255]),
        (&[1], &[1, 255]),
        (&[1], &[1, 255]),
        (&[7, 0, 0, 0, 0, 0, 5], &[7, 0, 4]),
    ]);
}

#[test]
fn failures_carry_operation_and_error() {
    check(&[
        (&[9, 1, 0, 0, 24], &[9, 254]),
        (&[1], &[1, 255]),
        (&[1], &[1, 255]),
        (&[1], &[1, 255]),
        (&[1], &[1, 255]),
        (&[1], &[1, 255]),
        (
            &[7, 0, 0, 0, 0, 0, 0x34, 0x12],
            &[7, 17, 0, 0, 0, 0, 0x34, 0x12],
        ),
        (&[12], &[12, 254]),
        (&[0], &[0, 255]),
        (&[0], &[0, 255]),
        (&[6, 0, 0, 0, 0, 0, 110], &[6, 255]),
        (&[0], &[0, 255]),
        (&[6, 0, 0, 0, 0, 0, 4], &[6, 17, 1, 0, 0, 0, 110]),
        (&[11], &[11, 254]),
        (&[1], &[1, 255]),
        (&[1], &[1, 255]),
        (&[7, 0, 0, 0, 0, 0, 11], &[7, 17, 3, 0, 0, 0, 11]),
    ]);
}

#[test]
fn comparing() {
    let script = joined(WHOLE_IN);
    let report = joined(WHOLE_OUT);
    let verdict = |script: &[u8], report: &[u8]| match compare(script, report).unwrap() {
        Verdict::Same { records } => format!("same, {records} records"),
        Verdict::Differs { line } => line,
    };
    assert_eq!(verdict(&script, &report), "same, 14 records");
    assert_eq!(verdict(&[], &[]), "same, 0 records");
    let mut wrong = report.clone();
    wrong[13 * 32 + 9] = b'2';
    assert_eq!(
        verdict(&script, &wrong),
        "record 14 differs: kind 1 (turn recorder), \
         expected Done, tag 7, \"J1\" [01 00 07 00 02 00 00 00 4A 31], \
         found Done, tag 7, \"J2\" [01 00 07 00 02 00 00 00 4A 32]"
    );
    // One stray byte at a record's very end is a difference too.
    let mut wrong = report.clone();
    wrong[31] = 1;
    assert!(verdict(&script, &wrong).starts_with("record 1 differs: kind 9 (pop), "));
    assert_eq!(
        verdict(&script, &report[..32]),
        "record 2 differs: kind 1 (turn recorder), expected Empty [01 0A], found nothing"
    );
    assert_eq!(
        verdict(&script, &report[..35]),
        "record 2 differs: kind 1 (turn recorder), \
         expected Empty [01 0A], found a cut record [01 0A 00]"
    );
    assert_eq!(
        verdict(&script[..32], &report),
        "record 2 differs: kind none (the script has ended), \
         expected nothing, found Empty [01 0A]"
    );
    assert_eq!(
        verdict(&script[..33], &report),
        "record 2 differs: kind none (the script's last record is cut), \
         expected BadCall [FF 14], found Empty [01 0A]"
    );
}
