//! Records, answers and steps in words that a person reads. What a record asks is said in the
//! lines that `text` takes, wherever such a line exists.

use crate::answer::{name_of, Answer, Operation};
use crate::party::{Cause, CloseTurn, Party, ShutTurn, Side, Step};
use crate::script::{Kind, Record, CARRIED, RECORD};

/// Bytes as a quoted text: what is not a printable ASCII character is written as `\xNN`.
pub fn quoted(bytes: &[u8]) -> String {
    let mut text = String::with_capacity(bytes.len() + 2);
    text.push('"');
    for &byte in bytes {
        match byte {
            b'"' => text.push_str("\\\""),
            b'\\' => text.push_str("\\\\"),
            b' '..=b'~' => text.push(char::from(byte)),
            _ => text.push_str(&format!("\\x{byte:02X}")),
        }
    }
    text.push('"');
    text
}

/// Bytes in hexadecimal.
pub fn hex(bytes: &[u8]) -> String {
    let pairs: Vec<String> = bytes.iter().map(|byte| format!("{byte:02X}")).collect();
    pairs.join(" ")
}

/// A record's bytes, trailing zeros left out as in document 01, two bytes at least.
pub fn record_bytes(bytes: &[u8; RECORD]) -> String {
    let length = bytes.iter().rposition(|&byte| byte != 0).unwrap_or(0) + 1;
    hex(&bytes[..length.max(2)])
}

/// What a kind asks for.
pub fn kind(number: u8) -> String {
    match Kind::of_number(number) {
        None => format!("unknown kind {number}"),
        Some(Kind::Push) => "push".into(),
        Some(Kind::Pop) => "pop".into(),
        Some(Kind::Turn(side)) => format!("turn {}", side.name()),
        Some(Kind::Spurious(side)) => format!("spurious {}", side.name()),
        Some(Kind::TimeOut(side)) => format!("time-out {}", side.name()),
        Some(Kind::FailingTurn(side)) => format!("turn {} fails", side.name()),
        Some(Kind::Close(side)) => format!("close {}", side.name()),
        Some(Kind::Shutdown(side)) => format!("shutdown {}", side.name()),
    }
}

/// What a script record asks for. Fields that are ignored are left out.
pub fn asked(record: &Record) -> String {
    let name = kind(record.kind);
    let known = Kind::of_number(record.kind);
    match known {
        Some(Kind::FailingTurn(_)) => format!("{name} {}", record.error),
        Some(Kind::Push | Kind::Pop) => {
            let mode = match record.blocking() {
                Some(true) => " blocking".into(),
                Some(false) => String::new(),
                None => format!(" unknown mode {}", record.mode),
            };
            if known == Some(Kind::Pop) {
                format!("{name}{mode} {}", record.length)
            } else {
                format!("{name}{mode} {}", note_asked(record))
            }
        }
        _ => name,
    }
}

/// The note a push names; a length that the record cannot carry is said by itself.
fn note_asked(record: &Record) -> String {
    match record.payload.get(..usize::from(record.length)) {
        Some(note) => format!("{} {}", record.tag, quoted(note)),
        None => {
            let end = record.payload.iter().rposition(|&byte| byte != 0);
            let carried = quoted(&record.payload[..end.map_or(0, |last| last + 1)]);
            format!("{} length {} {carried}", record.tag, record.length)
        }
    }
}

/// An answer with the values it carries; `note` is what a pop delivered.
pub fn answer(answer: Answer, note: &[u8]) -> String {
    let name = answer.name();
    match answer {
        Answer::Delivered { tag, .. } => format!("{name}, tag {tag}, {}", quoted(note)),
        Answer::OutputTooSmall { length } => format!("{name}, length {length}"),
        Answer::Syscall { operation, error } => {
            format!("{name}, {}, error {error}", operation.name())
        }
        _ => name.into(),
    }
}

/// A report record of unknown origin. Every field that is not zero is told, also where
/// document 01 gives it no meaning.
pub fn report(bytes: &[u8; RECORD]) -> String {
    let record = Record::from_bytes(bytes);
    // A report's second byte is its answer where a script's is its mode.
    let number = record.mode;
    let mut words = match name_of(number) {
        Some(name) => name.to_string(),
        None => format!("unknown answer {number}"),
    };
    match (number, Operation::of_number(record.tag)) {
        (17, Some(operation)) => words.push_str(&format!(", {}", operation.name())),
        _ if record.tag != 0 => words.push_str(&format!(", tag {}", record.tag)),
        _ => {}
    }
    if record.error != 0 {
        words.push_str(&format!(", error {}", record.error));
    }
    let stray = match record.payload.get(..usize::from(record.length)) {
        Some(note) if number == 0 && !note.is_empty() => {
            words.push_str(&format!(", {}", quoted(note)));
            &record.payload[note.len()..]
        }
        _ => {
            if record.length != 0 {
                words.push_str(&format!(", length {}", record.length));
            }
            &record.payload[..]
        }
    };
    if stray.iter().any(|&byte| byte != 0) {
        let at = CARRIED - stray.len();
        words.push_str(&format!(", stray payload after byte {at}"));
    }
    words
}

/// The step a party stands at, by document 01's names.
pub fn step(party: &Party) -> String {
    let name = match party.step {
        Step::Rest => "at rest",
        Step::Asleep => "asleep",
        Step::P1 => "P1",
        Step::P2 => "P2",
        Step::P3 => "P3",
        Step::P4 => "P4",
        Step::P5 => "P5",
        Step::P6 => "P6",
        Step::B1 => "B1",
        Step::B2 => "B2",
        Step::B3 { .. } => "B3",
        Step::B4 { .. } => "B4",
        Step::B5 { .. } => "B5",
        Step::B6 => "B6",
        Step::C1 => "C1",
        Step::C2 => "C2",
        Step::C3 { .. } => "C3",
        Step::C4 { .. } => "C4",
        Step::C5 { .. } => "C5",
        Step::C6 { .. } => "C6",
        Step::W1 => "W1",
        Step::W2 => "W2",
        Step::W3 { .. } => "W3",
        Step::W4 { .. } => "W4",
        Step::W5 { .. } => "W5",
        Step::W6 { .. } => "W6",
        Step::Spin { .. } => "S",
        Step::Close(turn) => return close_step(party.side, turn),
        Step::Shut { turn, cause } => return shut_step(turn, cause),
    };
    name.into()
}

fn close_step(side: Side, turn: CloseTurn) -> String {
    let bell = side.other().sleeps_on().name();
    match (turn, side) {
        (CloseTurn::SetBit, Side::Sender) => "close: set bit 3".into(),
        (CloseTurn::SetBit, Side::Recorder) => "close: set bit 4".into(),
        (CloseTurn::Raise, _) => format!("close: raise {bell}"),
        (CloseTurn::WakeAll, _) => format!("close: wake all on {bell}"),
    }
}

fn shut_step(turn: ShutTurn, cause: Cause) -> String {
    let why = match cause {
        Cause::Asked { .. } => "shutdown",
        Cause::Corruption => "corruption",
    };
    let what = match turn {
        ShutTurn::SetBit => "set bit 5",
        ShutTurn::RaiseNe => "raise NE",
        ShutTurn::WakeNe => "wake all on NE",
        ShutTurn::RaiseNf => "raise NF",
        ShutTurn::WakeNf => "wake all on NF",
    };
    format!("{why}: {what}")
}
