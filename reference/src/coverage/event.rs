//! What a record asks for: the columns of the table.

use crate::party::Side;
use crate::script::{Kind, Record, CARRIED};

/// The sort of a record, as far as document 01 tells records of one side apart.
#[derive(Clone, Copy, Debug, PartialEq, Eq, Hash)]
pub enum Event {
    Try,
    Blocking,
    UnknownMode,
    TooLong,
    Close,
    Shutdown,
    Turn,
    FailsZero,
    FailsInterrupted,
    FailsAgain,
    FailsTimedOut,
    FailsElse,
    Spurious,
    TimeOut,
    UnknownKind,
}

impl Event {
    pub const ALL: [Event; 15] = [
        Event::Try,
        Event::Blocking,
        Event::UnknownMode,
        Event::TooLong,
        Event::Close,
        Event::Shutdown,
        Event::Turn,
        Event::FailsZero,
        Event::FailsInterrupted,
        Event::FailsAgain,
        Event::FailsTimedOut,
        Event::FailsElse,
        Event::Spurious,
        Event::TimeOut,
        Event::UnknownKind,
    ];

    pub fn of(record: &Record) -> Self {
        match Kind::of_number(record.kind) {
            None => Event::UnknownKind,
            Some(Kind::Push | Kind::Pop) => Event::of_call(record),
            Some(Kind::FailingTurn(_)) => Event::of_error(record.error),
            Some(Kind::Turn(_)) => Event::Turn,
            Some(Kind::Spurious(_)) => Event::Spurious,
            Some(Kind::TimeOut(_)) => Event::TimeOut,
            Some(Kind::Close(_)) => Event::Close,
            Some(Kind::Shutdown(_)) => Event::Shutdown,
        }
    }

    fn of_call(record: &Record) -> Self {
        let long = usize::from(record.length) > CARRIED;
        match record.blocking() {
            None => Event::UnknownMode,
            Some(_) if long => Event::TooLong,
            Some(false) => Event::Try,
            Some(true) => Event::Blocking,
        }
    }

    fn of_error(error: u16) -> Self {
        match error {
            0 => Event::FailsZero,
            4 => Event::FailsInterrupted,
            11 => Event::FailsAgain,
            110 => Event::FailsTimedOut,
            _ => Event::FailsElse,
        }
    }

    /// The column's head, as `LEGEND` tells it.
    pub fn name(self) -> &'static str {
        match self {
            Event::Try => "try",
            Event::Blocking => "block",
            Event::UnknownMode => "mode?",
            Event::TooLong => "long",
            Event::Close => "close",
            Event::Shutdown => "shut",
            Event::Turn => "turn",
            Event::FailsZero => "err 0",
            Event::FailsInterrupted => "err 4",
            Event::FailsAgain => "err 11",
            Event::FailsTimedOut => "err 110",
            Event::FailsElse => "err n",
            Event::Spurious => "spur",
            Event::TimeOut => "t-out",
            Event::UnknownKind => "kind?",
        }
    }

    /// Records that stand for all of this sort. What a record does goes by its sort alone, but
    /// for a note that may fit its buffer or not: with notes of one byte (`NOTE`) the buffers
    /// of 0 and 24 bytes have both.
    pub fn examples(self, side: Side) -> Vec<Record> {
        let fails = |error| Record {
            error,
            ..Record::new(Kind::FailingTurn(side))
        };
        match self {
            Event::Try => calls(side, 0),
            Event::Blocking => calls(side, 1),
            Event::UnknownMode => calls(side, 2),
            Event::TooLong => calls(side, 0)
                .into_iter()
                .map(|record| Record {
                    length: CARRIED as u16 + 1,
                    ..record
                })
                .collect(),
            Event::Close => vec![Record::new(Kind::Close(side))],
            Event::Shutdown => vec![Record::new(Kind::Shutdown(side))],
            Event::Turn => vec![Record::new(Kind::Turn(side))],
            Event::FailsZero => vec![fails(0)],
            Event::FailsInterrupted => vec![fails(4)],
            Event::FailsAgain => vec![fails(11)],
            Event::FailsTimedOut => vec![fails(110)],
            Event::FailsElse => vec![fails(22)],
            Event::Spurious => vec![Record::new(Kind::Spurious(side))],
            Event::TimeOut => vec![Record::new(Kind::TimeOut(side))],
            Event::UnknownKind => vec![Record {
                kind: 14,
                ..Record::default()
            }],
        }
    }
}

/// What the columns' heads stand for.
pub const LEGEND: &str = "\
How often each event was asked at each step. try, block: a push or pop of 0 to 24 bytes; mode?: of
an unknown mode; long: of more bytes; close, shut: a close or shutdown; turn: a turn; err E: a turn
whose futex call fails with E, n being any other; spur, t-out: a spurious return or time-out; kind?:
a record of an unknown kind, which counts at both parties' steps. -: cannot be, !: was not played.
";

/// The length of every note in `examples`.
const NOTE: u16 = 1;

fn calls(side: Side, mode: u8) -> Vec<Record> {
    let call = |kind, length| Record {
        mode,
        length,
        ..Record::new(kind)
    };
    match side {
        Side::Sender => vec![call(Kind::Push, NOTE)],
        Side::Recorder => vec![call(Kind::Pop, 0), call(Kind::Pop, CARRIED as u16)],
    }
}
