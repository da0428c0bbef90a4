//! A case record: what it asks and what is lent to it, as 24 bytes and in words.

use crate::party::Side;
use crate::words;

/// The length of a case record: kind, part, tag u16, number u32, value u64, then how much of
/// the region is lent, and how much of the payload or the buffer, each u32.
pub const RECORD: usize = 24;

/// One of the three runs of bytes that are lent.
#[derive(Clone, Copy, Debug, PartialEq, Eq)]
pub enum Part {
    Region,
    Payload,
    Buffer,
}

/// What a party's record is set to, whatever the limits say.
#[derive(Clone, Copy, Debug, PartialEq, Eq)]
pub struct Terms {
    pub side: Side,
    pub attached: bool,
    pub power: u8,
    pub slot_size: u32,
    pub length: u32,
    pub spins: u16,
}

/// What one record asks.
#[derive(Clone, Copy, Debug, PartialEq, Eq)]
pub enum Ask {
    Turn(Side),
    Failing(Side, u16),
    Spurious(Side),
    TimeOut(Side),
    Push {
        blocking: bool,
        tag: u16,
        length: u32,
    },
    Pop {
        blocking: bool,
        length: u32,
    },
    Close(Side),
    Shutdown(Side),
    Attach {
        side: Side,
        spins: u16,
    },
    Create {
        power: u8,
        slot_size: u32,
        not_full: bool,
        start: u64,
    },
    /// An attach for each value of one byte, the low byte of the flags set before each.
    Sweep {
        side: Side,
        spins: u16,
        at: u32,
        flags: u8,
    },
    /// Bytes stored in the region whatever the rules say: those of a value, lowest first, and
    /// over again, each time one more.
    Put {
        at: u32,
        count: u16,
        value: u64,
    },
    Spoil(Side, Terms),
    /// A kind that asks nothing.
    Unknown(u8),
}

/// What is asked, and how many bytes are lent to it: of the region; and of the payload where
/// the sender acts, of the buffer where the recorder does.
#[derive(Clone, Copy, Debug, PartialEq, Eq)]
pub struct Record {
    pub ask: Ask,
    pub region: u32,
    pub lent: u32,
}

impl Record {
    pub fn to_bytes(self) -> [u8; RECORD] {
        let (kind, part, tag, number, value) = self.ask.fields();
        let mut bytes = [0; RECORD];
        bytes[0] = kind;
        bytes[1] = part;
        bytes[2..4].copy_from_slice(&tag.to_le_bytes());
        bytes[4..8].copy_from_slice(&number.to_le_bytes());
        bytes[8..16].copy_from_slice(&value.to_le_bytes());
        bytes[16..20].copy_from_slice(&self.region.to_le_bytes());
        bytes[20..].copy_from_slice(&self.lent.to_le_bytes());
        bytes
    }

    pub fn words(self) -> String {
        let words = self.ask.words();
        let region = self.region;
        match self.ask.actor() {
            Some(Side::Sender) => format!("{words} ({region}, payload {})", self.lent),
            Some(Side::Recorder) => format!("{words} ({region}, buffer {})", self.lent),
            None => format!("{words} ({region})"),
        }
    }
}

/// The fields of an ask in their order.
type Fields = (u8, u8, u16, u32, u64);

impl Ask {
    /// An attach with no spins.
    pub fn attach(side: Side) -> Self {
        Ask::Attach { side, spins: 0 }
    }

    pub fn kind(self) -> u8 {
        self.fields().0
    }

    /// The side that an event is of.
    pub fn actor(self) -> Option<Side> {
        match self {
            Ask::Turn(side)
            | Ask::Failing(side, _)
            | Ask::Spurious(side)
            | Ask::TimeOut(side)
            | Ask::Close(side)
            | Ask::Shutdown(side) => Some(side),
            Ask::Push { .. } => Some(Side::Sender),
            Ask::Pop { .. } => Some(Side::Recorder),
            _ => None,
        }
    }

    fn fields(self) -> Fields {
        match self {
            Ask::Turn(side) => (0, side as u8, 0, 0, 0),
            Ask::Failing(side, error) => (1, side as u8, error, 0, 0),
            Ask::Spurious(side) => (2, side as u8, 0, 0, 0),
            Ask::TimeOut(side) => (3, side as u8, 0, 0, 0),
            Ask::Push {
                blocking,
                tag,
                length,
            } => (4, blocking.into(), tag, length, 0),
            Ask::Pop { blocking, length } => (5, blocking.into(), 0, length, 0),
            Ask::Close(side) => (6, side as u8, 0, 0, 0),
            Ask::Shutdown(side) => (7, side as u8, 0, 0, 0),
            Ask::Attach { side, spins } => (8, side as u8, spins, 0, 0),
            Ask::Create {
                power,
                slot_size,
                not_full,
                start,
            } => (10, not_full.into(), power.into(), slot_size, start),
            Ask::Sweep {
                side,
                spins,
                at,
                flags,
            } => (11, side as u8, spins, at, flags.into()),
            Ask::Put { at, count, value } => (12, 0, count, at, value),
            Ask::Spoil(side, terms) => spoil_fields(side, terms),
            Ask::Unknown(kind) => (kind, 0, 0, 0, 0),
        }
    }

    /// What is asked, in words.
    pub fn words(self) -> String {
        match self {
            Ask::Turn(side) => format!("turn {}", side.name()),
            Ask::Failing(side, error) => format!("turn {} fails {error}", side.name()),
            Ask::Spurious(side) => format!("spurious {}", side.name()),
            Ask::TimeOut(side) => format!("time-out {}", side.name()),
            Ask::Push {
                blocking,
                tag,
                length,
            } => format!("push {}tag {tag} length {length}", mode(blocking)),
            Ask::Pop { blocking, length } => format!("pop {}{length}", mode(blocking)),
            Ask::Close(side) => format!("close {}", side.name()),
            Ask::Shutdown(side) => format!("shutdown {}", side.name()),
            Ask::Attach { side, spins } => attach_words(side, spins),
            Ask::Create {
                power,
                slot_size,
                not_full,
                start,
            } => {
                let option = if not_full { "on" } else { "off" };
                format!("create power {power} slot {slot_size} not-full {option} start {start:#X}")
            }
            Ask::Sweep {
                side, spins, at, ..
            } => format!(
                "{} over each value of byte {at:#05X}",
                attach_words(side, spins)
            ),
            Ask::Put { at, count, value } => put_words(at, count, value),
            Ask::Spoil(side, terms) => format!("record of {}: {}", side.name(), set(terms)),
            Ask::Unknown(kind) => format!("unknown kind {kind}"),
        }
    }
}

fn spoil_fields(seat: Side, terms: Terms) -> Fields {
    let part = seat as u8 + 2 * terms.side as u8 + 4 * u8::from(terms.attached);
    let power = terms.power.into();
    let value = u64::from(terms.length) | u64::from(terms.spins) << 32;
    (9, part, power, terms.slot_size, value)
}

fn attach_words(side: Side, spins: u16) -> String {
    format!("attach {}{}", side.name(), spins_words(spins))
}

/// Most parties do not spin, and then nothing is told of it.
fn spins_words(spins: u16) -> String {
    match spins {
        0 => String::new(),
        _ => format!(", spins {spins}"),
    }
}

fn put_words(at: u32, count: u16, value: u64) -> String {
    let bytes = value.to_le_bytes();
    match bytes.get(..count.into()) {
        Some(bytes) => format!("put at {at:#05X} bytes {}", words::hex(bytes)),
        None => format!("put at {at:#05X} {count} bytes from {}", words::hex(&bytes)),
    }
}

fn mode(blocking: bool) -> &'static str {
    if blocking {
        "blocking "
    } else {
        ""
    }
}

fn set(terms: Terms) -> String {
    let Terms {
        side,
        attached,
        power,
        slot_size,
        length,
        spins,
    } = terms;
    let (side, spins) = (side.name(), spins_words(spins));
    format!(
        "side {side}, attached {attached}, power {power}, slot {slot_size}, length {length}{spins}"
    )
}
