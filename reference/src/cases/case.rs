//! A case: a name that says which place of document 01 it plays, and its records.

use crate::cases::record::{Ask, Part, Record};
use crate::header::Header;
use crate::party::Side;
use crate::region;

/// Sizes, option and start of a region.
#[derive(Clone, Copy, Debug)]
pub struct Ring {
    pub power: u8,
    pub slot_size: u32,
    pub not_full: bool,
    pub start: u64,
}

impl Ring {
    /// Two slots of 16 bytes, not-full on.
    pub const SMALL: Ring = Ring {
        power: 1,
        slot_size: 16,
        not_full: true,
        start: 0,
    };

    /// The same with not-full off.
    pub const OFF: Ring = Ring {
        not_full: false,
        ..Ring::SMALL
    };

    /// Sizes within the limits whose total is the header alone, if it is cut to 32 bits.
    pub const CUT: [(u8, u32); 3] = [
        (29, 8),
        (16, region::MOST_SLOT_SIZE),
        (region::MOST_POWER, region::MOST_SLOT_SIZE),
    ];

    /// The region's length; the sizes are within the limits, and of a ring that is played.
    pub fn total(self) -> u32 {
        region::total_size(self.power, self.slot_size) as u32
    }

    /// The flags of such a region before anybody attached.
    pub fn flags(self) -> u32 {
        match self.not_full {
            true => Header::INITIALISED | Header::NOT_FULL_ON,
            false => Header::INITIALISED,
        }
    }

    pub fn create(self) -> Ask {
        Ask::Create {
            power: self.power,
            slot_size: self.slot_size,
            not_full: self.not_full,
            start: self.start,
        }
    }
}

/// A case under construction, or done. It owes nothing to the cases before it.
#[derive(Clone, Debug)]
pub struct Case {
    pub name: String,
    pub records: Vec<Record>,
    /// What is lent to the records that follow.
    region: u32,
    payload: u32,
    buffer: u32,
}

impl Case {
    /// So many bytes of the region have the pattern where a case begins: what one record puts.
    pub const PATTERNED: u32 = u16::MAX as u32;

    /// Two strangers, since an attach to no bytes is refused, and a region of no ring.
    pub fn new(name: impl Into<String>) -> Self {
        let case = Case {
            name: name.into(),
            records: Vec::new(),
            region: 0,
            payload: 0,
            buffer: 0,
        };
        case.asks(SIDES.map(Ask::attach))
            .lend(Part::Region, Case::PATTERNED)
            .pattern(0)
            .lend(Part::Region, 0)
    }

    /// A pattern that lets a byte show that is written, or left alone: from a place on, over all
    /// that is lent. No put is lent bytes behind it, which are another case's still.
    pub fn pattern(self, from: u32) -> Self {
        let whole = self.region;
        let places = (from..whole).step_by(Case::PATTERNED as usize);
        places.fold(self, |case, at| {
            case.lend(Part::Region, whole.min(at + Case::PATTERNED))
                .put(at as usize, u16::MAX, 0xBAB7_B4B1_AEAB_A8A5)
        })
    }

    /// A fresh region with both parties attached, with no spins.
    pub fn on(name: impl Into<String>, ring: Ring) -> Self {
        Case::spinning(name, ring, 0)
    }

    /// The same with so many spins of either.
    pub fn spinning(name: impl Into<String>, ring: Ring, spins: u16) -> Self {
        Case::new(name)
            .lend(Part::Region, ring.total())
            .ask(ring.create())
            .asks(SIDES.map(|side| Ask::Attach { side, spins }))
    }

    /// From now on so many bytes are lent.
    pub fn lend(mut self, part: Part, length: u32) -> Self {
        match part {
            Part::Region => self.region = length,
            Part::Payload => self.payload = length,
            Part::Buffer => self.buffer = length,
        }
        self
    }

    pub fn ask(mut self, ask: Ask) -> Self {
        let lent = match ask.actor() {
            Some(Side::Sender) => self.payload,
            Some(Side::Recorder) => self.buffer,
            None => 0,
        };
        self.records.push(Record {
            ask,
            region: self.region,
            lent,
        });
        self
    }

    pub fn asks(self, asks: impl IntoIterator<Item = Ask>) -> Self {
        asks.into_iter().fold(self, Case::ask)
    }

    pub fn turns(self, side: Side, count: usize) -> Self {
        self.asks(std::iter::repeat_n(Ask::Turn(side), count))
    }

    /// Begins a push that is lent what it names.
    pub fn push(self, blocking: bool, tag: u16, length: u32) -> Self {
        self.lend(Part::Payload, length).ask(Ask::Push {
            blocking,
            tag,
            length,
        })
    }

    /// Begins a pop that is lent what it names.
    pub fn pop(self, blocking: bool, length: u32) -> Self {
        self.lend(Part::Buffer, length)
            .ask(Ask::Pop { blocking, length })
    }

    /// A call that blocks where it can, of either side.
    pub fn blocking_call(self, side: Side) -> Self {
        match side {
            Side::Sender => self.push(true, 9, 5),
            Side::Recorder => self.pop(true, 8),
        }
    }

    /// A blocking call of either side, asleep: the ring is filled first for a push.
    pub fn asleep(self, side: Side) -> Self {
        self.stuck(side).blocking_call(side).turns(side, 6)
    }

    /// A ring of two slots that a side can do nothing with.
    pub fn stuck(self, side: Side) -> Self {
        match side {
            Side::Sender => self.sent(2),
            Side::Recorder => self,
        }
    }

    /// Whole pushes into an empty ring; the first of them rings.
    pub fn sent(mut self, count: u16) -> Self {
        for tag in 0..count {
            let turns = if tag == 0 { 6 } else { 4 };
            self = self.push(false, tag + 1, 3).turns(Side::Sender, turns);
        }
        self
    }

    pub fn put(self, at: usize, count: u16, value: u64) -> Self {
        self.ask(Ask::Put {
            at: at as u32,
            count,
            value,
        })
    }
}

pub const SIDES: [Side; 2] = [Side::Sender, Side::Recorder];
