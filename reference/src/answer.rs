//! What a create, an attach, a begin or a turn answers, with document 01's numbers.

/// The two bells: NE tells the recorder of a note, NF tells the sender of room.
#[derive(Clone, Copy, Debug, PartialEq, Eq, Hash)]
pub enum Bell {
    Ne,
    Nf,
}

impl Bell {
    pub fn name(self) -> &'static str {
        match self {
            Bell::Ne => "NE",
            Bell::Nf => "NF",
        }
    }
}

/// The futex call that a 17 names.
#[derive(Clone, Copy, Debug, PartialEq, Eq, Hash)]
pub enum Operation {
    WaitNe,
    WakeNe,
    WaitNf,
    WakeNf,
}

impl Operation {
    pub fn wait(bell: Bell) -> Self {
        match bell {
            Bell::Ne => Operation::WaitNe,
            Bell::Nf => Operation::WaitNf,
        }
    }

    pub fn wake(bell: Bell) -> Self {
        match bell {
            Bell::Ne => Operation::WakeNe,
            Bell::Nf => Operation::WakeNf,
        }
    }

    pub fn number(self) -> u16 {
        match self {
            Operation::WaitNe => 0,
            Operation::WakeNe => 1,
            Operation::WaitNf => 2,
            Operation::WakeNf => 3,
        }
    }

    pub fn name(self) -> &'static str {
        match self {
            Operation::WaitNe => "wait NE",
            Operation::WakeNe => "wake NE",
            Operation::WaitNf => "wait NF",
            Operation::WakeNf => "wake NF",
        }
    }

    /// The operation that a report's tag names, if it names one.
    pub fn of_number(number: u16) -> Option<Self> {
        match number {
            0 => Some(Operation::WaitNe),
            1 => Some(Operation::WakeNe),
            2 => Some(Operation::WaitNf),
            3 => Some(Operation::WakeNf),
            _ => None,
        }
    }
}

/// An answer with the values it carries.
#[derive(Clone, Copy, Debug, PartialEq, Eq, Hash)]
pub enum Answer {
    /// A push, close, shutdown, create or attach is finished.
    Done,
    /// A pop is finished. It is Done too, number 0, but it alone carries a note's values.
    Delivered {
        tag: u16,
        length: u16,
    },
    InvalidMagic,
    UnsupportedVersion,
    InvalidHeaderSize,
    InvalidLayout,
    InvalidCapacity,
    InvalidSlotSize,
    CorruptIndices,
    CorruptSlot,
    Full,
    Empty,
    Closed,
    Shutdown,
    Timeout,
    WouldBlock,
    /// The buffer is too small for the note; `length` is what it needs.
    OutputTooSmall {
        length: u16,
    },
    AlreadyAttached,
    Syscall {
        operation: Operation,
        error: u16,
    },
    PayloadTooLong,
    NotFullOff,
    BadCall,
    Nothing,
    Begun,
    GoesOn,
}

impl Answer {
    pub fn number(self) -> u8 {
        match self {
            Answer::Done | Answer::Delivered { .. } => 0,
            Answer::InvalidMagic => 1,
            Answer::UnsupportedVersion => 2,
            Answer::InvalidHeaderSize => 3,
            Answer::InvalidLayout => 4,
            Answer::InvalidCapacity => 5,
            Answer::InvalidSlotSize => 6,
            Answer::CorruptIndices => 7,
            Answer::CorruptSlot => 8,
            Answer::Full => 9,
            Answer::Empty => 10,
            Answer::Closed => 11,
            Answer::Shutdown => 12,
            Answer::Timeout => 13,
            Answer::WouldBlock => 14,
            Answer::OutputTooSmall { .. } => 15,
            Answer::AlreadyAttached => 16,
            Answer::Syscall { .. } => 17,
            Answer::PayloadTooLong => 18,
            Answer::NotFullOff => 19,
            Answer::BadCall => 20,
            Answer::Nothing => 253,
            Answer::Begun => 254,
            Answer::GoesOn => 255,
        }
    }

    /// A delivered note's tag, or the operation of a failed futex call.
    pub fn tag(self) -> u16 {
        match self {
            Answer::Delivered { tag, .. } => tag,
            Answer::Syscall { operation, .. } => operation.number(),
            _ => 0,
        }
    }

    /// A delivered note's length, or the length a pop would have needed.
    pub fn length(self) -> u16 {
        match self {
            Answer::Delivered { length, .. } | Answer::OutputTooSmall { length } => length,
            _ => 0,
        }
    }

    /// The error number of a failed futex call.
    pub fn error(self) -> u16 {
        match self {
            Answer::Syscall { error, .. } => error,
            _ => 0,
        }
    }

    pub fn name(self) -> &'static str {
        name_of(self.number()).unwrap_or("unknown")
    }
}

/// The name of an answer's number; none for a number that document 01 does not give.
pub fn name_of(number: u8) -> Option<&'static str> {
    Some(match number {
        0 => "Done",
        1 => "InvalidMagic",
        2 => "UnsupportedVersion",
        3 => "InvalidHeaderSize",
        4 => "InvalidLayout",
        5 => "InvalidCapacity",
        6 => "InvalidSlotSize",
        7 => "CorruptIndices",
        8 => "CorruptSlot",
        9 => "Full",
        10 => "Empty",
        11 => "Closed",
        12 => "Shutdown",
        13 => "Timeout",
        14 => "WouldBlock",
        15 => "OutputTooSmall",
        16 => "AlreadyAttached",
        17 => "Syscall",
        18 => "PayloadTooLong",
        19 => "NotFullOff",
        20 => "BadCall",
        253 => "Nothing",
        254 => "Begun",
        255 => "GoesOn",
        _ => return None,
    })
}
