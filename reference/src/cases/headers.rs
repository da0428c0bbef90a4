//! Cases of create and attach: sizes, lengths, the order of checks, and damaged headers.

use crate::cases::case::{Case, Ring, SIDES};
use crate::cases::record::{Ask, Part};
use crate::header::Header;
use crate::party::Side;
use crate::region::{MOST_POWER, MOST_SLOT_SIZE};
use Side::{Recorder, Sender};

pub fn list() -> Vec<Case> {
    let mut cases = vec![sizes(), lengths(), starts()];
    cases.extend([Ring::SMALL, WIDE_OFF].map(attach_lengths));
    cases.push(attached_twice());
    cases.push(order());
    cases.push(whole_words());
    cases.push(cut_products());
    cases.push(flags());
    cases.push(every_byte(Sender, Ring::SMALL));
    cases.push(every_byte(Recorder, WIDE_OFF));
    cases
}

const WIDE_OFF: Ring = Ring {
    power: 3,
    slot_size: 24,
    not_full: false,
    start: u64::MAX,
};

/// 6, then 5, then 4, with sizes at the limits and at the type's ends.
fn sizes() -> Case {
    const POWERS: [u8; 9] = [0, 1, 2, MOST_POWER, MOST_POWER + 1, 63, 64, 128, 255];
    const SLOTS: [u32; 12] = [
        0,
        1,
        7,
        8,
        12,
        16,
        MOST_SLOT_SIZE - 1,
        MOST_SLOT_SIZE,
        MOST_SLOT_SIZE + 1,
        MOST_SLOT_SIZE + 8,
        1 << 31,
        u32::MAX - 7,
    ];
    let ring = Ring {
        slot_size: 8,
        ..Ring::SMALL
    };
    let mut case = Case::new("Create's order 6, 5, 4: sizes").lend(Part::Region, ring.total());
    for power in POWERS {
        for slot_size in SLOTS {
            case = case.ask(
                Ring {
                    power,
                    slot_size,
                    ..ring
                }
                .create(),
            );
        }
    }
    case
}

fn lengths() -> Case {
    let ring = Ring::SMALL;
    let total = ring.total();
    let mut case = Case::new("Create's 4: region lengths");
    for length in [
        0,
        1,
        383,
        384,
        385,
        total - 1,
        total + 1,
        Case::PATTERNED,
        total,
    ] {
        case = case.lend(Part::Region, length).ask(ring.create());
    }
    case
}

fn starts() -> Case {
    let mut case =
        Case::new("Create writes all 384 header bytes and no ring byte: starts, options")
            .lend(Part::Region, Ring::SMALL.total());
    for start in [0, 1, u64::from(u32::MAX), 1 << 63, u64::MAX] {
        for not_full in [false, true] {
            let ring = Ring {
                not_full,
                start,
                ..Ring::SMALL
            };
            case = case.ask(ring.create());
        }
    }
    case
}

fn attach_lengths(ring: Ring) -> Case {
    let total = ring.total();
    let mut case = Case::new(format!("Attach's 4: region lengths, total {total}"))
        .lend(Part::Region, total)
        .ask(ring.create());
    for length in [
        0,
        1,
        383,
        384,
        385,
        total - 1,
        total + 1,
        Case::PATTERNED,
        total,
    ] {
        case = case.lend(Part::Region, length).asks(SIDES.map(Ask::attach));
    }
    case
}

fn attached_twice() -> Case {
    Case::on(
        "Answer 16: attached already, and a stranger's record",
        Ring::SMALL,
    )
    .ask(Ask::attach(Recorder))
    .turns(Recorder, 1)
    .ask(Ask::attach(Sender))
    .turns(Sender, 1)
    .put(Header::AT_FLAGS, 1, 0x40)
    .asks(SIDES.map(Ask::attach))
}

/// A damage for each check of attach, in the order of the checks.
pub(super) fn damages() -> [Ask; 12] {
    let put = |at: usize, count, value| Ask::Put {
        at: at as u32,
        count,
        value,
    };
    [
        put(Header::AT_MAGIC, 1, 0x50),
        put(Header::AT_VERSION_MINOR, 2, 2),
        put(Header::AT_HEADER_SIZE, 4, 385),
        put(Header::AT_TOTAL_SIZE, 8, 417),
        put(Header::AT_RING_OFFSET, 8, 0),
        put(Header::AT_ARENA_BYTES, 8, 1),
        put(Header::AT_RING_BYTES, 8, 33),
        put(Header::AT_SLOT_SIZE, 4, 12),
        put(Header::AT_POWER, 1, 0),
        put(0x17F, 1, 1),
        put(Header::AT_FLAGS + 3, 1, 0x80),
        put(Header::AT_FLAGS, 1, 0x40),
    ]
}

/// Each two damages together: the earlier check answers.
fn order() -> Case {
    let damages = damages();
    let mut case = Case::new("Attach's order: each two damages together")
        .lend(Part::Region, Ring::SMALL.total());
    for (k, &second) in damages.iter().enumerate() {
        for &first in &damages[..k] {
            case = case
                .ask(Ring::SMALL.create())
                .asks([first, second, Ask::attach(Sender)]);
        }
    }
    case
}

/// Words set whole, to values that a sum or a product would wrap at.
fn whole_words() -> Case {
    const TOTAL: u64 = 416;
    const MOST: u64 = MOST_SLOT_SIZE as u64;
    const POWER: u64 = MOST_POWER as u64;
    let words: [(usize, u16, &[u64]); 7] = [
        (
            Header::AT_TOTAL_SIZE,
            8,
            &[0, 383, 384, 415, TOTAL + (1 << 32), u64::MAX],
        ),
        (
            Header::AT_RING_OFFSET,
            8,
            &[0, 385, 384 + (1 << 32), u64::MAX],
        ),
        (
            Header::AT_RING_BYTES,
            8,
            &[0, 31, 33, 32 + (1 << 32), u64::MAX - 383, u64::MAX],
        ),
        (
            Header::AT_SLOT_SIZE,
            4,
            &[0, 8, 12, 32, MOST, MOST + 8, 16 + (1 << 31)],
        ),
        (
            Header::AT_POWER,
            1,
            &[0, 2, POWER, POWER + 1, 33, 65, 129, 255],
        ),
        (Header::AT_HEAD, 8, &[1, u64::MAX]),
        (Header::AT_TAIL, 8, &[1, u64::MAX]),
    ];
    let mut case = Case::new("Attach: words set whole").lend(Part::Region, TOTAL as u32);
    for (at, count, values) in words {
        for &value in values {
            case = case
                .ask(Ring::SMALL.create())
                .put(at, count, value)
                .asks(SIDES.map(Ask::attach));
        }
    }
    // Power and slot size that keep the product, and sizes that belong together.
    case.ask(Ring::SMALL.create())
        .put(Header::AT_POWER, 1, 2)
        .put(Header::AT_SLOT_SIZE, 4, 8)
        .asks(SIDES.map(Ask::attach))
        .push(false, 1, 1)
        .push(false, 1, 0)
        .turns(Sender, 6)
}

/// A header with no ring behind it, for sizes whose ring is 0 bytes in 32 bits: 4.
fn cut_products() -> Case {
    const SIZE: u32 = Header::SIZE as u32;
    let mut case = Case::new("Answer 4: sizes whose ring is 0 bytes in 32 bits");
    for (power, slot_size) in Ring::CUT {
        let ring = Ring {
            power,
            slot_size,
            ..Ring::SMALL
        };
        case = case
            .lend(Part::Region, SIZE)
            .ask(ring.create())
            .lend(Part::Region, Ring::SMALL.total())
            .ask(Ring::SMALL.create())
            .lend(Part::Region, SIZE)
            .put(Header::AT_TOTAL_SIZE, 8, SIZE.into())
            .put(Header::AT_RING_BYTES, 8, 0)
            .put(Header::AT_POWER, 1, power.into())
            .put(Header::AT_SLOT_SIZE, 4, slot_size.into())
            .asks(SIDES.map(Ask::attach));
    }
    case
}

/// Each of the low seven bits and the first reserved one, from either side.
fn flags() -> Case {
    let mut case = Case::new("Attach: flag bits, 4 before 14 before 16")
        .lend(Part::Region, Ring::SMALL.total());
    for flags in [
        0x00,
        0x06,
        0x80,
        0x81,
        0x101,
        0x8000_0001,
        0x07,
        0x39,
        0x79,
        0x3F,
    ] {
        for side in SIDES {
            case = case
                .ask(Ring::SMALL.create())
                .put(Header::AT_FLAGS, 4, flags)
                .ask(Ask::attach(side));
        }
    }
    case
}

/// An attach over every value of every byte of a good header.
fn every_byte(side: Side, ring: Ring) -> Case {
    let name = format!(
        "Attach over each value of each header byte, {}, power {}, slot {}",
        side.name(),
        ring.power,
        ring.slot_size
    );
    let sweep = |at| Ask::Sweep {
        side,
        spins: 0,
        at,
        flags: ring.flags() as u8,
    };
    Case::new(name)
        .lend(Part::Region, ring.total())
        .asks((0..Header::SIZE as u32).flat_map(|at| [ring.create(), sweep(at)]))
}
