//! Cases of rings: counters over their end, and the largest and the least sizes.

use crate::cases::case::{Case, Ring};
use crate::cases::record::{Ask, Part};
use crate::header::Header;
use crate::party::Side;
use crate::region::MOST_SLOT_SIZE;
use Side::{Recorder, Sender};

pub fn list() -> Vec<Case> {
    STARTS.map(around).into_iter().chain(sizes()).collect()
}

const STARTS: [u64; 5] = [
    u64::MAX,
    u64::MAX - 1,
    u64::MAX - 3,
    u32::MAX as u64,
    1 << 63,
];

/// Two rounds of a full ring, over the counters' end.
fn around(start: u64) -> Case {
    let ring = Ring {
        power: 2,
        slot_size: 32,
        start,
        ..Ring::SMALL
    };
    let name = format!("Counters wrap: start {start:#X}, capacity 4");
    let mut case = Case::on(name, ring);
    for round in 0..2 {
        for note in 0..4 {
            let turns = if note == 0 { 6 } else { 4 };
            case = case.push(false, 4 * round + note, 24).turns(Sender, turns);
        }
        case = case.push(false, 99, 1).turns(Sender, 1);
        for note in 0..4 {
            let turns = if note == 0 { 6 } else { 4 };
            case = case.pop(false, 24).turns(Recorder, turns);
        }
        case = case.pop(false, 24).turns(Recorder, 1);
    }
    case
}

/// The least and the largest slot, and as many slots as there is room for, each with notes of the
/// least and the largest length.
fn sizes() -> Vec<Case> {
    [(1, 8), (14, 8), (1, MOST_SLOT_SIZE), (3, 4096), (9, 96)]
        .map(|(power, slot_size)| {
            let ring = Ring {
                power,
                slot_size,
                ..Ring::SMALL
            };
            let most = slot_size - 8;
            let used = (1u64 << power) - 1;
            let name = format!("Sizes: power {power}, slot {slot_size}");
            Case::new(name)
                .lend(Part::Region, ring.total())
                .pattern(Case::PATTERNED)
                .ask(ring.create())
                .put(Header::AT_HEAD, 8, used)
                .ask(Ask::attach(Sender))
                .ask(Ask::attach(Recorder))
                .push(false, 1, most + 1)
                .push(false, 0xFFFF, most)
                .turns(Sender, 4)
                .push(false, 2, 0)
                .turns(Sender, 1)
                .put(Header::AT_TAIL, 8, used)
                .ask(Ask::attach(Recorder))
                .put(Header::AT_FLAGS, 1, 0x43)
                .ask(Ask::attach(Recorder))
                .pop(false, most)
                .turns(Recorder, 4)
        })
        .into()
}
