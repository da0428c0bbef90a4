//! A case of attach over random headers.

use crate::cases::case::{Case, Ring};
use crate::cases::record::{Ask, Part};
use crate::dice::Dice;
use crate::header::Header;
use crate::party::Side;
use Side::{Recorder, Sender};

/// Good headers with one to three random damages, mostly where something is checked.
pub fn headers() -> Case {
    const SEED: u64 = 0x0157;
    const HEADERS: usize = 200;
    let mut dice = Dice::new(SEED);
    let mut case = Case::new("Attach: random headers");
    for _ in 0..HEADERS {
        let ring = Ring {
            power: 1 + dice.below(3) as u8,
            slot_size: 8 * (1 + dice.below(4) as u32),
            not_full: dice.percent(50),
            start: dice.roll(),
        };
        case = case.lend(Part::Region, ring.total()).ask(ring.create());
        for _ in 0..1 + dice.below(3) {
            case = case.ask(random_damage(&mut dice));
        }
        case = case.ask(Ask::attach(if dice.percent(50) {
            Sender
        } else {
            Recorder
        }));
    }
    case
}

fn random_damage(dice: &mut Dice) -> Ask {
    const FIELDS: [(usize, u16); 8] = [
        (Header::AT_TOTAL_SIZE, 8),
        (Header::AT_RING_BYTES, 8),
        (Header::AT_POWER, 1),
        (Header::AT_SLOT_SIZE, 4),
        (Header::AT_FLAGS, 1),
        (Header::AT_FLAGS, 1),
        (Header::AT_HEAD, 8),
        (Header::AT_TAIL, 8),
    ];
    if dice.percent(30) {
        return Ask::Put {
            at: dice.below(Header::SIZE as u64) as u32,
            count: 1,
            value: dice.below(256),
        };
    }
    let (at, count) = FIELDS[dice.below(FIELDS.len() as u64) as usize];
    // Small multiples of 8 are mostly good sizes.
    let value = match at {
        Header::AT_TOTAL_SIZE => 384 + 8 * dice.below(24),
        Header::AT_RING_BYTES | Header::AT_SLOT_SIZE => 8 * dice.below(12),
        Header::AT_POWER => dice.below(13),
        Header::AT_FLAGS => dice.below(128),
        _ => dice.roll(),
    };
    Ask::Put {
        at: at as u32,
        count,
        value,
    }
}
