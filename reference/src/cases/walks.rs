//! Random walks over rings that the script program does not have, with damage on the way.

use crate::cases::case::{Case, Ring};
use crate::cases::record::Ask;
use crate::cases::stage::Stage;
use crate::dice::Dice;
use crate::header::Header;
use crate::party::{Side, Step};
use Side::{Recorder, Sender};

const SEED: u64 = 0x2026;
const WALKS: u64 = 16;
const EVENTS: usize = 72;

pub fn list() -> Vec<Case> {
    (0..WALKS).map(walk).collect()
}

/// A walk plays what it asks, so that calls mostly go on to their end.
fn walk(number: u64) -> Case {
    let mut dice = Dice::new(SEED + number);
    let ring = Ring {
        power: 1 + dice.below(2) as u8,
        slot_size: 8 * (1 + dice.below(4) as u32),
        not_full: dice.percent(60),
        start: dice.below(4).wrapping_sub(4),
    };
    // Every fourth walk has its region damaged.
    let damaged = number % 4 == 3;
    let kind = if damaged { "damaged" } else { "whole" };
    let mut case = Case::on(
        format!(
            "Random walk {number} on a {kind} region: power {}, slot {}, not-full {}",
            ring.power, ring.slot_size, ring.not_full
        ),
        ring,
    );
    let mut stage = Stage::new();
    let mut played = 0;
    for _ in 0..EVENTS {
        for &record in &case.records[played..] {
            stage.play(record);
        }
        played = case.records.len();
        case = event(case, &mut dice, &stage, ring, damaged);
    }
    case
}

fn event(case: Case, dice: &mut Dice, stage: &Stage, ring: Ring, damaged: bool) -> Case {
    if damaged && dice.percent(8) {
        return case.ask(damage(dice, ring));
    }
    let side = if dice.percent(50) { Sender } else { Recorder };
    match stage.bench.party(side).step {
        Step::Rest if dice.percent(90) => begin(case, dice, side, ring),
        Step::Asleep if dice.percent(20) => case.ask(Ask::Spurious(side)),
        Step::Asleep if dice.percent(20) => case.ask(Ask::TimeOut(side)),
        _ if dice.percent(10) => case.ask(Ask::Failing(side, failure(dice))),
        _ => case.ask(Ask::Turn(side)),
    }
}

fn begin(case: Case, dice: &mut Dice, side: Side, ring: Ring) -> Case {
    if dice.percent(2) {
        return case.ask(Ask::Close(side));
    }
    if dice.percent(1) {
        return case.ask(Ask::Shutdown(side));
    }
    let blocking = dice.percent(50);
    // One above the payload capacity now and then: too long for a push, and well for a pop.
    let length = dice.below(u64::from(ring.slot_size) - 6) as u32;
    match side {
        Sender => case.push(blocking, dice.roll() as u16, length),
        Recorder => case.pop(blocking, length),
    }
}

fn failure(dice: &mut Dice) -> u16 {
    const ERRORS: [u16; 6] = [0, 4, 11, 110, 22, 1];
    ERRORS[dice.below(ERRORS.len() as u64) as usize]
}

/// A counter a little off, a slot's length, a bit of its flags or zero word, a bell, or any byte
/// of the header.
fn damage(dice: &mut Dice, ring: Ring) -> Ask {
    let near = ring.start.wrapping_add(dice.below(6)).wrapping_sub(1);
    let (at, count, value) = match dice.below(6) {
        0 => (Header::AT_HEAD, 8, near),
        1 => (Header::AT_TAIL, 8, near),
        2 => (Header::SIZE, 2, dice.below(u64::from(ring.slot_size))),
        3 => (Header::SIZE + 4, 4, 1 << dice.below(32)),
        4 => (Header::AT_NE, 4, dice.below(4)),
        _ => (dice.below(Header::SIZE as u64) as usize, 1, dice.below(256)),
    };
    Ask::Put {
        at: at as u32,
        count,
        value,
    }
}
