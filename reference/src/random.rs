//! Random scripts, the same for the same seed.
//!
//! The generator plays what it writes, so that it can ask mostly for what makes sense: calls
//! go on to their end, rings fill and run dry, sleepers are woken. Among these it strews what
//! must be refused. Scripts of an even seed hold no close and no shutdown. Those of an odd seed
//! hold them late and rarely, since little happens after them; but every other odd seed, 3
//! above a multiple of 4, makes a wild script, in which anything is asked at any step.

use crate::dice::Dice;
use crate::party::{CloseTurn, ShutTurn, Side, Step};
use crate::script::{Kind, Player, Record, RECORD};

/// How a stretch of the script leans, in percent. A stretch in which the sender is much faster
/// fills the ring; one in which the recorder is much faster lets it sleep.
struct Mood {
    records_left: u64,
    sender: u64,
    blocking: u64,
    failing: u64,
}

/// Where a script may close and shut down.
#[derive(Clone, Copy, PartialEq, Eq)]
enum Ends {
    Never,
    Late,
    Anywhere,
}

/// Writes the records of one random script.
pub struct Generator {
    dice: Dice,
    player: Player,
    mood: Mood,
    ends: Ends,
    written: u64,
    count: u64,
}

impl Generator {
    /// A script of `count` records. The count decides how late is late.
    pub fn new(seed: u64, count: u64) -> Self {
        Generator {
            dice: Dice::new(seed),
            player: Player::new(),
            mood: Mood {
                records_left: 0,
                sender: 50,
                blocking: 50,
                failing: 10,
            },
            ends: match seed % 4 {
                1 => Ends::Late,
                3 => Ends::Anywhere,
                _ => Ends::Never,
            },
            written: 0,
            count,
        }
    }

    fn change_mood(&mut self) {
        let dice = &mut self.dice;
        self.mood = Mood {
            records_left: 20 + dice.below(180),
            sender: [15, 35, 50, 65, 85][dice.below(5) as usize],
            blocking: [0, 40, 70, 100][dice.below(4) as usize],
            failing: [0, 0, 5, 25][dice.below(4) as usize],
        };
    }

    fn record(&mut self) -> Record {
        if self.mood.records_left == 0 {
            self.change_mood();
        }
        self.mood.records_left -= 1;
        if self.dice.percent(2) {
            return self.odd();
        }
        let leaning = self.dice.percent(self.mood.sender);
        let side = if leaning {
            Side::Sender
        } else {
            Side::Recorder
        };
        if self.ends == Ends::Anywhere && self.dice.percent(50) {
            return self.anything(side);
        }
        self.sensible(side)
    }

    /// Something that usually moves the party of this side on.
    fn sensible(&mut self, side: Side) -> Record {
        match self.step(side) {
            Step::Rest => self.at_rest(side),
            Step::Asleep => {
                let both = self.step(side.other()) == Step::Asleep;
                match self.dice.below(100) {
                    0..=7 => Record::new(Kind::Spurious(side)),
                    8..=11 => Record::new(Kind::TimeOut(side)),
                    12..=14 => self.turn(side),
                    15 | 16 => self.call(side),
                    // After a failed wake both may sleep, and no turn can end that.
                    _ if both => Record::new(Kind::Spurious(side)),
                    _ => self.sensible(side.other()),
                }
            }
            _ => match self.dice.below(100) {
                0 => self.call(side),
                1 => Record::new(Kind::Spurious(side)),
                2 => Record::new(Kind::TimeOut(side)),
                _ => self.turn(side),
            },
        }
    }

    fn step(&self, side: Side) -> Step {
        self.player.bench().party(side).step
    }

    /// A close or a shutdown for a party at rest, if it is time for one.
    fn end(&mut self, side: Side) -> Option<Record> {
        // Late: in the last half or quarter, and among the last few hundred records of a long
        // script, since after both closes all is refused. Anywhere: a few of each in a script
        // of any length.
        let left = self.count - self.written;
        let (count, dice) = (self.count, &mut self.dice);
        let mut due = |share: u64, most: u64, odds: u64| match self.ends {
            Ends::Never => false,
            Ends::Late => left <= (count / share).min(most) && dice.below(odds) == 0,
            Ends::Anywhere => dice.below(count) < 10,
        };
        if due(4, 200, 32) {
            return Some(Record::new(Kind::Close(side)));
        }
        due(2, 400, 64).then(|| Record::new(Kind::Shutdown(side)))
    }

    fn at_rest(&mut self, side: Side) -> Record {
        if let Some(record) = self.end(side) {
            return record;
        }
        match self.dice.below(100) {
            0 | 1 => self.turn(side),
            2 => Record::new(Kind::Spurious(side)),
            3 => Record::new(Kind::TimeOut(side)),
            _ => self.call(side),
        }
    }

    /// A push or a pop, as the side can.
    fn call(&mut self, side: Side) -> Record {
        let mut record = match side {
            Side::Sender => Record::new(Kind::Push),
            Side::Recorder => Record::new(Kind::Pop),
        };
        record.mode = u8::from(self.dice.percent(self.mood.blocking));
        // Lengths go past 24 to be refused. Most buffers take any note, or pops would be
        // stuck at one that is too long for them.
        record.length = match (side, self.dice.below(10)) {
            (_, 0) => self.dice.below(31),
            (Side::Sender, _) => self.dice.below(25),
            (Side::Recorder, 1) => self.dice.below(25),
            (Side::Recorder, _) => 24,
        } as u16;
        if side == Side::Sender {
            record.tag = self.tag();
            self.fill_payload(&mut record);
        }
        record
    }

    fn tag(&mut self) -> u16 {
        match self.dice.below(4) {
            0 => self.dice.below(0x1_0000) as u16,
            _ => self.dice.below(10) as u16,
        }
    }

    /// Payload bytes past the length are as odd as any: nobody may look at them.
    fn fill_payload(&mut self, record: &mut Record) {
        let letters = self.dice.percent(60);
        for byte in &mut record.payload {
            *byte = match letters {
                true => b'a' + self.dice.below(26) as u8,
                false => self.dice.below(256) as u8,
            };
        }
    }

    /// A turn, now and then with an announced failure, more often where it counts.
    fn turn(&mut self, side: Side) -> Record {
        let futex = matches!(
            self.step(side),
            Step::P6
                | Step::C6 { .. }
                | Step::B5 { .. }
                | Step::W5 { .. }
                | Step::Close(CloseTurn::WakeAll)
                | Step::Shut {
                    turn: ShutTurn::WakeNe | ShutTurn::WakeNf,
                    ..
                }
        );
        let failing = if futex { self.mood.failing } else { 2 };
        if !self.dice.percent(failing) {
            return Record::new(Kind::Turn(side));
        }
        self.failing_turn(side)
    }

    fn failing_turn(&mut self, side: Side) -> Record {
        let mut record = Record::new(Kind::FailingTurn(side));
        record.error = match self.dice.below(12) {
            0 => 0,
            1..=3 => 4,
            4..=6 => 11,
            7 | 8 => 110,
            9 => 22,
            10 => 0xFFFF,
            _ => self.dice.below(0x1_0000) as u16,
        };
        record
    }

    /// Any event, whatever step the party stands at.
    fn anything(&mut self, side: Side) -> Record {
        let rests = self.step(side) == Step::Rest;
        match self.dice.below(20) {
            0..=2 => self.odd(),
            3 => {
                let mut record = self.call(side);
                record.length = [25, 0xFFFF][self.dice.below(2) as usize];
                record
            }
            4 => Record::new(Kind::Spurious(side)),
            5 => Record::new(Kind::TimeOut(side)),
            // A party at rest would take it up, and too many of these leave little else.
            6 if !rests => Record::new(Kind::Close(side)),
            7 if !rests => Record::new(Kind::Shutdown(side)),
            6 | 7 => self.at_rest(side),
            8 | 9 => self.call(side),
            10..=14 => self.failing_turn(side),
            _ => Record::new(Kind::Turn(side)),
        }
    }

    /// Something that is mostly refused: unknown kinds and modes, lengths and kinds at random.
    fn odd(&mut self) -> Record {
        let side = self.dice.side();
        let mut record = match self.dice.below(8) {
            0 | 1 => Record {
                kind: 14 + self.dice.below(242) as u8,
                ..Record::default()
            },
            2 | 3 => {
                let mut record = self.call(side);
                record.mode = 2 + self.dice.below(254) as u8;
                record
            }
            4 => {
                let mut record = self.call(side);
                record.length = self.dice.below(0x1_0000) as u16;
                record
            }
            5 => Record::new(Kind::Spurious(side)),
            6 => Record::new(Kind::TimeOut(side)),
            // The failing turn with error 0.
            _ => Record::new(Kind::FailingTurn(side)),
        };
        if Kind::of_number(record.kind).is_none() {
            self.stuff(&mut record);
        }
        record
    }

    /// Puts odd values into the fields that the record's kind ignores.
    fn stuff(&mut self, record: &mut Record) {
        let kind = Kind::of_number(record.kind);
        let call = matches!(kind, Some(Kind::Push | Kind::Pop));
        if !call {
            record.mode = self.dice.below(256) as u8;
            record.length = self.dice.below(0x1_0000) as u16;
        }
        if kind != Some(Kind::Push) {
            record.tag = self.dice.below(0x1_0000) as u16;
            self.fill_payload(record);
        }
        if !matches!(kind, Some(Kind::FailingTurn(_))) {
            record.error = self.dice.below(0x1_0000) as u16;
        }
    }
}

impl Iterator for Generator {
    type Item = [u8; RECORD];

    fn next(&mut self) -> Option<[u8; RECORD]> {
        if self.written == self.count {
            return None;
        }
        let mut record = self.record();
        if self.dice.percent(5) {
            self.stuff(&mut record);
        }
        self.written += 1;
        self.player.answer(&record);
        Some(record.to_bytes())
    }
}
