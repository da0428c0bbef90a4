//! A ring small enough to explore: its state, what may happen to it, and how it is played.
//!
//! The state holds the words of the region that can change. To play an event they are laid
//! into a region of bytes, the party takes its turn there, and they are read back.

use super::meddling::{meddle, Meddling};
use crate::answer::{Answer, Bell};
use crate::bench::Bench;
use crate::header::Header;
use crate::party::{Party, Side, Step};
use crate::region;
use crate::rules::Rules;

/// The largest capacity that a state has room for.
pub const MOST: usize = 8;
/// Notes are numbered modulo this. It is far more than there are slots, so that a note of an
/// earlier lap is never taken for the one that is due.
pub const NUMBERS: u8 = 64;
const SLOT_SIZE: u32 = 16;
/// A note is one byte, its number, which is its tag too.
const LENGTH: usize = 1;

/// The turns of a bench, and the end of a sleeper's time, by one set of rules.
#[derive(Clone, Copy)]
pub struct Turns {
    pub sender: fn(&mut Bench, &mut [u8], &[u8], Option<u16>) -> Answer,
    pub recorder: fn(&mut Bench, &mut [u8], &mut [u8], Option<u16>) -> Answer,
    pub time_out: fn(&mut Party, Side) -> Answer,
    /// The bits of a bell that a wait looks at.
    pub bell: u32,
}

impl Turns {
    pub fn by<R: Rules>() -> Self {
        Turns {
            sender: Bench::sender_turn_by::<R>,
            recorder: Bench::recorder_turn_by::<R>,
            time_out: Party::time_out_by::<R>,
            bell: R::BELL,
        }
    }
}

#[derive(Clone, Copy, Debug, PartialEq, Eq, Hash)]
pub enum Event {
    Turn(Side),
    /// A turn whose futex call fails.
    Fails(Side, u16),
    Spurious(Side),
    TimeOut(Side),
    /// The next note; it is numbered by how many were sent.
    Push {
        blocking: bool,
    },
    Pop {
        blocking: bool,
    },
    Close(Side),
    Shutdown(Side),
    Meddles(Meddling),
}

impl Event {
    /// The party that it comes to; none for a meddler.
    pub fn side(self) -> Option<Side> {
        match self {
            Event::Turn(side)
            | Event::Fails(side, _)
            | Event::Spurious(side)
            | Event::TimeOut(side)
            | Event::Close(side)
            | Event::Shutdown(side) => Some(side),
            Event::Push { .. } => Some(Side::Sender),
            Event::Pop { .. } => Some(Side::Recorder),
            Event::Meddles(_) => None,
        }
    }

    /// A turn counts where it answers neither 20 nor 253; nothing else is a turn.
    pub fn counts(self, answer: Answer) -> bool {
        let turn = matches!(self, Event::Turn(_) | Event::Fails(..));
        turn && !matches!(answer, Answer::BadCall | Answer::Nothing)
    }

    /// Whether a party closes or shuts down by it, which one that is willing does not.
    pub fn leaves(self, side: Side) -> bool {
        self == Event::Close(side) || self == Event::Shutdown(side)
    }
}

#[derive(Clone, Copy, Debug, PartialEq, Eq, Hash)]
pub struct State {
    pub head: u64,
    pub tail: u64,
    pub ne: u32,
    pub nf: u32,
    pub flags: u32,
    /// The number of the note in each slot.
    pub ring: [u8; MOST],
    pub bench: Bench,
    /// The first byte of the pop's buffer.
    pub buffer: u8,
    /// How many notes were sent and delivered, modulo `NUMBERS`.
    pub sent: u8,
    pub got: u8,
}

impl State {
    pub fn step(&self, side: Side) -> Step {
        self.bench.party(side).step
    }

    pub fn bell(&self, bell: Bell) -> u32 {
        match bell {
            Bell::Ne => self.ne,
            Bell::Nf => self.nf,
        }
    }

    pub fn waiting(&self) -> u64 {
        self.head.wrapping_sub(self.tail)
    }

    pub fn slot_of(&self, count: u64) -> usize {
        (count % self.bench.sender.capacity()) as usize
    }

    /// A party's room: free slots for the sender, waiting notes for the recorder.
    pub fn room(&self, side: Side) -> u64 {
        match side {
            Side::Sender => self.bench.sender.capacity().wrapping_sub(self.waiting()),
            Side::Recorder => self.waiting(),
        }
    }

    /// Between calls or asleep.
    pub fn is_still(&self, side: Side) -> bool {
        matches!(self.step(side), Step::Rest | Step::Asleep)
    }

    /// Whether a party has to stop: somebody has shut down, or the other side has closed.
    pub fn must_stop(&self, side: Side) -> bool {
        self.flags & (Header::SHUTDOWN | side.other().closed_flag()) != 0
    }
}

/// Who sleeps on a bell.
pub fn sleeper(bell: Bell) -> Side {
    match Side::Sender.sleeps_on() == bell {
        true => Side::Sender,
        false => Side::Recorder,
    }
}

pub fn number_after(number: u8, more: u8) -> u8 {
    number.wrapping_add(more) % NUMBERS
}

pub fn number_before(number: u8, less: u8) -> u8 {
    number.wrapping_sub(less) % NUMBERS
}

fn put(region: &mut [u8], at: usize, bytes: &[u8]) {
    region[at..at + bytes.len()].copy_from_slice(bytes);
}

fn word(region: &[u8], at: usize) -> u32 {
    let mut bytes = [0; 4];
    bytes.copy_from_slice(&region[at..at + 4]);
    u32::from_le_bytes(bytes)
}

/// A region of one size with rules to play on it.
pub struct Machine {
    turns: Turns,
    region: Vec<u8>,
    start: State,
}

impl Machine {
    /// A machine whose parties do not spin.
    pub fn new(turns: Turns, power: u8, not_full: bool) -> Self {
        Machine::spinning(turns, power, not_full, 0)
    }

    /// One whose parties spin so many times before they read an epoch.
    pub fn spinning(turns: Turns, power: u8, not_full: bool, spins: u16) -> Self {
        let mut region = vec![0; region::total_size(power, SLOT_SIZE)];
        let created = region::create(&mut region, power, SLOT_SIZE, not_full, 0);
        let (attached, bench) = Bench::attach(&mut region, spins);
        assert_eq!((created, attached), (Answer::Done, Answer::Done));
        let mut start = State {
            head: 0,
            tail: 0,
            ne: 0,
            nf: 0,
            flags: 0,
            ring: [0; MOST],
            bench,
            buffer: 0,
            sent: 0,
            got: 0,
        };
        // What lay in the ring before the first lap looks like a lap before it.
        let capacity = 1u8 << power;
        for (number, note) in (0..).zip(&mut start.ring[..usize::from(capacity)]) {
            *note = number_before(number, capacity);
        }
        start.flags = word(&region, Header::AT_FLAGS);
        Machine {
            turns,
            region,
            start,
        }
    }

    pub fn start(&self) -> State {
        self.start
    }

    pub fn capacity(&self) -> u64 {
        self.start.bench.sender.capacity()
    }

    pub fn spins(&self) -> u16 {
        self.start.bench.sender.spins
    }

    /// The bits of a bell that a wait looks at.
    pub fn bell(&self) -> u32 {
        self.turns.bell
    }

    fn lay(&mut self, state: &State) {
        let region = &mut self.region;
        put(region, Header::AT_HEAD, &state.head.to_le_bytes());
        put(region, Header::AT_TAIL, &state.tail.to_le_bytes());
        put(region, Header::AT_NE, &state.ne.to_le_bytes());
        put(region, Header::AT_NF, &state.nf.to_le_bytes());
        put(region, Header::AT_FLAGS, &state.flags.to_le_bytes());
        let slots = region[Header::SIZE..].chunks_exact_mut(SLOT_SIZE as usize);
        for (slot, &note) in slots.zip(&state.ring) {
            slot[..9].copy_from_slice(&[LENGTH as u8, 0, note, 0, 0, 0, 0, 0, note]);
        }
    }

    fn read_back(&mut self, state: &mut State) {
        state.ne = word(&self.region, Header::AT_NE);
        state.nf = word(&self.region, Header::AT_NF);
        state.flags = word(&self.region, Header::AT_FLAGS);
        let slots = self.region[Header::SIZE..].chunks_exact(SLOT_SIZE as usize);
        for (slot, note) in slots.zip(&mut state.ring) {
            *note = slot[2];
        }
        if let Some(header) = Header::of(&mut self.region) {
            state.head = header.head();
            state.tail = header.tail();
        }
    }

    fn turn(&mut self, state: &mut State, side: Side, failure: Option<u16>) -> Answer {
        let step = state.step(side);
        self.lay(state);
        let region = &mut self.region;
        let bench = &mut state.bench;
        let answer = match side {
            Side::Sender => {
                let payload = [bench.sender.tag as u8];
                (self.turns.sender)(bench, region, &payload, failure)
            }
            Side::Recorder => {
                let mut buffer = [state.buffer];
                let answer = (self.turns.recorder)(bench, region, &mut buffer, failure);
                state.buffer = buffer[0];
                answer
            }
        };
        self.read_back(state);
        // A wrong rule may give its store up and copy or look again.
        let stored = !matches!(state.step(side), Step::P1 | Step::P2 | Step::C1 | Step::C2);
        match step {
            Step::P3 if stored => state.sent = number_after(state.sent, 1),
            Step::C3 { .. } if stored => state.got = number_after(state.got, 1),
            _ => {}
        }
        answer
    }

    /// What an event makes of a state, and its answer; a meddler gets none.
    pub fn play(&mut self, state: &State, event: Event) -> (State, Answer) {
        let mut after = *state;
        let bench = &mut after.bench;
        let answer = match event {
            Event::Turn(side) => self.turn(&mut after, side, None),
            Event::Fails(side, error) => self.turn(&mut after, side, Some(error)),
            Event::Spurious(side) => bench.party_mut(side).spurious_return(side),
            Event::TimeOut(side) => (self.turns.time_out)(bench.party_mut(side), side),
            Event::Push { blocking } => {
                let tag = u16::from(state.sent);
                bench.sender.begin_push(blocking, tag, LENGTH)
            }
            Event::Pop { blocking } => bench.recorder.begin_pop(blocking, LENGTH),
            Event::Close(side) => bench.party_mut(side).begin_close(side),
            Event::Shutdown(side) => bench.party_mut(side).begin_shutdown(side),
            Event::Meddles(meddling) => {
                meddle(&mut after, meddling);
                Answer::Nothing
            }
        };
        (after, answer)
    }
}
