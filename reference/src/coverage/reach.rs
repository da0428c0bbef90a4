//! Which ways there are at all: every state of the script program, from the opening.

use std::collections::{HashMap, VecDeque};
use std::hash::Hash;

use crate::bench::Bench;
use crate::coverage::event::Event;
use crate::coverage::way::Way;
use crate::header::Header;
use crate::party::{Cause, Failure, Party, Side, Step};
use crate::script::{Player, Record};

/// A state, up to what cannot make a difference to any later way.
///
/// * Counters are told by how many notes wait, since every test of the rules is on a
///   difference, and the slots hold the same note throughout (`Event::examples`).
/// * Bells are told by whether a waiter's epoch is still theirs. Nothing else reads them.
/// * A call's mode is read at P1 and C1 alone, a pop's length up to C2; a tag and an error
///   number are passed on and decide nothing.
type State = (Bench, u64, u32);

fn state(player: &Player) -> State {
    let region = player.region();
    let word = |at: usize| u32::from_le_bytes([0, 1, 2, 3].map(|byte| region[at + byte]));
    let long = |at: usize| u64::from(word(at)) | u64::from(word(at + 4)) << 32;
    let (head, tail) = (long(Header::AT_HEAD), long(Header::AT_TAIL));
    let mut bench = *player.bench();
    bench.sender = settled(bench.sender, head, word(Header::AT_NF));
    bench.recorder = settled(bench.recorder, tail, word(Header::AT_NE));
    (bench, head.wrapping_sub(tail), word(Header::AT_FLAGS))
}

/// A party without what decides nothing.
fn settled(mut party: Party, counter: u64, bell: u32) -> Party {
    party.count = party.count.wrapping_sub(counter);
    party.tag = 0;
    party.blocking &= matches!(party.step, Step::P1 | Step::C1);
    if !may_come_to_copy(party.step) {
        party.length = 0;
    }
    let still = |epoch| u32::from(epoch == bell);
    party.step = match party.step {
        Step::B3 { epoch } => Step::B3 {
            epoch: still(epoch),
        },
        Step::B4 { epoch } => Step::B4 {
            epoch: still(epoch),
        },
        Step::B5 { epoch } => Step::B5 {
            epoch: still(epoch),
        },
        Step::W3 { epoch } => Step::W3 {
            epoch: still(epoch),
        },
        Step::W4 { epoch } => Step::W4 {
            epoch: still(epoch),
        },
        Step::W5 { epoch } => Step::W5 {
            epoch: still(epoch),
        },
        Step::Shut {
            turn,
            cause: Cause::Asked { first },
        } => Step::Shut {
            turn,
            cause: Cause::Asked {
                first: first.map(|failure| Failure {
                    error: 1,
                    ..failure
                }),
            },
        },
        other => other,
    };
    party
}

/// Whether a pop that stands there may still come to C2.
fn may_come_to_copy(step: Step) -> bool {
    matches!(
        step,
        Step::C1
            | Step::C2
            | Step::W1
            | Step::W2
            | Step::W3 { .. }
            | Step::W4 { .. }
            | Step::W5 { .. }
            | Step::W6 { .. }
            | Step::Spin { .. }
            | Step::Asleep
    )
}

/// What one record does in one state.
pub struct Edge {
    /// The record's place in `Reach::records`.
    pub record: usize,
    /// The way's place in `Reach::ways`.
    pub way: usize,
    /// The state that it leads to, as a place in `Reach::states`.
    pub to: usize,
}

/// Every state of the script program, the opening first, and what can be asked there.
pub struct Reach {
    pub records: Vec<Record>,
    pub ways: Vec<Way>,
    pub states: Vec<Vec<Edge>>,
}

/// Gives each new thing the next number.
struct Numbers<T>(HashMap<T, usize>);

impl<T: Eq + Hash> Numbers<T> {
    fn of(&mut self, thing: T) -> usize {
        let next = self.0.len();
        *self.0.entry(thing).or_insert(next)
    }

    fn in_order(self) -> Vec<T> {
        let mut numbered: Vec<(T, usize)> = self.0.into_iter().collect();
        numbered.sort_by_key(|(_, number)| *number);
        numbered.into_iter().map(|(thing, _)| thing).collect()
    }
}

/// A walk that is under way. States are walked from in the order in which they were found.
struct Walk {
    known: Numbers<State>,
    ways: Numbers<Way>,
    open: VecDeque<Player>,
}

impl Walk {
    /// Asks for a record in a state, and keeps the state that it leads to if that is new.
    fn ask(&mut self, player: &Player, at: usize, record: &Record) -> (Vec<usize>, usize) {
        let mut next = player.clone();
        let answer = next.answer(record);
        let ways = Way::of(record, answer, player.bench(), next.bench())
            .map(|way| self.ways.of(way))
            .collect();
        // Most records are refused, and a state is dear to look up.
        if next.bench() == player.bench() && next.region() == player.region() {
            return (ways, at);
        }
        let found = self.known.0.len();
        let to = self.known.of(state(&next));
        if to == found {
            self.open.push_back(next);
        }
        (ways, to)
    }

    fn edges(&mut self, player: &Player, at: usize, records: &[Record]) -> Vec<Edge> {
        let mut edges = Vec::new();
        for (index, record) in records.iter().enumerate() {
            let (ways, to) = self.ask(player, at, record);
            edges.extend(ways.into_iter().map(|way| Edge {
                record: index,
                way,
                to,
            }));
        }
        edges
    }
}

pub fn reach() -> Reach {
    let records: Vec<Record> = [Side::Sender, Side::Recorder]
        .into_iter()
        .flat_map(|side| Event::ALL.map(|event| event.examples(side)))
        .flatten()
        .collect();
    let opening = Player::new();
    let mut walk = Walk {
        known: Numbers(HashMap::from([(state(&opening), 0)])),
        ways: Numbers(HashMap::new()),
        open: VecDeque::from([opening]),
    };
    let mut states = Vec::new();
    while let Some(player) = walk.open.pop_front() {
        states.push(walk.edges(&player, states.len(), &records));
    }
    Reach {
        records,
        ways: walk.ways.in_order(),
        states,
    }
}
