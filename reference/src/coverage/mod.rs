//! What a run of scripts has played: every step against every event, and every way through the
//! rules, held to those that there are.
//!
//! The ways that there are come from a walk through all states (`reach`), and no list of them
//! is kept by hand. A run must play them all, and it may play no other: so a walk that missed
//! a way is found out as well.

pub mod event;
pub mod reach;
pub mod strays;
pub mod tour;
pub mod way;

use std::collections::{BTreeMap, HashMap, HashSet};

use crate::answer::{name_of, Answer};
use crate::bench::Bench;
use crate::party::Side;
use crate::script::Record;

use event::{Event, LEGEND};
use reach::{reach, Reach};
use strays::Strays;
use way::{Place, Way};

/// How often each thing was played.
pub struct Coverage {
    reach: Reach,
    seen: HashMap<Way, u64>,
    answers: BTreeMap<u8, u64>,
    strays: Strays,
}

impl Default for Coverage {
    fn default() -> Self {
        Coverage::new()
    }
}

impl Coverage {
    /// Nothing played yet. The walk through all states is made here.
    pub fn new() -> Self {
        let reach = reach();
        Coverage {
            answers: reach.ways.iter().map(|way| (way.answer, 0)).collect(),
            reach,
            seen: HashMap::new(),
            strays: Strays::new(),
        }
    }

    /// Scripts that together play every way that there is.
    pub fn tours(&self) -> Vec<Vec<u8>> {
        tour::tours(&self.reach)
    }

    pub fn count(&mut self, record: &Record, answer: Answer, before: &Bench, after: &Bench) {
        for way in Way::of(record, answer, before, after) {
            *self.seen.entry(way).or_default() += 1;
        }
        *self.answers.entry(answer.number()).or_default() += 1;
        self.strays.count(record);
    }

    /// Counts a cut last record of so many bytes.
    pub fn count_cut(&mut self, length: usize) {
        self.strays.count_cut(length);
    }

    /// What should have been played and was not, and what was played that the walk through all
    /// states did not find.
    pub fn faults(&self) -> Vec<String> {
        let all: HashSet<&Way> = self.reach.ways.iter().collect();
        let seen: HashSet<&Way> = self.seen.keys().collect();
        let line = |what: &str, way: &Way| format!("{what}: {}", way.words());
        let missing = all.difference(&seen).map(|way| line("not played", way));
        let strange = seen
            .difference(&all)
            .map(|way| line("played, but held for unreachable", way));
        let mut faults: Vec<String> = missing.chain(strange).collect();
        faults.sort();
        faults.extend(
            self.strays
                .missing()
                .map(|what| format!("not played: {what}")),
        );
        faults
    }

    /// How often each event was asked at each step; a pair that cannot be has no place here.
    fn pairs(&self) -> HashMap<(Place, Event), u64> {
        let reachable = self.reach.ways.iter().map(|way| (way, 0));
        let seen = self.seen.iter().map(|(way, &count)| (way, count));
        let mut pairs = HashMap::new();
        for (way, count) in reachable.chain(seen) {
            *pairs.entry((way.from, way.event)).or_default() += count;
        }
        pairs
    }

    /// The table, and lines under it for what has no place in it.
    pub fn table(&self) -> String {
        let pairs = self.pairs();
        let cell = |place, event| match pairs.get(&(place, event)) {
            None => "-".into(),
            Some(0) => "!".into(),
            Some(count) => count.to_string(),
        };
        let mut table = String::from(LEGEND);
        for side in [Side::Sender, Side::Recorder] {
            table += &row(side.name(), Event::ALL.map(|event| event.name().into()));
            table.extend(
                Place::all(side)
                    .map(|place| row(&place.name(), Event::ALL.map(|event| cell(place, event)))),
            );
        }
        table + &self.ways_line() + &spins_line() + &self.answers_line() + &self.strays.lines()
    }

    fn answers_line(&self) -> String {
        let words = |(&answer, count): (&u8, &u64)| {
            format!("{answer} {} {count}", name_of(answer).unwrap_or("unknown"))
        };
        let words: Vec<String> = self.answers.iter().map(words).collect();
        format!("answers: {}\n", words.join(", "))
    }

    fn ways_line(&self) -> String {
        let played = |way: &&Way| self.seen.contains_key(way);
        format!(
            "ways (step, event, answer, next step, wake): {} of {}, from {} states\n",
            self.reach.ways.iter().filter(played).count(),
            self.reach.ways.len(),
            self.reach.states.len()
        )
    }
}

/// The script program attaches with no spins, so a spin has no row, and no way of it is asked for.
fn spins_line() -> String {
    let words = |side: Side| {
        let ways =
            Place::of_spins(side).map(|(from, to)| format!("{} to {}", from.name(), to.name()));
        format!("{} {}", side.name(), ways.join(", "))
    };
    format!(
        "spins (S), which no script has and the cases play: {}; {}\n",
        words(Side::Sender),
        words(Side::Recorder)
    )
}

fn row(head: &str, cells: [String; Event::ALL.len()]) -> String {
    let cells: String = cells.iter().map(|cell| format!(" {cell:>7}")).collect();
    format!("{head:<24}{cells}\n")
}
