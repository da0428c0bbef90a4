//! What a script may hold that no column tells: cut records, unknown numbers, lengths at the
//! ends of their range and values in fields that nobody may look at.

use crate::script::{Kind, Record, CARRIED, RECORD};
use crate::words;

/// Things that are counted one by one, each of which must come up.
struct Tally {
    name: &'static str,
    counts: Vec<(String, u64)>,
}

impl Tally {
    fn new(name: &'static str, labels: impl IntoIterator<Item = String>) -> Self {
        let counts = labels.into_iter().map(|label| (label, 0)).collect();
        Tally { name, counts }
    }

    fn count(&mut self, index: usize) {
        self.counts[index].1 += 1;
    }

    fn missing(&self) -> impl Iterator<Item = String> + '_ {
        self.counts
            .iter()
            .filter(|(_, count)| *count == 0)
            .map(|(label, _)| format!("{} {label}", self.name))
    }

    fn line(&self) -> String {
        let all = self.counts.len();
        let met = all - self.missing().count();
        let times: u64 = self.counts.iter().map(|(_, count)| count).sum();
        format!("{}: {met} of {all}, {times} times\n", self.name)
    }
}

/// The kinds 0 to 13 are known.
const KINDS: u8 = 14;
/// The modes 0 and 1 are known.
const MODES: u8 = 2;
/// The first length that is too long, and the last.
const LONG: [u16; 2] = [CARRIED as u16 + 1, u16::MAX];

/// The fields after the kind, by name, and which of them a kind does not use.
const FIELDS: [&str; 5] = ["mode", "tag", "length", "error", "payload"];

fn unused(kind: u8) -> [bool; 5] {
    match Kind::of_number(kind) {
        // Of a push's payload the bytes past its length.
        Some(Kind::Push) => [false, false, false, true, true],
        Some(Kind::Pop) => [false, true, false, true, true],
        Some(Kind::FailingTurn(_)) => [true, true, true, false, true],
        _ => [true; 5],
    }
}

/// Which fields of a record hold something that nobody may look at.
fn rubbish(record: &Record) -> [bool; 5] {
    let own = match Kind::of_number(record.kind) {
        Some(Kind::Push) => usize::from(record.length).min(CARRIED),
        _ => 0,
    };
    let holds = [
        record.mode != 0,
        record.tag != 0,
        record.length != 0,
        record.error != 0,
        record.payload[own..].iter().any(|&byte| byte != 0),
    ];
    let unused = unused(record.kind);
    std::array::from_fn(|field| holds[field] && unused[field])
}

/// The counts of a whole run.
pub struct Strays {
    cuts: Tally,
    kinds: Tally,
    /// Of a push and of a pop.
    modes: [Tally; 2],
    lengths: [Tally; 2],
    /// A place for each field of each known kind, and of an unknown one last; the used fields
    /// have none.
    fields: Tally,
    places: Vec<[Option<usize>; 5]>,
}

impl Strays {
    pub fn new() -> Self {
        let mut labels = Vec::new();
        let mut place = |kind: u8, field: usize| {
            unused(kind)[field].then(|| {
                labels.push(format!("{} of {}", FIELDS[field], words::kind(kind)));
                labels.len() - 1
            })
        };
        let places = (0..=KINDS)
            .map(|kind| std::array::from_fn(|field| place(kind, field)))
            .collect();
        let modes = |name| Tally::new(name, (MODES..=u8::MAX).map(|mode| mode.to_string()));
        let lengths = |name| Tally::new(name, LONG.map(|length| length.to_string()));
        Strays {
            cuts: Tally::new(
                "cut last record, bytes",
                (1..RECORD).map(|length| length.to_string()),
            ),
            kinds: Tally::new(
                "unknown kind",
                (KINDS..=u8::MAX).map(|kind| kind.to_string()),
            ),
            modes: [
                modes("unknown mode of a push"),
                modes("unknown mode of a pop"),
            ],
            lengths: [lengths("length of a push"), lengths("length of a pop")],
            fields: Tally::new("unused field not zero", labels),
            places,
        }
    }

    /// Counts a cut record of so many bytes, from 1 to 31.
    pub fn count_cut(&mut self, length: usize) {
        self.cuts.count(length - 1);
    }

    pub fn count(&mut self, record: &Record) {
        match Kind::of_number(record.kind) {
            None => self.kinds.count(usize::from(record.kind - KINDS)),
            Some(Kind::Push) => self.count_call(0, record),
            Some(Kind::Pop) => self.count_call(1, record),
            Some(_) => {}
        }
        let places = self.places[usize::from(record.kind.min(KINDS))];
        for (held, place) in rubbish(record).into_iter().zip(places) {
            if let (true, Some(place)) = (held, place) {
                self.fields.count(place);
            }
        }
    }

    fn count_call(&mut self, call: usize, record: &Record) {
        if record.mode >= MODES {
            self.modes[call].count(usize::from(record.mode - MODES));
        }
        if let Some(index) = LONG.iter().position(|&long| long == record.length) {
            self.lengths[call].count(index);
        }
    }

    fn tallies(&self) -> impl Iterator<Item = &Tally> {
        [&self.cuts, &self.kinds, &self.fields]
            .into_iter()
            .chain(&self.modes)
            .chain(&self.lengths)
    }

    pub fn missing(&self) -> impl Iterator<Item = String> + '_ {
        self.tallies().flat_map(Tally::missing)
    }

    pub fn lines(&self) -> String {
        self.tallies().map(Tally::line).collect()
    }
}

impl Default for Strays {
    fn default() -> Self {
        Strays::new()
    }
}
