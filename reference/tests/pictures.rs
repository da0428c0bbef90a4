//! The table of steps that docs/steps.svg is drawn from (docs/steps.txt), held to what the
//! reference does.

use std::collections::{HashMap, HashSet};
use std::fs;
use std::path::Path;

use reference::coverage::event::Event;
use reference::coverage::way::Place;
use reference::coverage::Coverage;
use reference::script::{Kind, Player, Record, RECORD};
use reference::{Answer, Bench, Header, Party, Side};

const ROOT: &str = concat!(env!("CARGO_MANIFEST_DIR"), "/..");
const SIDES: [Side; 2] = [Side::Sender, Side::Recorder];
const ERRORS: [Event; 4] = [
    Event::FailsInterrupted,
    Event::FailsAgain,
    Event::FailsTimedOut,
    Event::FailsElse,
];

/// A party's way from one step to another. A sleeper that the other wakes is asked nothing and
/// answers nothing.
#[derive(Clone, Debug, PartialEq, Eq, Hash)]
struct Way {
    side: Side,
    from: String,
    to: String,
    asked: Option<(Event, u8)>,
}

impl Way {
    fn words(&self) -> String {
        let asked = match self.asked {
            None => "woken".into(),
            Some((event, answer)) => format!("{}: answer {answer}", event.name()),
        };
        let side = self.side.name();
        format!("{side} {} -> {}, {asked}", self.from, self.to)
    }
}

/// A row that stands in the table for several ways, and whether it is starred.
struct Row {
    starred: bool,
    from: String,
    to: String,
    sides: Vec<Side>,
    on: String,
    answer: Option<u8>,
}

impl Row {
    fn new(fields: &[&str]) -> Self {
        let [_, from, to, whose, on, answer, _] = fields else {
            panic!("a way has seven fields, and not {fields:?}");
        };
        Row {
            starred: fields[0].ends_with('*'),
            from: from.to_string(),
            to: to.to_string(),
            sides: match *whose {
                "both" => SIDES.to_vec(),
                "sender" => vec![Side::Sender],
                "recorder" => vec![Side::Recorder],
                other => panic!("{other} is not a side, nor both"),
            },
            on: on.to_string(),
            answer: answer.parse().ok(),
        }
    }

    /// An announced failure is ignored at a step that makes no futex call.
    fn events(&self, makes_futex_call: bool) -> Vec<Option<Event>> {
        let events = match self.on.as_str() {
            "call" => vec![Event::Try, Event::Blocking],
            "close" => vec![Event::Close],
            "shutdown" => vec![Event::Shutdown],
            "spurious" => vec![Event::Spurious],
            "time-out" => vec![Event::TimeOut],
            "turn" if makes_futex_call => vec![Event::Turn],
            "turn" => [&[Event::Turn], &ERRORS[..]].concat(),
            "fails" => ERRORS.to_vec(),
            "fails 4 11" => vec![Event::FailsInterrupted, Event::FailsAgain],
            "fails 110" => vec![Event::FailsTimedOut],
            "fails else" => vec![Event::FailsElse],
            "woken" => return vec![None],
            other => panic!("nothing happens on {other}"),
        };
        events.into_iter().map(Some).collect()
    }
}

/// The table: what each side calls a step, and the rows.
struct Table {
    names: HashMap<(String, Side), String>,
    rows: Vec<Row>,
}

impl Table {
    fn read() -> Self {
        let text = fs::read_to_string(Path::new(ROOT).join("docs/steps.txt")).unwrap();
        let mut table = Table {
            names: HashMap::new(),
            rows: Vec::new(),
        };
        for line in text.lines() {
            let fields: Vec<&str> = line.split('|').map(str::trim).collect();
            match fields[..] {
                ["step", name, sender, recorder, ..] => {
                    let step = |side| (name.to_string(), side);
                    table.names.insert(step(Side::Sender), sender.into());
                    table.names.insert(step(Side::Recorder), recorder.into());
                }
                ["way" | "way *", ..] => table.rows.push(Row::new(&fields)),
                _ => assert!(line.is_empty() || line.starts_with('#'), "{line}"),
            }
        }
        table
    }

    fn name(&self, step: &str, side: Side) -> String {
        let name = self.names.get(&(step.into(), side));
        name.unwrap_or_else(|| panic!("no step {step}")).clone()
    }

    fn ways_of(&self, row: &Row) -> Vec<Way> {
        let fails = |other: &Row| other.from == row.from && other.on.starts_with("fails");
        let events = row.events(self.rows.iter().any(fails));
        let way = |side, event: &Option<Event>| Way {
            side,
            from: self.name(&row.from, side),
            to: self.name(&row.to, side),
            asked: event.map(|event| (event, row.answer.unwrap())),
        };
        let sides = row.sides.iter();
        sides
            .flat_map(|&side| events.iter().map(move |event| way(side, event)))
            .collect()
    }

    fn ways(&self, wanted: impl Fn(&Row) -> bool) -> HashSet<Way> {
        let rows = self.rows.iter().filter(|row| wanted(row));
        rows.flat_map(|row| self.ways_of(row)).collect()
    }
}

/// A corruption walks the steps of a shutdown.
fn step(party: &Party) -> String {
    Place::of(party).name().replace("corruption", "shutdown")
}

/// The ways that the two parties went.
fn ways(record: &Record, answer: Answer, before: &Bench, after: &Bench) -> Vec<Way> {
    let asked = Kind::of_number(record.kind).map(Kind::side);
    let way = |side: Side| Way {
        side,
        from: step(before.party(side)),
        to: step(after.party(side)),
        asked: (asked == Some(side)).then_some((Event::of(record), answer.number())),
    };
    let ways = SIDES.into_iter().map(way);
    ways.filter(|way| way.from != way.to).collect()
}

/// A bench with its region, before a record is asked of it.
#[derive(Clone)]
struct Stand {
    bench: Bench,
    region: Vec<u8>,
    side: Side,
}

impl Stand {
    fn turn(&mut self, record: &Record) -> Answer {
        let mut lent = vec![0; self.bench.party(self.side).length];
        let failure = (record.error != 0).then_some(record.error);
        let (bench, region) = (&mut self.bench, &mut self.region);
        match self.side {
            Side::Sender => bench.sender_turn(region, &lent, failure),
            Side::Recorder => bench.recorder_turn(region, &mut lent, failure),
        }
    }
}

/// All that the walk through the script program's states finds, as its tours play it: the ways,
/// and both parties before each record.
fn walked() -> (HashSet<Way>, Vec<Stand>) {
    let (mut found, mut stands) = (HashSet::new(), Vec::new());
    for tour in Coverage::new().tours() {
        let mut player = Player::new();
        for bytes in tour.chunks_exact(RECORD) {
            let record = Record::from_bytes(bytes.try_into().unwrap());
            let before = *player.bench();
            stands.extend(SIDES.map(|side| Stand {
                bench: before,
                region: player.region().to_vec(),
                side,
            }));
            let answer = player.answer(&record);
            found.extend(ways(&record, answer, &before, player.bench()));
        }
    }
    (found, stands)
}

/// What the script program's region and parties are not. A spin is come to by a spoil alone, so there
/// is one for room and one for none too.
const SPOILS: [fn(&mut Party, &mut [u8]); 6] = [
    not_full_off,
    counters_corrupt,
    slot_too_long,
    one_spin,
    some_room,
    no_room,
];

fn not_full_off(party: &mut Party, _region: &mut [u8]) {
    party.not_full = false;
}

/// Puts the other's counter where the party sees so many notes in the ring.
fn used(party: &mut Party, region: &mut [u8], notes: u64) {
    let (at, other) = match party.side {
        Side::Sender => (Header::AT_TAIL, party.count.wrapping_sub(notes)),
        Side::Recorder => (Header::AT_HEAD, party.count.wrapping_add(notes)),
    };
    region[at..at + 8].copy_from_slice(&other.to_le_bytes());
}

fn counters_corrupt(party: &mut Party, region: &mut [u8]) {
    used(party, region, party.capacity() + 1);
}

/// And nobody has left, so that the gate leads to the spin.
fn one_spin(party: &mut Party, region: &mut [u8]) {
    party.spins = 1;
    region[Header::AT_FLAGS] = 0x47;
}

fn some_room(party: &mut Party, region: &mut [u8]) {
    used(party, region, 1);
}

fn no_room(party: &mut Party, region: &mut [u8]) {
    let notes = match party.side {
        Side::Sender => party.capacity(),
        Side::Recorder => 0,
    };
    used(party, region, notes);
}

fn slot_too_long(party: &mut Party, region: &mut [u8]) {
    let slot = (party.count % party.capacity()) as usize * party.slot_size as usize;
    region[Header::SIZE + slot..][..2].fill(0xFF);
}

/// A turn by a party of the stand once it is spoilt: where it leads, and by which ways.
fn spoilt_turn(stand: &Stand, spoil: usize, event: Event) -> (Stand, Vec<Way>) {
    let mut stand = stand.clone();
    let record = event.examples(stand.side)[0];
    SPOILS[spoil](stand.bench.party_mut(stand.side), &mut stand.region);
    let before = stand.bench;
    let answer = stand.turn(&record);
    let ways = ways(&record, answer, &before, &stand.bench);
    (stand, ways)
}

/// Every step that a party was found at, its next turn taken over a spoilt region, and so on from
/// the steps that are new.
fn spoilt(mut open: Vec<Stand>) -> HashSet<Way> {
    let place = |stand: &Stand| Place::of(stand.bench.party(stand.side));
    let mut known = HashSet::new();
    open.retain(|stand| known.insert(place(stand)));
    let turns = [&[Event::Turn], &ERRORS[..]].concat();
    let mut found = HashSet::new();
    while let Some(stand) = open.pop() {
        let all = (0..SPOILS.len()).flat_map(|spoil| turns.iter().map(move |turn| (spoil, *turn)));
        let (next, ways): (Vec<Stand>, Vec<Vec<Way>>) = all
            .map(|(spoil, turn)| spoilt_turn(&stand, spoil, turn))
            .unzip();
        found.extend(ways.into_iter().flatten());
        open.extend(next.into_iter().filter(|stand| known.insert(place(stand))));
    }
    found
}

fn assert_same(found: &HashSet<Way>, rows: &HashSet<Way>) {
    let lines = |ways: &mut dyn Iterator<Item = &Way>| -> Vec<String> {
        let mut lines: Vec<String> = ways.map(Way::words).collect();
        lines.sort();
        lines
    };
    let without_row = lines(&mut found.difference(rows));
    assert!(without_row.is_empty(), "no row for {without_row:#?}");
    let never = lines(&mut rows.difference(found));
    assert!(never.is_empty(), "a row for what is not so: {never:#?}");
}

#[test]
fn the_table_of_steps_is_true() {
    let table = Table::read();
    let (walked, stands) = walked();
    assert_same(&walked, &table.ways(|row| !row.starred));
    let all = walked.union(&spoilt(stands)).cloned().collect();
    assert_same(&all, &table.ways(|_| true));
}
