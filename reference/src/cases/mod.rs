//! Cases that the script program's one region cannot play, for the program `cases`. The list
//! stands here once: it makes the script, the report that must come of it, and lines to read.

pub mod case;
mod damage;
mod grounds;
mod headers;
mod last_looks;
pub mod record;
mod rings;
mod spins;
mod spoilt;
pub mod stage;
pub mod sums;
mod turns;
mod walks;

use case::Case;
use record::{Ask, Record};
use stage::{Came, Stage, REPORT};

use crate::party::Side;
use crate::words;

/// All the cases, in the order in which they are played.
pub fn list() -> Vec<Case> {
    [
        turns::list(),
        last_looks::list(),
        spins::list(),
        rings::list(),
        damage::list(),
        grounds::list(),
        headers::list(),
        vec![spoilt::headers()],
        walks::list(),
    ]
    .concat()
}

/// The case records, one after another.
pub fn script(cases: &[Case]) -> Vec<u8> {
    let records = cases.iter().flat_map(|case| &case.records);
    records.flat_map(|record| record.to_bytes()).collect()
}

/// A record that was played.
struct Played<'a> {
    case: &'a Case,
    /// Counted from 1 within the case.
    number: usize,
    record: Record,
    came: Came,
    report: [u8; REPORT],
}

/// Plays all the cases on one stage and hands on each record with the stage that it leaves.
fn play<'a>(cases: &'a [Case], mut each: impl FnMut(Played<'a>, &Stage)) {
    let mut stage = Stage::new();
    for case in cases {
        for (k, &record) in case.records.iter().enumerate() {
            let came = stage.play(record);
            let played = Played {
                case,
                number: k + 1,
                record,
                came,
                report: stage.report(record, came),
            };
            each(played, &stage);
        }
    }
}

/// The report records, one after another.
pub fn report(cases: &[Case]) -> Vec<u8> {
    let mut bytes = Vec::new();
    play(cases, |played, _| bytes.extend(played.report));
    bytes
}

/// A line for each case and each of its records: what is asked and what is lent to it, the
/// answer, and where the sender and the recorder then stand.
pub fn read(cases: &[Case]) -> String {
    let mut lines = String::new();
    play(cases, |played, stage| {
        if played.number == 1 {
            lines.push_str(&format!("\n{}\n", played.case.name));
        }
        lines.push_str(&line(&played, stage));
    });
    lines
}

fn line(played: &Played, stage: &Stage) -> String {
    let [sender, recorder] =
        [Side::Sender, Side::Recorder].map(|side| words::step(stage.bench.party(side)));
    let record = played.record.words();
    let came = came_words(played, stage);
    let number = played.number;
    format!("{number:>5}  {record:<64} {came:<34} {sender:<26} {recorder}\n")
}

fn came_words(played: &Played, stage: &Stage) -> String {
    match played.record.ask {
        Ask::Sweep { .. } => format!("{} of 256 accepted", played.came.accepted),
        _ => {
            let answer = played.came.answer;
            words::answer(answer, stage.note(answer))
        }
    }
}

/// The first record that differs from what a report holds, in words; none where all agree.
pub fn difference(cases: &[Case], found: &[u8]) -> Option<String> {
    let mut rest = found;
    let mut first = None;
    play(cases, |played, _| {
        let (here, after) = rest.split_at(rest.len().min(REPORT));
        rest = after;
        if first.is_none() && here != played.report {
            first = Some(format!(
                "case `{}`, record {} differs: {}, expected {}, found {}",
                played.case.name,
                played.number,
                played.record.words(),
                words::hex(&played.report),
                words::hex(here)
            ));
        }
    });
    match rest.len() {
        0 => first,
        more => first.or(Some(format!("{more} bytes follow the last record"))),
    }
}
