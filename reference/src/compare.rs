//! A report laid beside the script it answers, and the first record that differs.

use std::io::Read;

use crate::answer::Answer;
use crate::bench::Bench;
use crate::party::{Side, Step};
use crate::script::{Kind, Player, Record, CUT_REPORT, RECORD};
use crate::stream::{Piece, Records, Trouble};
use crate::words;

/// One record of the script beside its report; either may be missing, not both.
pub struct Pair {
    /// Counted from 1.
    pub number: u64,
    pub asked: Option<Piece>,
    pub found: Option<Piece>,
    pub answer: Answer,
    kind: u8,
    report: [u8; RECORD],
}

impl Pair {
    pub fn agrees(&self) -> bool {
        self.asked.is_some() && self.found.as_ref().and_then(Piece::whole) == Some(&self.report)
    }

    /// What was asked, in words.
    pub fn asked_words(&self) -> String {
        match &self.asked {
            None => "nothing".into(),
            Some(piece) => match piece.whole() {
                Some(bytes) => words::asked(&Record::from_bytes(bytes)),
                None => format!("cut record, {} of {RECORD} bytes", piece.bytes().len()),
            },
        }
    }

    /// The answer the reference gives, in words.
    pub fn expected_words(&self) -> String {
        let note = &self.report[8..];
        let length = usize::from(self.answer.length()).min(note.len());
        match self.asked {
            None => "nothing".into(),
            Some(_) => words::answer(self.answer, &note[..length]),
        }
    }

    /// The answer that the report holds, in words.
    pub fn found_words(&self) -> String {
        match self.found.as_ref().map(Piece::whole) {
            None => "nothing".into(),
            Some(None) => "a cut record".into(),
            Some(Some(bytes)) => words::report(bytes),
        }
    }

    /// The record that the reference gives, as bytes in brackets; empty when there is none.
    pub fn expected_bytes(&self) -> String {
        match self.asked {
            None => String::new(),
            Some(_) => format!(" [{}]", words::record_bytes(&self.report)),
        }
    }

    /// What there is of the report's record, as bytes in brackets; empty when there is none.
    pub fn found_bytes(&self) -> String {
        match &self.found {
            None => String::new(),
            Some(piece) => match piece.whole() {
                Some(bytes) => format!(" [{}]", words::record_bytes(bytes)),
                None => format!(" [{}]", words::hex(piece.bytes())),
            },
        }
    }

    /// The kind of the record in question, in number and words.
    fn kind_words(&self) -> String {
        match self.asked.as_ref().map(Piece::whole) {
            None => "none (the script has ended)".into(),
            Some(None) => "none (the script's last record is cut)".into(),
            Some(Some(_)) if Kind::of_number(self.kind).is_none() => {
                format!("{} (unknown)", self.kind)
            }
            Some(Some(_)) => format!("{} ({})", self.kind, words::kind(self.kind)),
        }
    }

    /// The whole difference, in words and bytes.
    pub fn difference(&self) -> String {
        format!(
            "record {} differs: kind {}, expected {}{}, found {}{}",
            self.number,
            self.kind_words(),
            self.expected_words(),
            self.expected_bytes(),
            self.found_words(),
            self.found_bytes()
        )
    }
}

/// Plays a script while reading its report.
pub struct Pairs<S, R> {
    script: Records<S>,
    report: Records<R>,
    player: Player,
    number: u64,
    before: Bench,
    woken: Option<Side>,
}

impl<S: Read, R: Read> Pairs<S, R> {
    pub fn new(script: S, report: R) -> Self {
        let player = Player::new();
        Pairs {
            script: Records::new(script),
            report: Records::new(report),
            before: *player.bench(),
            player,
            number: 0,
            woken: None,
        }
    }

    /// The next record of both; none when both have ended.
    pub fn next_pair(&mut self) -> Result<Option<Pair>, Trouble> {
        let asked = self
            .script
            .next_piece()
            .map_err(Trouble::when("read the script"))?;
        let found = self
            .report
            .next_piece()
            .map_err(Trouble::when("read the report"))?;
        if asked.is_none() && found.is_none() {
            return Ok(None);
        }
        self.number += 1;
        self.before = *self.player.bench();
        self.woken = None;
        let mut pair = Pair {
            number: self.number,
            asked,
            found,
            kind: CUT_REPORT[0],
            answer: Answer::BadCall,
            report: CUT_REPORT,
        };
        if let Some(bytes) = asked.as_ref().and_then(Piece::whole) {
            let record = Record::from_bytes(bytes);
            pair.kind = record.kind;
            pair.answer = self.player.answer(&record);
            pair.report = self.player.report(record.kind, pair.answer);
            // Only a wake moves a sleeper that was not asked itself.
            self.woken = Kind::of_number(record.kind)
                .map(|kind| kind.side().other())
                .filter(|&side| {
                    self.before.party(side).step == Step::Asleep
                        && self.player.bench().party(side).step != Step::Asleep
                });
        }
        Ok(Some(pair))
    }

    /// Where the party that the last pair asked now stands, and whom it woke.
    pub fn standing(&self, pair: &Pair) -> String {
        let whole = pair.asked.as_ref().and_then(Piece::whole);
        let Some(kind) = whole.and_then(|bytes| Kind::of_number(bytes[0])) else {
            return "nobody asked".into();
        };
        let party = self.player.bench().party(kind.side());
        let mut words = format!("{:<8}  {}", kind.side().name(), words::step(party));
        if let Some(side) = self.woken {
            let step = words::step(self.player.bench().party(side));
            words.push_str(&format!(", woke {} to {step}", side.name()));
        }
        words
    }
}

/// What a comparison found.
#[derive(Clone, Debug, PartialEq, Eq)]
pub enum Verdict {
    Same { records: u64 },
    Differs { line: String },
}

/// Plays the script and stops at the first record of the report that differs. A missing or an
/// extra record is a difference too.
pub fn compare(script: impl Read, report: impl Read) -> Result<Verdict, Trouble> {
    compare_with(script, report, |_, _, _| {})
}

/// The same, and shows each pair that agrees, with both parties before it and after it.
pub fn compare_with(
    script: impl Read,
    report: impl Read,
    mut show: impl FnMut(&Pair, &Bench, &Bench),
) -> Result<Verdict, Trouble> {
    let mut pairs = Pairs::new(script, report);
    while let Some(pair) = pairs.next_pair()? {
        if !pair.agrees() {
            return Ok(Verdict::Differs {
                line: pair.difference(),
            });
        }
        show(&pair, &pairs.before, pairs.player.bench());
    }
    Ok(Verdict::Same {
        records: pairs.number,
    })
}
