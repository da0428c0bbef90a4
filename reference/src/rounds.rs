//! Another script program, held to the reference: random scripts are played through it, and
//! its reports are compared record by record.

use std::ffi::OsStr;
use std::io::{self, ErrorKind, Read, Write};
use std::process::{Command, Stdio};
use std::thread;

use crate::bench::Bench;
use crate::compare::{compare_with, Pair, Verdict};
use crate::coverage::Coverage;
use crate::random::Generator;
use crate::script::{Record, RECORD};

/// How many scripts are played, and of how many records, when nobody says so.
pub const ROUNDS: u64 = 320;
pub const RECORDS: u64 = 1250;

/// The size of the smallest pieces that a script is fed in.
const SMALL: u64 = 1001;

/// A random script as a stream of bytes: whole records, then the first bytes of one more. It is
/// made as it is read, so that its length costs no memory.
struct Script {
    records: Generator,
    /// How many bytes are still to come after the last whole record.
    cut: usize,
    /// The record that is being read, and the part of it that is still to come.
    record: [u8; RECORD],
    from: usize,
    to: usize,
}

impl Script {
    fn new(seed: u64, count: u64) -> Self {
        Script {
            records: Generator::new(seed, count),
            cut: cut(seed),
            record: [0; RECORD],
            from: 0,
            to: 0,
        }
    }
}

/// How many bytes a script has after its last whole record: scripts of 32 seeds in a row are
/// cut in every way.
fn cut(seed: u64) -> usize {
    (seed % RECORD as u64) as usize
}

impl Read for Script {
    fn read(&mut self, out: &mut [u8]) -> io::Result<usize> {
        if self.from == self.to {
            self.from = 0;
            // The cut record begins like the last one: taken for whole, it would be played.
            (self.record, self.to) = match self.records.next() {
                Some(record) => (record, RECORD),
                None => (self.record, std::mem::take(&mut self.cut)),
            };
        }
        let count = out.len().min(self.to - self.from);
        out[..count].copy_from_slice(&self.record[self.from..self.from + count]);
        self.from += count;
        Ok(count)
    }
}

/// Writes a script in pieces of one size. A program that stops reading is no trouble here: its
/// report will tell.
fn feed(mut script: impl Read, mut to: impl Write, size: u64) -> io::Result<()> {
    let mut piece = Vec::new();
    loop {
        piece.clear();
        script.by_ref().take(size).read_to_end(&mut piece)?;
        if piece.is_empty() {
            return Ok(());
        }
        match to.write_all(&piece) {
            Err(error) if error.kind() == ErrorKind::BrokenPipe => return Ok(()),
            written => written?,
        }
    }
}

/// Plays a script through the program, and gives how many records were compared. The script is
/// made twice, to be fed and to be compared, so that none of it need be kept.
fn round<S: Read>(
    program: &OsStr,
    script: impl Fn() -> S + Sync,
    size: u64,
    coverage: &mut Coverage,
) -> Result<u64, String> {
    let name = program.to_string_lossy();
    let mut child = Command::new(program)
        .stdin(Stdio::piped())
        .stdout(Stdio::piped())
        .spawn()
        .map_err(|error| format!("cannot start {name}: {error}"))?;
    let (Some(input), Some(output)) = (child.stdin.take(), child.stdout.take()) else {
        return Err(format!("{name} was started without its pipes"));
    };
    thread::scope(|scope| {
        let feeder = scope.spawn(|| feed(script(), input, size));
        let verdict = compare_with(script(), output, |pair, before, after| {
            count(coverage, pair, before, after)
        });
        if !matches!(verdict, Ok(Verdict::Same { .. })) {
            // Nobody reads on, so it might wait for ever; it may also have ended by itself.
            let _ = child.kill();
        }
        let status = child.wait();
        let fed = feeder.join().map_err(|_| "the feeder broke down")?;
        let records = match verdict.map_err(|trouble| trouble.to_string())? {
            Verdict::Differs { line } => return Err(line),
            Verdict::Same { records } => records,
        };
        fed.map_err(|error| format!("cannot write the script: {error}"))?;
        let status = status.map_err(|error| format!("cannot wait for {name}: {error}"))?;
        match status.success() {
            true => Ok(records),
            false => Err(format!("all records agree, but {name} ended with {status}")),
        }
    })
}

fn count(coverage: &mut Coverage, pair: &Pair, before: &Bench, after: &Bench) {
    // Only a record that was asked can agree with its report.
    let Some(asked) = &pair.asked else { return };
    match asked.whole() {
        Some(bytes) => coverage.count(&Record::from_bytes(bytes), pair.answer, before, after),
        None => coverage.count_cut(asked.bytes().len()),
    }
}

/// What has been played without a difference.
pub struct Played {
    pub scripts: u64,
    pub records: u64,
    pub coverage: Coverage,
}

impl Played {
    fn round<S: Read>(
        &mut self,
        program: &OsStr,
        script: impl Fn() -> S + Sync,
        size: u64,
    ) -> Result<(), String> {
        self.records += round(program, script, size, &mut self.coverage)?;
        self.scripts += 1;
        Ok(())
    }

    fn tours(&mut self, program: &OsStr) -> Result<(), String> {
        for (number, tour) in self.coverage.tours().iter().enumerate() {
            self.round(program, || &tour[..], SMALL)
                .map_err(|message| format!("tour {number}: {message}"))?;
        }
        Ok(())
    }

    fn random(&mut self, program: &OsStr, seeds: u64, count: u64) -> Result<(), String> {
        for seed in 0..seeds {
            // Odd numbers, so that pieces end in the middle of records.
            let size = SMALL + 978 * (seed % 65);
            self.round(program, || Script::new(seed, count), size)
                .map_err(|message| {
                    let cut = cut(seed);
                    format!(
                        "random script of seed {seed}, {count} records and {cut} bytes: {message}"
                    )
                })?;
        }
        Ok(())
    }
}

/// Plays the tours, then the random scripts of the seeds 0, 1, 2 and so on, each of `count`
/// records and a cut one, up to the first difference.
pub fn rounds(program: &OsStr, seeds: u64, count: u64) -> Result<Played, String> {
    let mut played = Played {
        scripts: 0,
        records: 0,
        coverage: Coverage::new(),
    };
    played.tours(program)?;
    played.random(program, seeds, count)?;
    Ok(played)
}
