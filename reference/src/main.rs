//! The command: plays, makes, compares, writes and reads scripts.

use std::ffi::{OsStr, OsString};
use std::fs::File;
use std::io::{self, BufWriter, ErrorKind, Read, Write};
use std::process::ExitCode;

use reference::cases::{case::Case, stage::REPORT};
use reference::compare::{compare, Verdict};
use reference::coverage::Coverage;
use reference::explore::{lost, needed, Report};
use reference::random::Generator;
use reference::rounds::{self, rounds, Played};
use reference::stream::{play, Trouble};
use reference::{cases, readout, text};

const USAGE: &str = "\
The queue of document 01, played by its reference.

usage:
  reference play < SCRIPT > REPORT
      plays a script of 32-byte records and writes a report record for each
  reference random SEED COUNT > SCRIPT
      writes COUNT random records, the same for the same SEED; with an even SEED
      no close and no shutdown, with an odd one late and rarely, or, where SEED is
      3 above a multiple of 4, anywhere
  reference compare SCRIPT REPORT
      plays the script; says `same, N records`, or the first record (counted
      from 1) of the report that differs, and then ends with status 1
  reference rounds PROGRAM [ROUNDS RECORDS]
      plays scripts through PROGRAM, which reads a script and writes a report: the
      tours, then the random scripts of the seeds 0 to ROUNDS - 1 (320), of RECORDS
      records (1250) and SEED mod 32 bytes. Stops at the first record that differs,
      with status 1. Writes a table of what was played; a gap in it is status 1 too
  reference tour NUMBER > SCRIPT
      writes a tour; tours 0, 1 and so on play, together, every way that a record
      can go, found by a walk through all states of the script program
  reference write < TEXT > SCRIPT
      makes a script of lines:
          push [try|blocking] TAG [length N] \"TEXT\"     pop [try|blocking] LENGTH
          turn sender|recorder [fails ERROR]            spurious sender|recorder
          time-out sender|recorder                      close sender|recorder
          shutdown sender|recorder                      bytes HH HH ...
      A text takes \\\" \\\\ and \\xNN; # starts a comment; blank lines are skipped.
      `bytes` gives any record, with zeros after the given bytes.
  reference read SCRIPT REPORT
      writes a line for each record: number, what was asked, the answer, the step
      the asked party then stands at; what differs from the reference is marked !
  reference lost RULE
      explores every order of turns with one rule as document 000 has it and tells a
      shortest run that shows the loss; `mended` shows that document 01's rules lose
      nothing, `list` names the rules; for example: reference lost 12.5.2
  reference needed PREMISE
      tells a shortest run that breaks a theorem without one of its premises, or the
      numbers that show that it stands; `list` names the premises
      (both end with status 1 if it does not come out as docs/NEEDED.md says)
  reference cases script > SCRIPT
      writes the cases that the program `cases` plays, as records of 24 bytes
  reference cases report > REPORT
      plays them, and writes the report of 32 bytes that must come of each
  reference cases read
      writes the cases with their answers as lines, each case under its name
  reference cases compare REPORT
      says `same, N records`, or the first record of the report that differs

Status: 0 well, 1 a difference, a bad line, or a failed read or write, 2 bad arguments.
";

fn main() -> ExitCode {
    // A file's name need not be text, so the arguments stay as the system gave them.
    let arguments: Vec<OsString> = std::env::args_os().skip(1).collect();
    let Some((command, rest)) = arguments.split_first() else {
        return usage("an argument is missing");
    };
    let command = command.to_string_lossy();
    let outcome = match (command.as_ref(), rest) {
        ("play", []) => play_streams(),
        ("random", [seed, count]) => match (number(seed), number(count)) {
            (Some(seed), Some(count)) => random(seed, count),
            _ => return usage("SEED and COUNT are whole numbers from 0 to 2^64 - 1"),
        },
        ("tour", [index]) => match number(index) {
            Some(index) => tour(index),
            None => return usage("NUMBER is a whole number from 0 to 2^64 - 1"),
        },
        ("compare", [script, report]) => compare_files(script, report),
        ("rounds", [program]) => play_rounds(program, rounds::ROUNDS, rounds::RECORDS),
        ("rounds", [program, count, records]) => match (number(count), number(records)) {
            (Some(count), Some(records)) => play_rounds(program, count, records),
            _ => return usage("ROUNDS and RECORDS are whole numbers from 0 to 2^64 - 1"),
        },
        ("write", []) => write(),
        ("read", [script, report]) => read_files(script, report),
        ("lost", [rule]) => match lost::answer(&rule.to_string_lossy()) {
            Some(report) => tell(&report),
            None => return usage("RULE is one of those that `reference lost list` names"),
        },
        ("needed", [premise]) => match needed::answer(&premise.to_string_lossy()) {
            Some(report) => tell(&report),
            None => return usage("PREMISE is one of those that `reference needed list` names"),
        },
        ("cases", [what, rest @ ..]) => match cases_command(what, rest) {
            Some(outcome) => outcome,
            None => return usage("`cases` takes script, report, read, or compare with a REPORT"),
        },
        ("help" | "--help" | "-h", []) => say(USAGE),
        (
            "play" | "random" | "compare" | "rounds" | "tour" | "write" | "read" | "lost"
            | "needed" | "cases" | "help" | "--help" | "-h",
            _,
        ) => {
            return usage(&format!(
                "these are not the arguments that `{command}` takes"
            ));
        }
        _ => return usage(&format!("`{command}` is unknown")),
    };
    outcome.unwrap_or_else(|message| {
        eprintln!("reference: {message}");
        ExitCode::FAILURE
    })
}

/// What a subcommand ends with: a status, or the message of what went wrong.
type Outcome = Result<ExitCode, String>;

fn usage(what: &str) -> ExitCode {
    eprint!("reference: {what}\n\n{USAGE}");
    ExitCode::from(2)
}

/// Writes to standard output, where a closed pipe is an error and no panic.
fn say(words: &str) -> Outcome {
    give(words.as_bytes(), "write the answer")
}

fn give(bytes: &[u8], doing: &'static str) -> Outcome {
    let mut out = io::stdout().lock();
    out.write_all(bytes)
        .and_then(|()| out.flush())
        .map_err(|error| Trouble { doing, error }.to_string())?;
    Ok(ExitCode::SUCCESS)
}

/// An exploration that did not come out as it should ends with status 1.
fn tell(report: &Report) -> Outcome {
    let status = say(&report.words)?;
    Ok(if report.well {
        status
    } else {
        ExitCode::FAILURE
    })
}

fn number(argument: &OsStr) -> Option<u64> {
    argument.to_str()?.parse().ok()
}

fn open(path: &OsStr) -> Result<File, String> {
    File::open(path).map_err(|error| format!("cannot open {}: {error}", path.to_string_lossy()))
}

fn play_streams() -> Outcome {
    play(io::stdin().lock(), io::stdout().lock())
        .map(|()| ExitCode::SUCCESS)
        .map_err(|trouble| trouble.to_string())
}

fn random(seed: u64, count: u64) -> Outcome {
    let mut out = BufWriter::with_capacity(1 << 16, io::stdout().lock());
    let trouble = |error| format!("cannot write the script: {error}");
    for record in Generator::new(seed, count) {
        out.write_all(&record).map_err(trouble)?;
    }
    out.flush().map_err(trouble)?;
    Ok(ExitCode::SUCCESS)
}

fn compare_files(script: &OsStr, report: &OsStr) -> Outcome {
    match compare(open(script)?, open(report)?).map_err(|trouble| trouble.to_string())? {
        Verdict::Same { records } => say(&format!("same, {records} records\n")),
        Verdict::Differs { line } => {
            say(&format!("{line}\n"))?;
            Ok(ExitCode::FAILURE)
        }
    }
}

fn play_rounds(program: &OsStr, count: u64, records: u64) -> Outcome {
    let played = rounds(program, count, records)?;
    say(&played.coverage.table())?;
    let faults = played.coverage.faults();
    if !faults.is_empty() {
        return Err(format!("the table has gaps\n{}", faults.join("\n")));
    }
    let Played {
        scripts, records, ..
    } = played;
    say(&format!("same, {records} records in {scripts} scripts\n"))
}

fn tour(number: u64) -> Outcome {
    let tours = Coverage::new().tours();
    let index = usize::try_from(number).ok();
    match index.and_then(|index| tours.get(index)) {
        Some(script) => give(script, "write the script"),
        None => Err(format!(
            "there is no tour {number}, the last is {}",
            tours.len() - 1
        )),
    }
}

fn write() -> Outcome {
    let mut lines = Vec::new();
    io::stdin()
        .lock()
        .read_to_end(&mut lines)
        .map_err(|error| format!("cannot read the text: {error}"))?;
    match text::write(&lines) {
        Ok(script) => give(&script, "write the script"),
        Err(bad) => Err(format!("line {}: {}", bad.line, bad.message)),
    }
}

fn read_files(script: &OsStr, report: &OsStr) -> Outcome {
    let out = io::stdout().lock();
    match readout::read(open(script)?, open(report)?, out) {
        // Whoever reads on a screen may stop before the end.
        Err(trouble) if trouble.error.kind() == ErrorKind::BrokenPipe => Ok(ExitCode::SUCCESS),
        Err(trouble) => Err(trouble.to_string()),
        Ok(()) => Ok(ExitCode::SUCCESS),
    }
}

/// None where the arguments are not what `cases` takes.
fn cases_command(what: &OsStr, rest: &[OsString]) -> Option<Outcome> {
    let cases = cases::list();
    Some(match (what.to_str()?, rest) {
        ("script", []) => give(&cases::script(&cases), "write the script"),
        ("report", []) => give(&cases::report(&cases), "write the report"),
        ("read", []) => read_cases(&cases),
        ("compare", [report]) => compare_cases(&cases, report),
        _ => return None,
    })
}

fn read_cases(cases: &[Case]) -> Outcome {
    match io::stdout().lock().write_all(cases::read(cases).as_bytes()) {
        Err(error) if error.kind() != ErrorKind::BrokenPipe => {
            Err(format!("cannot write the lines: {error}"))
        }
        _ => Ok(ExitCode::SUCCESS),
    }
}

fn compare_cases(cases: &[Case], report: &OsStr) -> Outcome {
    let mut found = Vec::new();
    open(report)?
        .read_to_end(&mut found)
        .map_err(|error| format!("cannot read the report: {error}"))?;
    match cases::difference(cases, &found) {
        None => say(&format!("same, {} records\n", found.len() / REPORT)),
        Some(line) => {
            say(&format!("{line}\n"))?;
            Ok(ExitCode::FAILURE)
        }
    }
}
