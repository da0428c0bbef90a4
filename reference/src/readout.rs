//! A script and its report as lines a person reads, one a record.

use std::io::{Read, Write};

use crate::compare::{Pair, Pairs};
use crate::stream::Trouble;

/// Lines are laid out a page at a time, so that memory does not grow with the script. Columns
/// never become narrower from one page to the next.
const PAGE: usize = 1024;

/// A line's columns: number, what was asked, the answer, the step, the difference if any.
type Row = [String; 5];

/// No column grows past this, so that lines fit a screen: enough for any text of letters. A
/// note of many `\xNN` runs on into the columns after it and moves only its own line.
const WIDEST: [usize; 5] = [20, 46, 44, 34, 0];

fn row(pair: &Pair, stands: String) -> Row {
    let (answer, difference) = if pair.agrees() {
        (pair.expected_words(), String::new())
    } else {
        // The answer's column has the words already; with no record there is nothing to add.
        let found = match &pair.found {
            None => String::new(),
            Some(_) => format!(", found{}", pair.found_bytes()),
        };
        let expected = format!(
            "expected {}{}{found}",
            pair.expected_words(),
            pair.expected_bytes()
        );
        (pair.found_words(), expected)
    };
    let number = pair.number.to_string();
    [number, pair.asked_words(), answer, stands, difference]
}

fn widen(widths: &mut [usize; 5], row: &Row) {
    for ((width, cell), widest) in widths.iter_mut().zip(row).zip(WIDEST) {
        *width = (*width).max(cell.len().min(widest));
    }
}

fn line(widths: &[usize; 5], [number, cells @ ..]: &Row) -> String {
    let differs = cells.last().is_some_and(|cell| !cell.is_empty());
    let mark = if differs { '!' } else { ' ' };
    let mut line = format!("{mark} {number:>width$}", width = widths[0]);
    let mut column = line.len();
    for (cell, width) in cells.iter().zip(&widths[1..]) {
        column += 2;
        if !cell.is_empty() {
            let gap = column.saturating_sub(line.len()).max(2);
            line.extend(std::iter::repeat_n(' ', gap));
            line.push_str(cell);
        }
        column += width;
    }
    line.push('\n');
    line
}

/// Writes the lines: a mark, the record's number, what was asked, the answer, and the step the
/// asked party then stands at. A record that differs is marked and told in words and bytes.
pub fn read(script: impl Read, report: impl Read, mut out: impl Write) -> Result<(), Trouble> {
    let mut pairs = Pairs::new(script, report);
    let mut widths = [4, 22, 22, 17, 0];
    let mut page = Vec::with_capacity(PAGE);
    loop {
        while page.len() < PAGE {
            match pairs.next_pair()? {
                Some(pair) => page.push(row(&pair, pairs.standing(&pair))),
                None => break,
            }
        }
        if page.is_empty() {
            break;
        }
        page.iter().for_each(|row| widen(&mut widths, row));
        let lines: String = page.iter().map(|row| line(&widths, row)).collect();
        out.write_all(lines.as_bytes())
            .map_err(Trouble::when("write the lines"))?;
        page.clear();
    }
    out.flush().map_err(Trouble::when("write the lines"))
}
