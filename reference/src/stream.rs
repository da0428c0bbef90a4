//! Records out of a stream of bytes, and the script program as a stream.

use std::fmt;
use std::io::{self, ErrorKind, Read, Write};

use crate::script::{Player, CUT_REPORT, RECORD};

/// How many bytes are asked for at once; a whole number of records.
const BLOCK: usize = 2048 * RECORD;

/// A read or write that failed, with what was being done.
#[derive(Debug)]
pub struct Trouble {
    pub doing: &'static str,
    pub error: io::Error,
}

impl fmt::Display for Trouble {
    fn fmt(&self, f: &mut fmt::Formatter) -> fmt::Result {
        write!(f, "cannot {}: {}", self.doing, self.error)
    }
}

impl Trouble {
    /// Names what was being done when an error came.
    pub fn when(doing: &'static str) -> impl Fn(io::Error) -> Trouble {
        move |error| Trouble { doing, error }
    }
}

/// A record of a stream, or what there is of the last one when the stream is cut.
#[derive(Clone, Copy, Debug, PartialEq, Eq)]
pub struct Piece {
    bytes: [u8; RECORD],
    length: usize,
}

impl Piece {
    pub fn whole(&self) -> Option<&[u8; RECORD]> {
        (self.length == RECORD).then_some(&self.bytes)
    }

    /// The bytes there are.
    pub fn bytes(&self) -> &[u8] {
        &self.bytes[..self.length]
    }
}

/// Reads records in large blocks. Its memory does not grow with the stream, and it does not
/// matter how many bytes a read delivers.
pub struct Records<R> {
    source: R,
    block: Vec<u8>,
    from: usize,
    to: usize,
    /// Set at the stream's end: a terminal would go on if it were asked again.
    ended: bool,
}

impl<R: Read> Records<R> {
    pub fn new(source: R) -> Self {
        Records {
            source,
            block: vec![0; BLOCK],
            from: 0,
            to: 0,
            ended: false,
        }
    }

    /// Whether the next record can be had without another read.
    #[inline]
    pub fn has_ready(&self) -> bool {
        self.to - self.from >= RECORD
    }

    /// The next record; a cut one only at the stream's end, and then none.
    #[inline]
    pub fn next_piece(&mut self) -> io::Result<Option<Piece>> {
        if !self.has_ready() {
            self.fill()?;
        }
        let length = (self.to - self.from).min(RECORD);
        if length == 0 {
            return Ok(None);
        }
        let mut bytes = [0; RECORD];
        bytes[..length].copy_from_slice(&self.block[self.from..self.from + length]);
        self.from += length;
        Ok(Some(Piece { bytes, length }))
    }

    /// Reads until a whole record is there or the stream ends.
    #[cold]
    fn fill(&mut self) -> io::Result<()> {
        self.block.copy_within(self.from..self.to, 0);
        self.to -= self.from;
        self.from = 0;
        while !self.has_ready() && !self.ended {
            match self.source.read(&mut self.block[self.to..]) {
                Ok(0) => self.ended = true,
                Ok(count) => self.to += count,
                Err(error) if error.kind() == ErrorKind::Interrupted => {}
                Err(error) => return Err(error),
            }
        }
        Ok(())
    }
}

/// The script program: plays a script and writes its report. What has been read is answered
/// before the next read, so that the other end of a pipe may wait for its answers.
pub fn play(script: impl Read, mut report: impl Write) -> Result<(), Trouble> {
    let mut records = Records::new(script);
    let mut player = Player::new();
    let mut answers = Vec::with_capacity(BLOCK);
    while let Some(piece) = records
        .next_piece()
        .map_err(Trouble::when("read the script"))?
    {
        let answer = match piece.whole() {
            Some(record) => player.play(record),
            None => CUT_REPORT,
        };
        answers.extend_from_slice(&answer);
        // A block holds no more records than this, so the answers never outgrow their room.
        if !records.has_ready() {
            report
                .write_all(&answers)
                .and_then(|()| report.flush())
                .map_err(Trouble::when("write the report"))?;
            answers.clear();
        }
    }
    Ok(())
}
