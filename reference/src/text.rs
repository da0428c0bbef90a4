//! A script as lines a person writes.
//!
//! ```text
//! # A note travels.
//! pop blocking 24
//! push 7 "J1"
//! turn sender
//! turn sender fails 110
//! ```

use crate::party::Side;
use crate::script::{Kind, Record, CARRIED, RECORD};
use crate::words;

const PUSH: &str = "push [try|blocking] TAG [length N] \"TEXT\"";
const POP: &str = "pop [try|blocking] LENGTH";
const TURN: &str = "turn sender|recorder [fails ERROR]";
const BYTES: &str = "bytes HH HH ...";
const FIRST: &str =
    "push, pop, turn, spurious, time-out, close, shutdown or bytes at the line's start";

/// A line that could not be taken.
#[derive(Clone, Debug, PartialEq, Eq)]
pub struct BadLine {
    /// Counted from 1.
    pub line: usize,
    /// What was expected and what was found.
    pub message: String,
}

/// The script that a text stands for. One bad line refuses the whole text.
pub fn write(text: &[u8]) -> Result<Vec<u8>, BadLine> {
    let mut script = Vec::new();
    for (index, line) in text.split(|&byte| byte == b'\n').enumerate() {
        match record(line) {
            Ok(None) => {}
            Ok(Some(bytes)) => script.extend_from_slice(&bytes),
            Err(message) => {
                return Err(BadLine {
                    line: index + 1,
                    message,
                })
            }
        }
    }
    Ok(script)
}

/// A word or a text of a line.
enum Token {
    Word(String),
    Text(Vec<u8>),
}

impl Token {
    fn shown(&self) -> String {
        match self {
            Token::Word(word) => format!("`{word}`"),
            Token::Text(bytes) => format!("the text {}", words::quoted(bytes)),
        }
    }
}

/// The record that a line stands for; none for a blank line or a comment.
fn record(line: &[u8]) -> Result<Option<[u8; RECORD]>, String> {
    let mut line = Line {
        tokens: tokens(line)?.into_iter().peekable(),
    };
    let first = match line.tokens.next() {
        None => return Ok(None),
        Some(Token::Word(word)) => word,
        Some(text) => return Err(expected(FIRST, Some(&text))),
    };
    let bytes = match first.as_str() {
        "push" => line.push()?.to_bytes(),
        "pop" => line.pop()?.to_bytes(),
        "turn" => line.turn()?.to_bytes(),
        "spurious" => {
            Record::new(Kind::Spurious(line.side("spurious sender|recorder")?)).to_bytes()
        }
        "time-out" => Record::new(Kind::TimeOut(line.side("time-out sender|recorder")?)).to_bytes(),
        "close" => Record::new(Kind::Close(line.side("close sender|recorder")?)).to_bytes(),
        "shutdown" => {
            Record::new(Kind::Shutdown(line.side("shutdown sender|recorder")?)).to_bytes()
        }
        "bytes" => line.bytes()?,
        _ => return Err(expected(FIRST, Some(&Token::Word(first)))),
    };
    match line.tokens.next() {
        None => Ok(Some(bytes)),
        more => Err(expected("the line's end or a comment", more.as_ref())),
    }
}

fn expected(what: &str, found: Option<&Token>) -> String {
    match found {
        Some(token) => format!("expected {what}, found {}", token.shown()),
        None => format!("expected {what}, found the line's end"),
    }
}

/// Cuts a line into words and texts; `#` outside a text ends it.
fn tokens(line: &[u8]) -> Result<Vec<Token>, String> {
    let mut tokens = Vec::new();
    let mut rest = line;
    loop {
        rest = rest.trim_ascii_start();
        match rest.first() {
            None | Some(b'#') => return Ok(tokens),
            Some(b'"') => {
                let (text, after) = quoted_text(&rest[1..])?;
                tokens.push(Token::Text(text));
                rest = after;
            }
            Some(_) => {
                let end = rest
                    .iter()
                    .position(|&byte| byte.is_ascii_whitespace() || byte == b'"' || byte == b'#')
                    .unwrap_or(rest.len());
                let word = String::from_utf8_lossy(&rest[..end]).into_owned();
                tokens.push(Token::Word(word));
                rest = &rest[end..];
            }
        }
    }
}

/// Reads a text up to its closing quote, and gives what comes after it.
fn quoted_text(mut rest: &[u8]) -> Result<(Vec<u8>, &[u8]), String> {
    let mut text = Vec::new();
    loop {
        rest = match rest {
            [] => return Err("expected a closing \", found the line's end".into()),
            [b'"', after @ ..] => return Ok((text, after)),
            [b'\\', byte @ (b'"' | b'\\'), after @ ..] => {
                text.push(*byte);
                after
            }
            [b'\\', b'x', after @ ..] => {
                let digits = after.get(..2).and_then(byte_of);
                text.push(digits.ok_or("expected two hexadecimal digits after \\x")?);
                &after[2..]
            }
            [b'\\', ..] => return Err("expected \\\", \\\\ or \\xNN after a backslash".into()),
            [byte, after @ ..] => {
                text.push(*byte);
                after
            }
        };
    }
}

/// The byte that two hexadecimal digits stand for.
fn byte_of(digits: &[u8]) -> Option<u8> {
    let [high, low] = digits else { return None };
    let digit = |byte: &u8| char::from(*byte).to_digit(16);
    // Two digits make at most 255.
    Some((digit(high)? * 16 + digit(low)?) as u8)
}

/// What is left of a line after its first word.
struct Line {
    tokens: std::iter::Peekable<std::vec::IntoIter<Token>>,
}

impl Line {
    fn push(&mut self) -> Result<Record, String> {
        let mut record = Record::new(Kind::Push);
        record.mode = self.mode();
        record.tag = self.number("a tag", PUSH)?;
        let length = match self.take_word("length") {
            true => Some(self.number("a length", PUSH)?),
            false => None,
        };
        let text = match self.tokens.next() {
            Some(Token::Text(text)) => text,
            other => return Err(expected(&format!("a text in {PUSH}"), other.as_ref())),
        };
        if text.len() > CARRIED {
            return Err(format!(
                "expected a text of at most {CARRIED} bytes, found {}; \
                 a length above that is written as: length {}",
                text.len(),
                text.len()
            ));
        }
        record.payload[..text.len()].copy_from_slice(&text);
        record.length = length.unwrap_or(text.len() as u16);
        Ok(record)
    }

    fn pop(&mut self) -> Result<Record, String> {
        let mut record = Record::new(Kind::Pop);
        record.mode = self.mode();
        record.length = self.number("a buffer's length", POP)?;
        Ok(record)
    }

    fn turn(&mut self) -> Result<Record, String> {
        let side = self.side(TURN)?;
        if !self.take_word("fails") {
            return Ok(Record::new(Kind::Turn(side)));
        }
        let mut record = Record::new(Kind::FailingTurn(side));
        record.error = self.number("an error number", TURN)?;
        Ok(record)
    }

    /// Any record at all, for what the other lines cannot say; zeros follow the given bytes.
    fn bytes(&mut self) -> Result<[u8; RECORD], String> {
        let mut record = [0; RECORD];
        let mut count = 0;
        for token in self.tokens.by_ref() {
            let byte = match &token {
                Token::Word(word) => byte_of(word.as_bytes()),
                Token::Text(_) => None,
            };
            match (byte, record.get_mut(count)) {
                (Some(byte), Some(place)) => *place = byte,
                (Some(_), None) => return Err(expected("at most 32 bytes", Some(&token))),
                (None, _) => return Err(expected(BYTES, Some(&token))),
            }
            count += 1;
        }
        match count {
            0 => Err(expected(BYTES, None)),
            _ => Ok(record),
        }
    }

    /// The mode byte: a push or pop is a try unless it says blocking.
    fn mode(&mut self) -> u8 {
        if self.take_word("blocking") {
            return 1;
        }
        self.take_word("try");
        0
    }

    fn side(&mut self, form: &str) -> Result<Side, String> {
        match self.tokens.next() {
            Some(Token::Word(word)) if word == "sender" => Ok(Side::Sender),
            Some(Token::Word(word)) if word == "recorder" => Ok(Side::Recorder),
            other => Err(expected(
                &format!("sender or recorder in {form}"),
                other.as_ref(),
            )),
        }
    }

    fn number(&mut self, what: &str, form: &str) -> Result<u16, String> {
        let token = self.tokens.next();
        if let Some(Token::Word(word)) = &token {
            // Digits alone: the library would take a plus sign as well.
            if word.bytes().all(|byte| byte.is_ascii_digit()) {
                if let Ok(number) = word.parse() {
                    return Ok(number);
                }
            }
        }
        Err(expected(
            &format!("{what} from 0 to 65535 in {form}"),
            token.as_ref(),
        ))
    }

    /// Takes the next token if it is this word.
    fn take_word(&mut self, wanted: &str) -> bool {
        self.tokens
            .next_if(|token| matches!(token, Token::Word(word) if word == wanted))
            .is_some()
    }
}
