//! What the lines of a text make: bytes piece by piece, each with its line, so that a refused record is traced to it.

use crate::record::{encode, Record};
use crate::snapshot::Refusal;
use crate::words::{byte, number};
use std::fmt;

/// What is wrong with a line.
#[derive(Debug, PartialEq, Eq)]
pub struct Fault {
    pub line: usize,
    pub what: String,
}

impl fmt::Display for Fault {
    fn fmt(&self, out: &mut fmt::Formatter) -> fmt::Result {
        write!(out, "line {}: {}", self.line, self.what)
    }
}

/// The bytes made, and for each piece of them its offset and the line it came from.
#[derive(Debug)]
pub struct Made {
    pub bytes: Vec<u8>,
    lines: Vec<(usize, usize)>,
    /// What the bytes are to be.
    name: &'static str,
    /// Whoever reads them.
    refusal: fn(&[u8]) -> Option<Refusal>,
    /// What a text lacks that does not begin.
    lacking: Option<&'static str>,
}

impl Made {
    /// Nothing yet, of what is to be a file of this name.
    pub fn new(name: &'static str, refusal: fn(&[u8]) -> Option<Refusal>) -> Made {
        Made { bytes: Vec::new(), lines: Vec::new(), name, refusal, lacking: None }
    }

    /// The bytes, if they are sound; otherwise the refusal, with the line that made the refused record.
    pub fn judged(self) -> Result<Vec<u8>, Fault> {
        match ((self.refusal)(&self.bytes), self.lacking) {
            (None, _) => Ok(self.bytes),
            (Some(_), Some(lacking)) => Err(Fault { line: 1, what: lacking.to_string() }),
            (Some(refusal), None) => {
                let what = format!("the {} would be {refusal} ({:?})", self.name, refusal.number);
                Err(Fault { line: self.line(refusal.place), what })
            }
        }
    }

    /// The line that made the record at this place, or the last one before it.
    fn line(&self, place: usize) -> usize {
        let before = self.lines.iter().take_while(|(offset, _)| *offset <= place);
        before.last().map_or(1, |(_, line)| *line)
    }

    pub fn push(&mut self, line: usize, piece: &[u8]) {
        self.lines.push((self.bytes.len(), line));
        self.bytes.extend(piece);
    }

    /// The end record that counts the pieces.
    pub fn push_end(&mut self, line: usize) {
        let end = Record::End(self.lines.len() as u32);
        self.push(line, &encode(&end));
    }

    /// Says what the text has not begun with.
    pub fn lacks(&mut self, what: &'static str) {
        self.lacking = Some(what);
    }
}

/// The bytes of a `raw` line.
pub fn raw(values: &[&str]) -> Result<Vec<u8>, String> {
    if values.is_empty() {
        return Err("expected 'raw' and one byte or more".to_string());
    }
    values.iter().map(|value| byte(value)).collect()
}

/// The bytes of an `end` line. Without an end record there is a piece all the same, so that the input's end is traced
/// to this line.
pub fn end(values: &[&str]) -> Result<Vec<u8>, String> {
    match *values {
        ["none"] => Ok(Vec::new()),
        [records] => Ok(encode(&Record::End(number(records, u32::MAX)?))),
        _ => Err("expected 'end RECORDS' or 'end none'".to_string()),
    }
}
