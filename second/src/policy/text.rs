//! The text notation of policies: a line for each record, in their order. README.md describes it.
//! A fault is what cannot be encoded; whether the bytes are a sound policy is the reader's business.

use crate::made::{end, raw, Fault, Made};
use crate::policy::record::{encode, Record};
use crate::policy::{reader, Clause, Fits};
use crate::words::{address, lines, number, prefix};

const SESSION: &str = "expected 'session ROUTER peer ADDRESS'";
const MED: &str = "expected 'med 0'";
const PREFIX: &str = "expected 'prefix A.B.C.D/LENGTH preference N'";
const DIRECT: &str = "expected 'as N preference N'";
const ALL: &str = "expected 'all preference N'";

/// What a text lacks that says nothing at all.
const NOTHING: &str = "no session is named; a policy without any is written 'end 0'";

pub fn make(text: &str) -> Result<Made, Fault> {
    let mut made = Made::new("policy", |bytes| reader::read(bytes).err());
    let mut has_session = false;
    let (mut ends, mut last_line) = (false, 1);
    for (line, words) in lines(text) {
        let piece = piece(&words).map_err(|what| Fault { line, what })?;
        if let Some(piece) = piece {
            made.push(line, &piece);
        }
        has_session |= words.first() == Some(&"session");
        ends |= words.first() == Some(&"end");
        last_line = line;
    }
    if has_session && !ends {
        made.push_end(last_line);
    }
    if made.bytes.is_empty() {
        made.lacks(NOTHING);
    }
    Ok(made)
}

/// The bytes that a line makes, if it says anything.
fn piece(words: &[&str]) -> Result<Option<Vec<u8>>, String> {
    let Some((&keyword, values)) = words.split_first() else {
        return Ok(None);
    };
    let piece = match keyword {
        "session" => encode(&session(values)?),
        "med" => encode(&med(values)?),
        "prefix" => encode(&prefix_clause(values)?),
        "as" => encode(&direct_clause(values)?),
        "all" => encode(&clause(Fits::All, values, ALL)?),
        "raw" => raw(values)?,
        "end" => end(values)?,
        _ => return Err(format!("'{keyword}' begins no line")),
    };
    Ok(Some(piece))
}

fn session(values: &[&str]) -> Result<Record, String> {
    match *values {
        [router, "peer", peer] => Ok(Record::Session { router: number(router, 255)? as u8, peer: address(peer)? }),
        _ => Err(SESSION.to_string()),
    }
}

fn med(values: &[&str]) -> Result<Record, String> {
    match *values {
        ["0"] => Ok(Record::MedZero),
        _ => Err(MED.to_string()),
    }
}

fn prefix_clause(values: &[&str]) -> Result<Record, String> {
    let (named, rest) = values.split_first().ok_or(PREFIX)?;
    let (address, length) = prefix(named).ok_or(PREFIX)??;
    clause(Fits::Prefix { address, length }, rest, PREFIX)
}

fn direct_clause(values: &[&str]) -> Result<Record, String> {
    let (neighbour_as, rest) = values.split_first().ok_or(DIRECT)?;
    clause(Fits::Direct { neighbour_as: number(neighbour_as, u32::MAX)? }, rest, DIRECT)
}

/// A clause with the preference that stands behind what it fits.
fn clause(fits: Fits, values: &[&str], form: &str) -> Result<Record, String> {
    match *values {
        ["preference", preference] => Ok(Record::Clause(Clause { fits, preference: number(preference, u32::MAX)? })),
        _ => Err(form.to_string()),
    }
}
