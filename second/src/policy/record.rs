//! One record of a policy file, in the habit of the snapshot's. Nothing is judged here.

use crate::policy::{Clause, Fits, Policy};
use crate::record::number;

#[derive(Clone, Copy, Debug, PartialEq, Eq)]
pub enum Record {
    Session { router: u8, peer: u32 },
    Clause(Clause),
    MedZero,
    End(u32),
}

/// The body's length for a known kind.
pub fn body_length(kind: u8) -> Option<usize> {
    match kind {
        1 => Some(5),
        2 => Some(9),
        3 => Some(8),
        4 => Some(4),
        5 => Some(0),
        6 => Some(4),
        _ => None,
    }
}

/// What a reader of bytes may call a known kind.
pub fn kind_name(kind: u8) -> &'static str {
    match kind {
        1 => "session",
        2 => "clause for a prefix",
        3 => "clause for direct paths from an AS",
        4 => "clause for everything",
        5 => "MED 0",
        6 => "end",
        _ => "unknown kind",
    }
}

/// The record of a known kind with a body of its length.
pub fn decode(kind: u8, body: &[u8]) -> Record {
    let clause = |fits: Fits, at: usize| Record::Clause(Clause { fits, preference: number(&body[at..at + 4]) });
    match kind {
        1 => Record::Session { router: body[0], peer: number(&body[1..5]) },
        2 => clause(Fits::Prefix { address: number(&body[0..4]), length: body[4] }, 5),
        3 => clause(Fits::Direct { neighbour_as: number(&body[0..4]) }, 4),
        4 => clause(Fits::All, 0),
        5 => Record::MedZero,
        6 => Record::End(number(&body[0..4])),
        _ => panic!("kind {kind} has no body"),
    }
}

/// The record's bytes, its kind first.
pub fn encode(record: &Record) -> Vec<u8> {
    match record {
        Record::Session { router, peer } => [&[1, *router][..], &peer.to_be_bytes()].concat(),
        Record::Clause(clause) => [encode_fits(&clause.fits), clause.preference.to_be_bytes().to_vec()].concat(),
        Record::MedZero => vec![5],
        Record::End(records) => [&[6][..], &records.to_be_bytes()].concat(),
    }
}

fn encode_fits(fits: &Fits) -> Vec<u8> {
    match fits {
        Fits::Prefix { address, length } => [&[2][..], &address.to_be_bytes(), &[*length]].concat(),
        Fits::Direct { neighbour_as } => [&[3][..], &neighbour_as.to_be_bytes()].concat(),
        Fits::All => vec![4],
    }
}

/// The policy's records in their order and the end record that counts them, as bytes.
pub fn write(policy: &Policy) -> Vec<u8> {
    let mut records = Vec::new();
    for session in &policy.sessions {
        records.push(Record::Session { router: session.router, peer: session.peer });
        records.extend(session.med_zero.then_some(Record::MedZero));
        records.extend(session.clauses.iter().map(|&clause| Record::Clause(clause)));
    }
    records.push(Record::End(records.len() as u32));
    records.iter().flat_map(encode).collect()
}
