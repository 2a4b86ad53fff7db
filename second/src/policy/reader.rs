//! Reading a policy: record by record, each put to the checks of document 01 in their order.

use crate::policy::record::{body_length, decode, Record};
use crate::policy::{Clause, Fits, Policy, Session, CLAUSES, LAST_CLAUSE_AS, SESSIONS};
use crate::reader::{check, in_records, opened, prefix_in_range};
use crate::snapshot::{No, Refusal};

/// The policy of these bytes, or the first no with its place.
pub fn read(bytes: &[u8]) -> Result<Policy, Refusal> {
    let mut reading = Reading::default();
    in_records(bytes, |rest| {
        let (record, length) = reading.judge(rest)?;
        reading.take(record);
        Ok((length, matches!(record, Record::End(_))))
    })?;
    Ok(reading.policy)
}

/// What has been read so far.
#[derive(Default)]
struct Reading {
    records: u32,
    policy: Policy,
}

impl Reading {
    /// The record at the head of `rest` and its length, if all checks let it pass.
    fn judge(&self, rest: &[u8]) -> Result<(Record, usize), No> {
        let (kind, body) = opened(rest, body_length, |kind| self.may_stand(kind), |kind| self.is_full(kind))?;
        let record = decode(kind, body);
        check(in_range(&record), No::Field)?;
        check(self.rises(&record), No::Order)?;
        check(self.counts(&record), No::Count)?;
        Ok((record, 1 + body.len()))
    }

    /// Clauses stand in a session; kind 5 as its first, which is to say once and before the clauses.
    fn may_stand(&self, kind: u8) -> bool {
        let session = self.policy.sessions.last();
        match kind {
            2..=4 => session.is_some(),
            5 => session.is_some_and(|session| !session.med_zero && session.clauses.is_empty()),
            _ => true,
        }
    }

    fn is_full(&self, kind: u8) -> bool {
        let sessions = &self.policy.sessions;
        match kind {
            1 => sessions.len() == SESSIONS,
            2..=4 => sessions.last().is_some_and(|session| session.clauses.len() == CLAUSES),
            _ => false,
        }
    }

    fn rises(&self, record: &Record) -> bool {
        match *record {
            Record::Session { router, peer } => {
                self.policy.sessions.last().is_none_or(|last| (last.router, last.peer) < (router, peer))
            }
            _ => true,
        }
    }

    fn counts(&self, record: &Record) -> bool {
        !matches!(record, Record::End(records) if *records != self.records)
    }

    fn take(&mut self, record: Record) {
        self.records += 1;
        let sessions = &mut self.policy.sessions;
        match (record, sessions.last_mut()) {
            (Record::Session { router, peer }, _) => {
                sessions.push(Session { router, peer, med_zero: false, clauses: Vec::new() });
            }
            (Record::Clause(clause), Some(session)) => session.clauses.push(clause),
            (Record::MedZero, Some(session)) => session.med_zero = true,
            _ => {}
        }
    }
}

/// The router may be any that fits its byte, and any preference may be given.
fn in_range(record: &Record) -> bool {
    match *record {
        Record::Session { peer, .. } => peer != 0,
        Record::Clause(Clause { fits: Fits::Prefix { address, length }, .. }) => prefix_in_range(address, length),
        Record::Clause(Clause { fits: Fits::Direct { neighbour_as }, .. }) => {
            (1..=LAST_CLAUSE_AS).contains(&neighbour_as)
        }
        _ => true,
    }
}
