//! What a policy makes of a snapshot, route by route: its session is looked up, then the first clause that fits.

use crate::policy::{reader, Clause, Fits, Policy, Session, USUAL};
use crate::snapshot::{Prefix, Refusal, Route, Snapshot};
use crate::{reader as snapshot_reader, writer};
use std::fmt;

/// Which of the two files was refused, and how.
#[derive(Clone, Copy, Debug, PartialEq, Eq)]
pub enum Refused {
    Snapshot(Refusal),
    Policy(Refusal),
}

impl fmt::Display for Refused {
    fn fmt(&self, out: &mut fmt::Formatter) -> fmt::Result {
        let (file, Refusal { number, place }) = match self {
            Refused::Snapshot(refusal) => ("snapshot", refusal),
            Refused::Policy(refusal) => ("policy", refusal),
        };
        write!(out, "refused {file} {} {place}", *number as u32)
    }
}

/// The bytes of the snapshot with the policy applied.
pub fn rewritten(snapshot: &[u8], policy: &[u8]) -> Result<Vec<u8>, Refused> {
    let snapshot = snapshot_reader::read(snapshot).map_err(Refused::Snapshot)?;
    let policy = reader::read(policy).map_err(Refused::Policy)?;
    Ok(writer::write(&applied(&snapshot, &policy)))
}

pub fn applied(snapshot: &Snapshot, policy: &Policy) -> Snapshot {
    let mut applied = snapshot.clone();
    for (after, before) in applied.prefixes.iter_mut().zip(&snapshot.prefixes) {
        after.routes = before.routes.iter().map(|route| applied_to(route, before, policy)).collect();
    }
    applied
}

fn applied_to(route: &Route, prefix: &Prefix, policy: &Policy) -> Route {
    let mut after = Route { preference: USUAL, ..*route };
    if let Some(session) = policy.session(route) {
        if let Some(clause) = session.deciding(route, prefix) {
            after.preference = clause.preference;
        }
        if session.med_zero {
            (after.mark, after.med) = (1, 0);
        }
    }
    after
}

impl Policy {
    /// The session on which the route was heard; sessions rise, so it is found by halving.
    pub fn session(&self, route: &Route) -> Option<&Session> {
        let key = |session: &Session| (session.router, session.peer);
        let found = self.sessions.binary_search_by_key(&(route.router, route.peer), key).ok()?;
        Some(&self.sessions[found])
    }
}

impl Session {
    /// The first clause that fits.
    pub fn deciding(&self, route: &Route, prefix: &Prefix) -> Option<&Clause> {
        self.clauses.iter().find(|clause| match clause.fits {
            Fits::Prefix { address, length } => (address, length) == (prefix.address, prefix.length),
            Fits::Direct { neighbour_as } => route.path == 1 && route.neighbour_as == neighbour_as,
            Fits::All => true,
        })
    }
}
