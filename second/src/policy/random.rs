//! Valid policies made at random for a snapshot, the same for the same seed.

use crate::policy::*;
use crate::seed::Seeded;
use crate::snapshot::{Prefix, Route, Snapshot};

/// The kinds by name.
pub const KINDS: [&str; 3] = ["mixed", "typical", "limits"];

/// Preferences among which ties and both ends of the range are frequent.
const PREFERENCES: [u32; 8] = [0, 90, 100, 100, 110, 200, 200, u32::MAX];

/// Router and peer address.
type Name = (u8, u32);

/// A policy of the kind, or nothing where there is no such kind.
pub fn random(seed: u64, kind: &str, snapshot: &Snapshot) -> Option<Policy> {
    let mut seeded = Seeded::new(seed);
    let seeded = &mut seeded;
    let heard = heard(snapshot);
    let sessions = match kind {
        "mixed" => {
            let names = mixed_names(seeded, &heard, snapshot.ids.len());
            names.into_iter().map(|name| mixed_session(seeded, name, snapshot)).collect()
        }
        "typical" => {
            let names = heard.iter().step_by(heard.len().div_ceil(16).max(1));
            names.map(|&name| typical_session(seeded, name, snapshot)).collect()
        }
        "limits" => full_names(&heard).into_iter().map(|name| full_session(seeded, name, snapshot)).collect(),
        _ => return None,
    };
    Some(Policy { sessions })
}

fn routes(snapshot: &Snapshot) -> Vec<(&Prefix, &Route)> {
    snapshot.prefixes.iter().flat_map(|prefix| prefix.routes.iter().map(move |route| (prefix, route))).collect()
}

/// The sessions on which the snapshot's routes were heard.
fn heard(snapshot: &Snapshot) -> Vec<Name> {
    risen(routes(snapshot).into_iter().map(|(_, route)| (route.router, route.peer)).collect())
}

fn risen(mut names: Vec<Name>) -> Vec<Name> {
    names.sort();
    names.dedup();
    names
}

/// From none to 64 sessions: most of the snapshot's own, some of them given to another router, some anywhere.
fn mixed_names(seeded: &mut Seeded, heard: &[Name], routers: usize) -> Vec<Name> {
    let count = seeded.pick(&[0, 1, 2, 3, 4, 6, 10, SESSIONS]);
    let mut names = risen((0..count).map(|_| mixed_name(seeded, heard, routers)).collect());
    names.truncate(SESSIONS);
    names
}

fn mixed_name(seeded: &mut Seeded, heard: &[Name], routers: usize) -> Name {
    let (router, peer) = if heard.is_empty() { (0, 1) } else { seeded.pick(heard) };
    match seeded.below(8) {
        0 => (seeded.below(routers) as u8, peer),
        1 => (seeded.pick(&[routers as u8, 64, 128, 255]), peer),
        2 => (router, seeded.within(1, 6)),
        3 => (router, seeded.within(1, u32::MAX)),
        _ => (router, peer),
    }
}

fn mixed_session(seeded: &mut Seeded, (router, peer): Name, snapshot: &Snapshot) -> Session {
    let med_zero = seeded.below(3) == 0;
    let count = seeded.pick(&[0, 1, 1, 2, 2, 3, 3, 5, CLAUSES]);
    let all = routes(snapshot);
    let own: Vec<_> = all.iter().copied().filter(|(_, route)| (route.router, route.peer) == (router, peer)).collect();
    let clause = |_| {
        let anywhere = own.is_empty() || seeded.below(3) == 0;
        mixed_clause(seeded, if anywhere { &all } else { &own })
    };
    let clauses = (0..count).map(clause).collect();
    Session { router, peer, med_zero, clauses }
}

/// A clause for one of these routes, or for something near it.
fn mixed_clause(seeded: &mut Seeded, routes: &[(&Prefix, &Route)]) -> Clause {
    let fits = match seeded.below(7) {
        _ if routes.is_empty() => Fits::All,
        0 => Fits::All,
        kind => {
            let (prefix, route) = seeded.pick(routes);
            if kind < 4 {
                mixed_prefix(seeded, prefix)
            } else {
                mixed_direct(seeded, route)
            }
        }
    };
    Clause { fits, preference: seeded.pick(&PREFERENCES) }
}

/// The prefix itself, or its address with another length that leaves it sound.
fn mixed_prefix(seeded: &mut Seeded, prefix: &Prefix) -> Fits {
    let Prefix { address, length, .. } = *prefix;
    let longer = length + seeded.below(usize::from(33 - length)) as u8;
    Fits::Prefix { address, length: seeded.pick(&[length, length, longer]) }
}

/// The route's AS, or another one: also those that are the same in their last two bytes.
fn mixed_direct(seeded: &mut Seeded, route: &Route) -> Fits {
    let same = route.neighbour_as;
    let near = (same ^ 65_536).clamp(1, LAST_CLAUSE_AS);
    let neighbour_as = seeded.pick(&[same, same, same, same, near, 23_456, 65_535, LAST_CLAUSE_AS]);
    Fits::Direct { neighbour_as }
}

/// Four clauses: for a prefix, for two ASes, and for the rest.
fn typical_session(seeded: &mut Seeded, (router, peer): Name, snapshot: &Snapshot) -> Session {
    let routes = routes(snapshot);
    let (prefix, _) = seeded.pick(&routes);
    let ((_, one), (_, other)) = (seeded.pick(&routes), seeded.pick(&routes));
    let prefix = Fits::Prefix { address: prefix.address, length: prefix.length };
    let direct = |route: &Route| Fits::Direct { neighbour_as: route.neighbour_as };
    let fits = [prefix, direct(one), direct(other), Fits::All].into_iter();
    let clauses = fits.map(|fits| Clause { fits, preference: seeded.pick(&PREFERENCES) }).collect();
    Session { router, peer, med_zero: seeded.below(4) == 0, clauses }
}

/// 64 sessions: the snapshot's first ones, and if these are fewer others that fit no route.
fn full_names(heard: &[Name]) -> Vec<Name> {
    let own = heard.len().min(SESSIONS);
    let others = (1..).map(|peer| (u8::MAX, peer));
    heard[..own].iter().copied().chain(others.take(SESSIONS - own)).collect()
}

/// 32 clauses, of which the last one fits all routes and the others none.
fn full_session(seeded: &mut Seeded, (router, peer): Name, snapshot: &Snapshot) -> Session {
    let mut clauses: Vec<Clause> = (1..CLAUSES as u32)
        .map(|number| Clause { fits: unfit(seeded, number, snapshot), preference: number })
        .collect();
    clauses.push(Clause { fits: Fits::All, preference: seeded.pick(&PREFERENCES) });
    Session { router, peer, med_zero: true, clauses }
}

/// An AS that no route can have, or a prefix that the snapshot does not have.
fn unfit(seeded: &mut Seeded, number: u32, snapshot: &Snapshot) -> Fits {
    let address = seeded.within(0, u32::MAX);
    let named = snapshot.prefixes.iter().any(|prefix| (prefix.address, prefix.length) == (address, 32));
    if named || number.is_multiple_of(2) {
        Fits::Direct { neighbour_as: if number % 4 == 2 { 23_456 } else { 65_535 } }
    } else {
        Fits::Prefix { address, length: 32 }
    }
}
