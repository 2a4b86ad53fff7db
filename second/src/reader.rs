//! Reading a snapshot: record by record, each put to the checks of document 01 in their order.

use crate::record::{body_length, decode, encode, Record};
use crate::snapshot::*;

/// The snapshot of these bytes, or the first no with its place.
pub fn read(bytes: &[u8]) -> Result<Snapshot, Refusal> {
    let mut reading = Reading::default();
    in_records(bytes, |rest| {
        let (record, length) = reading.judge(rest)?;
        reading.take(record);
        Ok((length, matches!(record, Record::End(_))))
    })?;
    Ok(reading.snapshot)
}

/// Goes along the bytes record by record; what follows the end record is TAIL. `next` judges and takes the record at
/// the head of what is left, and tells its length and whether it is the end record.
pub fn in_records(bytes: &[u8], mut next: impl FnMut(&[u8]) -> Result<(usize, bool), No>) -> Result<(), Refusal> {
    let mut place = 0;
    loop {
        let (length, ends) = next(&bytes[place..]).map_err(|number| Refusal { number, place })?;
        place += length;
        if ends {
            break;
        }
    }
    if place < bytes.len() {
        return Err(Refusal { number: No::Tail, place });
    }
    Ok(())
}

/// The kind and the body of the record at the head of `rest`, after the checks that every record has before its values,
/// by what the file's own kinds are and where they may stand.
pub fn opened(
    rest: &[u8],
    body_length: impl Fn(u8) -> Option<usize>,
    may_stand: impl Fn(u8) -> bool,
    is_full: impl Fn(u8) -> bool,
) -> Result<(u8, &[u8]), No> {
    let &kind = rest.first().ok_or(No::Cut)?;
    let body = body_length(kind).ok_or(No::Kind)?;
    check(may_stand(kind), No::Place)?;
    check(!is_full(kind), No::Full)?;
    Ok((kind, rest.get(1..1 + body).ok_or(No::Cut)?))
}

/// What has been read so far.
#[derive(Default)]
struct Reading {
    /// The number of routers; 0 while the first record is still due.
    routers: usize,
    distances: usize,
    records: u32,
    snapshot: Snapshot,
}

impl Reading {
    /// The record at the head of `rest` and its length, if all checks let it pass.
    fn judge(&self, rest: &[u8]) -> Result<(Record, usize), No> {
        let (kind, body) = opened(rest, body_length, |kind| self.may_stand(kind), |kind| self.is_full(kind))?;
        let record = decode(kind, body);
        check(self.in_range(&record) && is_written_as(kind, &record), No::Field)?;
        check(self.is_due(&record), No::Order)?;
        check(!self.is_twin(&record), No::Twin)?;
        check(self.counts(&record), No::Count)?;
        Ok((record, 1 + body.len()))
    }

    fn pairs(&self) -> usize {
        self.routers * self.routers.saturating_sub(1)
    }

    fn routers_known(&self) -> bool {
        self.routers > 0 && self.snapshot.ids.len() == self.routers
    }

    fn may_stand(&self, kind: u8) -> bool {
        let network_known = self.routers_known() && self.distances == self.pairs();
        match kind {
            1 => self.records == 0,
            2 => self.snapshot.ids.len() < self.routers,
            3 => self.routers_known() && self.distances < self.pairs(),
            5 | 7 => !self.snapshot.prefixes.is_empty(),
            _ => network_known,
        }
    }

    fn is_full(&self, kind: u8) -> bool {
        let prefixes = &self.snapshot.prefixes;
        match kind {
            4 => prefixes.len() == PREFIXES,
            5 | 7 => {
                let in_prefix = prefixes.last().map_or(0, |prefix| prefix.routes.len());
                in_prefix == ROUTES_OF_PREFIX || self.snapshot.routes() == ROUTES
            }
            _ => false,
        }
    }

    fn in_range(&self, record: &Record) -> bool {
        match *record {
            Record::Routers(routers) => (1..=ROUTERS).contains(&usize::from(routers)),
            Record::Id { index, id } => self.is_router(index) && id != 0,
            Record::Distance { from, to, distance } => {
                self.is_router(from) && self.is_router(to) && distance <= FARTHEST
            }
            Record::Prefix { address, length } => prefix_in_range(address, length),
            Record::Route(ref route) => self.is_router(route.router) && route_in_range(route),
            Record::End(_) => true,
        }
    }

    fn is_router(&self, index: u8) -> bool {
        usize::from(index) < self.routers
    }

    fn is_due(&self, record: &Record) -> bool {
        let prefixes = &self.snapshot.prefixes;
        match *record {
            Record::Id { index, .. } => usize::from(index) == self.snapshot.ids.len(),
            Record::Distance { from, to, .. } => (usize::from(from), usize::from(to)) == self.due_pair(),
            Record::Prefix { address, length } => {
                prefixes.last().is_none_or(|last| (last.address, last.length) < (address, length))
            }
            Record::Route(ref route) => {
                let last = prefixes.last().and_then(|prefix| prefix.routes.last());
                last.is_none_or(|last| (last.router, last.peer) < (route.router, route.peer))
            }
            Record::Routers(_) | Record::End(_) => true,
        }
    }

    /// The pair of the next distance: by from, then to, leaving out equal pairs.
    fn due_pair(&self) -> (usize, usize) {
        let from = self.distances / (self.routers - 1);
        let to = self.distances % (self.routers - 1);
        (from, if to < from { to } else { to + 1 })
    }

    fn is_twin(&self, record: &Record) -> bool {
        matches!(record, Record::Id { id, .. } if self.snapshot.ids.contains(id))
    }

    fn counts(&self, record: &Record) -> bool {
        !matches!(record, Record::End(records) if *records != self.records)
    }

    fn take(&mut self, record: Record) {
        self.records += 1;
        let snapshot = &mut self.snapshot;
        match record {
            Record::Routers(routers) => {
                self.routers = usize::from(routers);
                snapshot.distances = vec![vec![0; self.routers]; self.routers];
            }
            Record::Id { id, .. } => snapshot.ids.push(id),
            Record::Distance { from, to, distance } => {
                self.distances += 1;
                snapshot.distances[usize::from(from)][usize::from(to)] = distance;
            }
            Record::Prefix { address, length } => {
                snapshot.prefixes.push(Prefix { address, length, routes: Vec::new() });
            }
            Record::Route(route) => snapshot.prefixes.last_mut().expect("a route follows a prefix").routes.push(route),
            Record::End(_) => {}
        }
    }
}

pub fn check(passed: bool, number: No) -> Result<(), No> {
    if passed {
        Ok(())
    } else {
        Err(number)
    }
}

/// At most 32 bits long, and no address bit set beyond them.
pub fn prefix_in_range(address: u32, length: u8) -> bool {
    length <= 32 && address.checked_shl(u32::from(length)).unwrap_or(0) == 0
}

/// Whether writing gives the record the kind that it has: an AS that two bytes hold may not stand in kind 7.
fn is_written_as(kind: u8, record: &Record) -> bool {
    encode(record)[0] == kind
}

fn route_in_range(route: &Route) -> bool {
    !NO_AS.contains(&route.neighbour_as)
        && route.path >= 1
        && route.origin <= 2
        && (route.mark == 1 || (route.mark == 0 && route.med == 0))
        && route.neighbour_id != 0
        && route.peer != 0
}
