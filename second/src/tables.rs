//! The lent tables, and the calls that are lent them. Whether tables are those of a snapshot is not judged value by
//! value: the bytes that they would be are written and read again, and must give back the same tables.

use crate::forecast;
use crate::policy::{self, apply::applied};
use crate::reader;
use crate::snapshot::*;
use crate::writer;
use std::ops::RangeFrom;

/// Ids and distances; address, length and number of routes of the prefixes; then a column for each field of a route.
pub type Lent = [Vec<u32>; 14];

/// Where each table stands; the columns of routes follow in the order of their record.
pub const IDS: usize = 0;
pub const DISTANCES: usize = 1;
pub const ADDRESS: usize = 2;
pub const LENGTH: usize = 3;
pub const OF_PREFIX: usize = 4;
pub const OF_ROUTE: usize = 5;
pub const NEIGHBOUR_AS: usize = OF_ROUTE + 1;
pub const PEER: usize = OF_ROUTE + 8;

/// The entries for which each table must have room.
pub const LIMITS: [usize; 14] = {
    let mut limits = [ROUTES; 14];
    limits[IDS] = ROUTERS;
    limits[DISTANCES] = ROUTERS * ROUTERS;
    limits[ADDRESS] = PREFIXES;
    limits[LENGTH] = PREFIXES;
    limits[OF_PREFIX] = PREFIXES;
    limits
};

/// What an answer area must have room for: an entry for each router.
pub const AREA: usize = ROUTERS;

#[derive(Clone, Copy, Debug, PartialEq, Eq)]
pub struct Counts {
    pub routers: u32,
    pub prefixes: u32,
    pub routes: u32,
}

pub fn counts(snapshot: &Snapshot) -> Counts {
    let (routers, prefixes) = (snapshot.ids.len() as u32, snapshot.prefixes.len() as u32);
    Counts { routers, prefixes, routes: snapshot.routes() as u32 }
}

/// Reads a snapshot into the tables.
pub fn read(bytes: &[u8], lent: &mut Lent) -> Result<Counts, No> {
    room(lent)?;
    let snapshot = reader::read(bytes).map_err(|refusal| refusal.number)?;
    fill(&snapshot, lent);
    Ok(counts(&snapshot))
}

/// Writes the tables' snapshot; the number of its bytes.
pub fn write(counts: Counts, lent: &Lent, out: &mut [u8]) -> Result<usize, No> {
    room(lent)?;
    let bytes = writer::write(&snapshot(counts, lent).ok_or(No::Table)?);
    out.get_mut(..bytes.len()).ok_or(No::Room)?.copy_from_slice(&bytes);
    Ok(bytes.len())
}

/// Forecasts one prefix of the tables' snapshot; the number of routers that differ.
pub fn forecast(counts: Counts, lent: &Lent, prefix: u32, early: &mut [u16], late: &mut [u16]) -> Result<usize, No> {
    room(lent)?;
    if early.len().min(late.len()) < AREA {
        return Err(No::Room);
    }
    let snapshot = snapshot(counts, lent).ok_or(No::Table)?;
    if prefix >= counts.prefixes {
        return Err(No::NoPrefix);
    }
    let outlook = forecast::forecast(&snapshot, prefix as usize);
    for (area, held) in [(early, &outlook.early), (late, &outlook.late)] {
        for (entry, row) in area.iter_mut().zip(held) {
            *entry = row.map_or(u16::MAX, |row| row as u16);
        }
    }
    Ok(outlook.open())
}

/// Rewrites the preferences, marks and MEDs of the tables' snapshot by a policy.
pub fn policy(bytes: &[u8], counts: Counts, lent: &mut Lent) -> Result<(), No> {
    room(lent)?;
    let snapshot = snapshot(counts, lent).ok_or(No::Table)?;
    let policy = policy::reader::read(bytes).map_err(|refusal| refusal.number)?;
    fill(&applied(&snapshot, &policy), lent);
    Ok(())
}

fn room(lent: &Lent) -> Result<(), No> {
    let short = lent.iter().zip(LIMITS).any(|(table, limit)| table.len() < limit);
    if short {
        Err(No::Room)
    } else {
        Ok(())
    }
}

/// Puts a snapshot into the used rows; the others keep what they have.
pub fn fill(snapshot: &Snapshot, lent: &mut Lent) {
    lent[IDS][..snapshot.ids.len()].copy_from_slice(&snapshot.ids);
    for (row, distances) in lent[DISTANCES].chunks_mut(ROUTERS).zip(&snapshot.distances) {
        row[..distances.len()].copy_from_slice(distances);
    }
    for (number, prefix) in snapshot.prefixes.iter().enumerate() {
        lent[ADDRESS][number] = prefix.address;
        lent[LENGTH][number] = u32::from(prefix.length);
        lent[OF_PREFIX][number] = prefix.routes.len() as u32;
    }
    for (row, route) in snapshot.prefixes.iter().flat_map(|prefix| &prefix.routes).enumerate() {
        for (column, value) in lent[OF_ROUTE..].iter_mut().zip(fields(route)) {
            column[row] = value;
        }
    }
}

fn fields(route: &Route) -> [u32; 9] {
    [
        u32::from(route.router),
        route.neighbour_as,
        route.preference,
        u32::from(route.path),
        u32::from(route.origin),
        u32::from(route.mark),
        route.med,
        route.neighbour_id,
        route.peer,
    ]
}

/// The snapshot that has these counts and used rows, if there is one.
pub fn snapshot(counts: Counts, lent: &Lent) -> Option<Snapshot> {
    let claimed = claimed(counts, lent)?;
    let read = reader::read(&writer::write(&claimed)).ok()?;
    (read == claimed && self::counts(&read) == counts).then_some(read)
}

/// What the used rows say, as far as they are there and fit their types.
fn claimed(counts: Counts, lent: &Lent) -> Option<Snapshot> {
    let routers = usize::from(u8::try_from(counts.routers).ok()?);
    let row = |from: usize| Some(lent[DISTANCES].get(from * ROUTERS..)?.get(..routers)?.to_vec());
    let distances = (0..routers).map(row).collect::<Option<Vec<Vec<u32>>>>()?;
    let ids = lent[IDS].get(..routers)?.to_vec();
    let mut rows = 0..;
    let numbers = 0..counts.prefixes as usize;
    let prefixes = numbers.map(|number| claimed_prefix(number, lent, &mut rows)).collect::<Option<Vec<Prefix>>>()?;
    Some(Snapshot { ids, distances, prefixes })
}

/// A prefix with its routes, which are in the next rows.
fn claimed_prefix(number: usize, lent: &Lent, rows: &mut RangeFrom<usize>) -> Option<Prefix> {
    let address = *lent[ADDRESS].get(number)?;
    let length = u8::try_from(*lent[LENGTH].get(number)?).ok()?;
    let numbers = 0..*lent[OF_PREFIX].get(number)?;
    let routes = numbers.map(|_| claimed_route(rows.next()?, lent)).collect::<Option<Vec<Route>>>()?;
    Some(Prefix { address, length, routes })
}

fn claimed_route(row: usize, lent: &Lent) -> Option<Route> {
    let field = |column: usize| lent[OF_ROUTE + column].get(row).copied();
    Some(Route {
        router: u8::try_from(field(0)?).ok()?,
        neighbour_as: field(1)?,
        preference: field(2)?,
        path: u16::try_from(field(3)?).ok()?,
        origin: u8::try_from(field(4)?).ok()?,
        mark: u8::try_from(field(5)?).ok()?,
        med: field(6)?,
        neighbour_id: field(7)?,
        peer: field(8)?,
    })
}
