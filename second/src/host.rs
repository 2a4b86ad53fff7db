//! What the C host calls must return, and what they must leave in what they are lent.

use crate::forecast::forecast;
use crate::policy::apply::{rewritten, Refused};
use crate::reader::read;
use crate::snapshot::{No, Snapshot};

/// The shortest area a caller may lend.
const AREA: usize = 256;

pub fn host(bytes: &[u8], prefix: u64, area: &mut [u8]) -> u32 {
    match judged(bytes, prefix, area.len()) {
        Ok(snapshot) => answer(&snapshot, prefix as usize, area),
        Err(number) => 100 + number as u32,
    }
}

/// ROOM, the reading order, NO PREFIX.
fn judged(bytes: &[u8], prefix: u64, room: usize) -> Result<Snapshot, No> {
    if room < AREA {
        return Err(No::Room);
    }
    let snapshot = read(bytes).map_err(|refusal| refusal.number)?;
    if prefix >= snapshot.prefixes.len() as u64 {
        return Err(No::NoPrefix);
    }
    Ok(snapshot)
}

/// Fills in the early and the late row of each router; returns how many routers differ.
fn answer(snapshot: &Snapshot, prefix: usize, area: &mut [u8]) -> u32 {
    let outlook = forecast(snapshot, prefix);
    let rows = outlook.early.iter().zip(&outlook.late);
    for (entry, (&early, &late)) in area.chunks_exact_mut(4).zip(rows) {
        entry[..2].copy_from_slice(&row_bytes(early));
        entry[2..].copy_from_slice(&row_bytes(late));
    }
    outlook.open() as u32
}

/// The call that applies a policy: ROOM, the snapshot, the policy.
pub fn policy(snapshot: &[u8], policy: &[u8], out: &mut [u8]) -> u32 {
    if out.len() < snapshot.len() {
        return 100 + No::Room as u32;
    }
    match rewritten(snapshot, policy) {
        Ok(bytes) => out[..bytes.len()].copy_from_slice(&bytes),
        Err(Refused::Snapshot(refusal)) => return 100 + refusal.number as u32,
        Err(Refused::Policy(refusal)) => return 200 + refusal.number as u32,
    }
    0
}

fn row_bytes(held: Option<usize>) -> [u8; 2] {
    held.map_or(u16::MAX, |row| row as u16).to_be_bytes()
}
