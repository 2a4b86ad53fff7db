//! Damaged copies of a snapshot or a policy, the same for the same seed: some damages hit single bytes, some whole
//! records, and some mend the end record's number afterwards, so that the later checks get work too.

use crate::policy;
use crate::record::{body_length, cut_by, encode, number, Bodies, Record};
use crate::seed::Seeded;
use std::collections::BTreeSet;

/// Values at which a check may turn, as the last bytes of a field.
const BOUNDARIES: [u32; 17] =
    [0, 1, 2, 3, 32, 33, 63, 64, 65, 255, 23_456, 65_534, 65_535, 16_777_215, 16_777_216, u32::MAX - 1, u32::MAX];

/// Those of a neighbour AS.
pub const AS_BOUNDARIES: [u32; 10] = [0, 1, 23_455, 23_456, 23_457, 65_534, 65_535, 65_536, u32::MAX - 1, u32::MAX];

/// How long the records of routes are, by their kind.
const SHORT_ROUTE: (u8, usize) = (5, 24);
const LONG_ROUTE: (u8, usize) = (7, 26);

/// A damaged copy of a snapshot.
pub fn damage(bytes: &[u8], seed: u64) -> Vec<u8> {
    damaged(bytes, seed, body_length)
}

/// A damaged copy of a policy; kinds and end record are laid out as in a snapshot.
pub fn damage_policy(bytes: &[u8], seed: u64) -> Vec<u8> {
    damaged(bytes, seed, policy::record::body_length)
}

fn damaged(bytes: &[u8], seed: u64, bodies: Bodies) -> Vec<u8> {
    let mut seeded = Seeded::new(seed);
    let mut damaged = bytes.to_vec();
    for _ in 0..seeded.pick(&[1, 1, 1, 2, 3]) {
        damaged = damaged_once(&damaged, &mut seeded, bodies);
    }
    damaged
}

fn damaged_once(bytes: &[u8], seeded: &mut Seeded, bodies: Bodies) -> Vec<u8> {
    let in_records = seeded.below(5) < 3;
    let records: Vec<Vec<u8>> = cut_by(bytes, bodies).into_iter().map(<[u8]>::to_vec).collect();
    if !in_records || records.len() < 2 {
        return damaged_bytes(bytes.to_vec(), seeded);
    }
    let mut damaged = damaged_records(records, seeded);
    if seeded.below(2) == 0 {
        mend_end(&mut damaged);
    }
    damaged.concat()
}

/// A bit flipped, bytes dropped, cut off, appended or put in.
fn damaged_bytes(mut bytes: Vec<u8>, seeded: &mut Seeded) -> Vec<u8> {
    let at = seeded.below(bytes.len() + 1);
    let inside = at < bytes.len();
    match seeded.below(5) {
        0 if inside => bytes[at] ^= 1 << seeded.below(8),
        1 if inside => {
            bytes.drain(at..bytes.len().min(at + 1 + seeded.below(8)));
        }
        2 => bytes.truncate(at),
        3 => {
            let added = 1 + seeded.below(4);
            bytes.extend((0..added).map(|_| seeded.below(256) as u8));
        }
        _ => bytes.insert(at, seeded.pick(&[0, 1, 2, 3, 4, 5, 6, 7, 8, 255])),
    }
    bytes
}

/// Two records swapped or spliced, one doubled, dropped or moved, a field, the end record's number or an AS altered.
fn damaged_records(mut records: Vec<Vec<u8>>, seeded: &mut Seeded) -> Vec<Vec<u8>> {
    let one = some_record(&records, seeded);
    let two = some_record(&records, seeded);
    match seeded.below(12) {
        0 => records.swap(one, two),
        1 if one > 0 => records.swap(one, one - 1),
        2 => splice(&mut records, one, two, seeded),
        3 => records.insert(two, records[one].clone()),
        4 | 5 => records.insert(one + 1, raised(&records[one])),
        6 => {
            records.remove(one);
        }
        7 => alter_end(&mut records, seeded),
        8 | 9 => alter_as(&mut records, one, seeded),
        _ => put_boundary(&mut records[one], seeded),
    }
    records
}

/// A record of a kind taken first, so that the many distances do not draw most of the damage.
fn some_record(records: &[Vec<u8>], seeded: &mut Seeded) -> usize {
    let kinds: BTreeSet<u8> = records.iter().map(|record| record[0]).collect();
    let kind = seeded.pick(&Vec::from_iter(kinds));
    let of_kind: Vec<usize> = (0..records.len()).filter(|&index| records[index][0] == kind).collect();
    seeded.pick(&of_kind)
}

/// A copy one higher in its last byte, which after a prefix or a route is often a sound record more.
fn raised(record: &[u8]) -> Vec<u8> {
    let mut copy = record.to_vec();
    if let Some(last) = copy.last_mut() {
        *last = last.wrapping_add(1);
    }
    copy
}

/// The head of one record with the rest of another of the same kind: often from the third byte on, which in
/// an id record is where the id begins.
fn splice(records: &mut [Vec<u8>], one: usize, two: usize, seeded: &mut Seeded) {
    let kind = records[one][0];
    let same_kind = |record: &&Vec<u8>| record[0] == kind && record.len() == records[one].len();
    let mut from_two_on = records[two..].iter().chain(&records[..two]);
    if let Some(other) = from_two_on.find(same_kind) {
        let anywhere = seeded.below(other.len());
        let at = seeded.pick(&[2.min(other.len()), anywhere]);
        let spliced = [&records[one][..at], &other[at..]].concat();
        records[one] = spliced;
    }
}

/// The first route from one record on takes an AS at which a check may turn, or stays with its own, and becomes of
/// either kind: also of the one that does not hold its AS, or in which it may not stand.
fn alter_as(records: &mut [Vec<u8>], from: usize, seeded: &mut Seeded) {
    let is_route = |record: &&mut Vec<u8>| [SHORT_ROUTE, LONG_ROUTE].contains(&(record[0], record.len()));
    if let Some(record) = records[from..].iter_mut().find(is_route) {
        let (head, rest) = record.split_at(record.len() - 20);
        let boundary = seeded.pick(&AS_BOUNDARIES);
        let neighbour_as = seeded.pick(&[number(&head[2..]), boundary, boundary]).to_be_bytes();
        let (kind, held) = seeded.pick(&[(5, &neighbour_as[2..]), (7, &neighbour_as[..])]);
        *record = [&[kind, head[1]], held, rest].concat();
    }
}

fn alter_end(records: &mut [Vec<u8>], seeded: &mut Seeded) {
    let right = records.len() as u32 - 1;
    let wrong = seeded.pick(&[0, right - 1, right + 1, right + 256, u32::MAX]);
    if let Some(last) = records.last_mut() {
        *last = encode(&Record::End(wrong));
    }
}

/// One to four bytes of the body take a value at which a check may turn.
fn put_boundary(record: &mut [u8], seeded: &mut Seeded) {
    let width = seeded.pick(&[1, 1, 2, 4]);
    let value = seeded.pick(&BOUNDARIES).to_be_bytes();
    let at = seeded.below(record.len());
    let end = record.len().min(at + width);
    record[at..end].copy_from_slice(&value[4 - (end - at)..]);
}

/// Gives the end record the number that is right after the damage.
fn mend_end(records: &mut [Vec<u8>]) {
    let right = records.len() as u32 - 1;
    if let Some(last) = records.last_mut().filter(|last| last[0] == 6) {
        *last = encode(&Record::End(right));
    }
}
