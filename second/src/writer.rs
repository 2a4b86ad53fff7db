//! Writing a snapshot: the records of the format in their order, and the end record that counts them.

use crate::record::{encode, Record};
use crate::snapshot::Snapshot;

pub fn write(snapshot: &Snapshot) -> Vec<u8> {
    let mut records = network(&snapshot.ids, &snapshot.distances);
    for prefix in &snapshot.prefixes {
        records.push(Record::Prefix { address: prefix.address, length: prefix.length });
        records.extend(prefix.routes.iter().map(|&route| Record::Route(route)));
    }
    records.push(Record::End(records.len() as u32));
    records.iter().flat_map(encode).collect()
}

/// The records of kinds 1 to 3.
pub fn network(ids: &[u32], distances: &[Vec<u32>]) -> Vec<Record> {
    let mut records = vec![Record::Routers(ids.len() as u8)];
    for (index, &id) in (0..=u8::MAX).zip(ids) {
        records.push(Record::Id { index, id });
    }
    for (from, row) in (0..=u8::MAX).zip(distances) {
        for (to, &distance) in (0..=u8::MAX).zip(row) {
            if from != to {
                records.push(Record::Distance { from, to, distance });
            }
        }
    }
    records
}
