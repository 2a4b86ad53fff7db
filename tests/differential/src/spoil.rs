//! Sound tables spoilt in one way or several: counts, used and unused entries, order, sums, and lengths of what is lent.

use crate::tables::Question;
use second::damage::AS_BOUNDARIES;
use second::seed::Seeded;
use second::tables::*;

/// Values at which a check may turn, or beyond what fits a byte or two.
const VALUES: [u32; 15] = [0, 1, 2, 3, 32, 33, 64, 65, 256, 65_534, 65_535, 65_536, 16_777_215, 16_777_216, u32::MAX];

/// A way to spoil a question.
pub type Spoil = fn(&mut Seeded, &mut Question);

/// All ways, by name.
pub const ALL: [(&str, Spoil); 15] = [
    ("a count", count),
    ("a used value", used_value),
    ("a used AS", used_as),
    ("a used value near another", used_neighbour),
    ("an unused value", unused_value),
    ("an equal pair's distance", equal_pair),
    ("two prefixes", prefixes),
    ("two routes", routes),
    ("one prefix's number of routes", sum),
    ("two prefixes' numbers of routes", border),
    ("a twin id", twin),
    ("a table's length", table_length),
    ("the output's length", out_length),
    ("an area's length", area_length),
    ("the prefix", prefix),
];

/// Another number than the right one, mostly.
fn near(seeded: &mut Seeded, right: u32) -> u32 {
    match seeded.below(5) {
        0 => right.wrapping_sub(1),
        1 => right.wrapping_add(1),
        2 => right ^ (1 << seeded.below(32)),
        _ => seeded.pick(&VALUES),
    }
}

fn count(seeded: &mut Seeded, question: &mut Question) {
    let counts = &mut question.counts;
    let count = match seeded.below(3) {
        0 => &mut counts.routers,
        1 => &mut counts.prefixes,
        _ => &mut counts.routes,
    };
    *count = near(seeded, *count);
}

/// The used entries of a table in rising order, by the counts as they are now and as far as there is room.
fn used(question: &Question, table: usize) -> Vec<usize> {
    let Counts { routers, prefixes, routes } = question.counts;
    let below = |count: u32| (0..LIMITS[table].min(count as usize)).collect::<Vec<usize>>();
    let used = match table {
        IDS => below(routers),
        DISTANCES => pairs(routers).map(|(from, to)| 64 * from + to).collect(),
        ADDRESS | LENGTH | OF_PREFIX => below(prefixes),
        _ => below(routes),
    };
    used.into_iter().filter(|&entry| entry < question.lent[table].len()).collect()
}

fn pairs(routers: u32) -> impl Iterator<Item = (usize, usize)> {
    let routers = 64.min(routers as usize);
    (0..routers).flat_map(move |from| (0..routers).map(move |to| (from, to)))
}

/// A used entry of a table, if it has one.
fn some_used(seeded: &mut Seeded, question: &Question, table: usize) -> Option<usize> {
    let used = used(question, table);
    (!used.is_empty()).then(|| seeded.pick(&used))
}

fn used_value(seeded: &mut Seeded, question: &mut Question) {
    let table = seeded.below(LIMITS.len());
    if let Some(entry) = some_used(seeded, question, table) {
        let value = question.lent[table][entry];
        question.lent[table][entry] = near(seeded, value);
    }
}

fn used_as(seeded: &mut Seeded, question: &mut Question) {
    if let Some(entry) = some_used(seeded, question, NEIGHBOUR_AS) {
        question.lent[NEIGHBOUR_AS][entry] = seeded.pick(&AS_BOUNDARIES);
    }
}

/// One entry takes the value of another one of its table, which is in range.
fn used_neighbour(seeded: &mut Seeded, question: &mut Question) {
    let table = seeded.below(LIMITS.len());
    if let Some((one, other)) = two_used(seeded, question, table) {
        question.lent[table][one] = question.lent[table][other];
    }
}

fn two_used(seeded: &mut Seeded, question: &Question, table: usize) -> Option<(usize, usize)> {
    let (one, other) = (some_used(seeded, question, table)?, some_used(seeded, question, table)?);
    (one != other).then_some((one, other))
}

/// What lies beyond the counts, and the distances of routers that are not there.
pub fn unused_value(seeded: &mut Seeded, question: &mut Question) {
    let table = seeded.below(LIMITS.len());
    let used = used(question, table);
    let unused: Vec<usize> =
        (0..question.lent[table].len()).filter(|entry| used.binary_search(entry).is_err()).collect();
    if !unused.is_empty() {
        let entry = seeded.pick(&unused);
        question.lent[table][entry] = seeded.pick(&VALUES);
    }
}

fn equal_pair(seeded: &mut Seeded, question: &mut Question) {
    let equal = 65 * seeded.below(64.min(1 + question.counts.routers as usize));
    if let Some(distance) = question.lent[DISTANCES].get_mut(equal) {
        *distance = seeded.pick(&[1, 2, 16_777_215, u32::MAX]);
    }
}

/// Two prefixes exchanged, in one column or in both.
fn prefixes(seeded: &mut Seeded, question: &mut Question) {
    exchange(seeded, question, &[&[ADDRESS], &[LENGTH], &[ADDRESS, LENGTH]]);
}

/// Two routes exchanged: their routers, their peers, or all that they are.
fn routes(seeded: &mut Seeded, question: &mut Question) {
    let all: Vec<usize> = (OF_ROUTE..LIMITS.len()).collect();
    exchange(seeded, question, &[&[OF_ROUTE], &[PEER], &all]);
}

/// Exchanges a used entry with the next one or with any, in one of these sets of tables.
fn exchange(seeded: &mut Seeded, question: &mut Question, sets: &[&[usize]]) {
    let tables = seeded.pick(sets);
    if let Some((one, other)) = two_used(seeded, question, tables[0]) {
        let other = seeded.pick(&[one + 1, other]);
        for &table in tables {
            let table = &mut question.lent[table];
            if one.max(other) < table.len() {
                table.swap(one, other);
            }
        }
    }
}

/// The numbers of routes no longer add up.
fn sum(seeded: &mut Seeded, question: &mut Question) {
    if let Some(entry) = some_used(seeded, question, OF_PREFIX) {
        let value = question.lent[OF_PREFIX][entry];
        question.lent[OF_PREFIX][entry] = near(seeded, value);
    }
}

/// One number goes up by what another goes down, also where only a sum that wraps would be right.
fn border(seeded: &mut Seeded, question: &mut Question) {
    if let Some((one, other)) = two_used(seeded, question, OF_PREFIX) {
        let moved = seeded.pick(&[1, 1, 2, 256, 1 << 31]);
        let numbers = &mut question.lent[OF_PREFIX];
        numbers[one] = numbers[one].wrapping_add(moved);
        numbers[other] = numbers[other].wrapping_sub(moved);
    }
}

fn twin(seeded: &mut Seeded, question: &mut Question) {
    if let Some((one, other)) = two_used(seeded, question, IDS) {
        question.lent[IDS][one] = question.lent[IDS][other];
    }
}

/// One too short, or longer than it need be.
fn table_length(seeded: &mut Seeded, question: &mut Question) {
    let table = &mut question.lent[seeded.below(LIMITS.len())];
    match seeded.below(3) {
        0 => table.push(seeded.pick(&VALUES)),
        1 => table.truncate(seeded.below(table.len() + 1)),
        _ => {
            table.pop();
        }
    }
}

fn out_length(seeded: &mut Seeded, question: &mut Question) {
    let shorter = seeded.pick(&[1, 2, 3, 4, 5, 6, 24, question.out.len()]);
    question.out.truncate(question.out.len().saturating_sub(shorter));
}

fn area_length(seeded: &mut Seeded, question: &mut Question) {
    let length = seeded.pick(&[0, 1, 62, 63, 63, 64]);
    match seeded.below(2) {
        0 => question.early.truncate(length),
        _ => question.late.truncate(length),
    }
}

fn prefix(seeded: &mut Seeded, question: &mut Question) {
    question.prefix = near(seeded, question.counts.prefixes);
}
