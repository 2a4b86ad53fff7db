//! The proved calls over lent tables against the second program: the numbers returned, and all that was lent. The
//! tables are those of random snapshots, sound or spoilt, and the same in each run.

use differential::spoil::{self, Spoil};
use differential::tables::{ask_read, unused, Question};
use second::seed::Seeded;
use second::snapshot::{No, Prefix, Route, Snapshot};
use second::tables::{ADDRESS, LENGTH, LIMITS, OF_PREFIX, OF_ROUTE, PEER};
use second::{damage, random, writer};

/// How many spoilt tables are asked, and how often each single way of spoiling is tried.
const SPOILT: u64 = 20_000;
const EACH: u64 = 1000;

fn some_snapshot(seed: u64) -> Snapshot {
    random::random(seed, &random::some_kind(seed)).expect("a kind")
}

/// How often writing and a forecast were refused as what; number 0 is an answer.
#[derive(Default)]
struct Tally {
    writing: [usize; 13],
    forecast: [usize; 13],
}

fn number(refusal: Option<No>) -> usize {
    refusal.map_or(0, |no| no as usize)
}

impl Tally {
    fn ask(&mut self, what: &str, question: &Question) {
        self.writing[number(question.ask_write(what))] += 1;
        self.forecast[number(question.ask_forecast(what))] += 1;
    }

    fn wrote(&self, refusal: Option<No>) -> usize {
        self.writing[number(refusal)]
    }

    fn forecast(&self, refusal: Option<No>) -> usize {
        self.forecast[number(refusal)]
    }
}

#[test]
fn sound_tables() {
    let mut tally = Tally::default();
    for seed in 0..400 {
        let snapshot = some_snapshot(seed);
        let mut question = Question::of(&snapshot);
        for prefix in 0..=question.counts.prefixes {
            question.prefix = prefix;
            tally.ask(&format!("snapshot {seed}"), &question);
        }
    }
    assert_eq!(tally.forecast(Some(No::NoPrefix)), 400);
    assert!(tally.forecast(None) > 800 && tally.wrote(None) == tally.forecast(None) + 400);
}

/// Asks `EACH` snapshots that are spoilt in one way.
fn spoilt_by(name: &str) -> Tally {
    let (_, spoil) = spoil::ALL.iter().find(|(known, _)| *known == name).expect("a way to spoil");
    let mut tally = Tally::default();
    for seed in 0..EACH {
        let mut question = Question::of(&some_snapshot(seed));
        spoil(&mut Seeded::new(seed), &mut question);
        tally.ask(&format!("snapshot {seed} with {name} spoilt"), &question);
    }
    tally
}

#[test]
fn values_counts_and_order_spoilt_are_table_or_harmless() {
    for (name, table, harmless) in [
        ("a count", 900, 20),
        ("a used value", 250, 400),
        ("a used AS", 200, 400),
        ("a used value near another", 100, 500),
        ("an equal pair's distance", 600, 50),
        ("two prefixes", 200, 400),
        ("two routes", 300, 300),
        ("one prefix's number of routes", 600, 50),
        ("two prefixes' numbers of routes", 200, 300),
        ("a twin id", 400, 200),
    ] {
        let tally = spoilt_by(name);
        let (refused, written) = (tally.wrote(Some(No::Table)), tally.wrote(None));
        assert_eq!(refused + written, EACH as usize, "{name}");
        assert!(refused >= table && written >= harmless, "{name}: {refused} TABLE, {written} written");
    }
}

/// A sound snapshot stays what it is, whatever stands in the unused entries.
#[test]
fn unused_values_change_nothing() {
    for seed in 0..EACH {
        let snapshot = some_snapshot(seed);
        let mut question = Question::of(&snapshot);
        for turn in 0..20 {
            spoil::unused_value(&mut Seeded::new(20 * seed + turn), &mut question);
        }
        let what = format!("snapshot {seed} with other unused entries");
        assert_eq!(question.ask_write(&what), None);
        assert_eq!(question.ask_forecast(&what), snapshot.prefixes.is_empty().then_some(No::NoPrefix));
    }
}

#[test]
fn too_little_room_is_room() {
    let tally = spoilt_by("a table's length");
    assert!(tally.wrote(Some(No::Room)) > 400 && tally.forecast(Some(No::Room)) == tally.wrote(Some(No::Room)));
    let tally = spoilt_by("the output's length");
    assert!(tally.wrote(Some(No::Room)) > 400 && tally.wrote(None) > 200 && tally.forecast(Some(No::Room)) == 0);
    let tally = spoilt_by("an area's length");
    assert!(tally.forecast(Some(No::Room)) > 500 && tally.wrote(None) == EACH as usize);
    let tally = spoilt_by("the prefix");
    assert!(tally.forecast(Some(No::NoPrefix)) > 400 && tally.forecast(None) > 100);
}

/// Every table one entry short by itself, for all three calls, with all else sound and with all else bad.
#[test]
fn each_table_one_short() {
    let sound = Question::of(&some_snapshot(1));
    for table in 0..LIMITS.len() {
        let what = format!("table {table} one short");
        let mut question = sound.clone();
        question.lent[table].pop();
        assert_eq!(question.ask_write(&what), Some(No::Room));
        assert_eq!(question.ask_forecast(&what), Some(No::Room));
        question.counts.routers = 0;
        question.prefix = u32::MAX;
        question.out.clear();
        assert_eq!(question.ask_write(&what), Some(No::Room));
        assert_eq!(question.ask_forecast(&what), Some(No::Room));
        let mut lent = unused();
        lent[table].pop();
        assert_eq!(ask_read(&what, &writer::write(&some_snapshot(1)), &lent), Some(No::Room));
        assert_eq!(ask_read(&what, &[], &lent), Some(No::Room));
    }
}

/// Several things at once: so that the order of the checks is seen.
#[test]
fn spoilt_in_several_ways() {
    let ways: [Spoil; spoil::ALL.len()] = spoil::ALL.map(|(_, spoil)| spoil);
    let mut tally = Tally::default();
    for seed in 0..SPOILT {
        let mut seeded = Seeded::new(seed);
        let mut question = Question::of(&some_snapshot(seed));
        for _ in 0..seeded.pick(&[1, 2, 3, 4]) {
            seeded.pick(&ways)(&mut seeded, &mut question);
        }
        tally.ask(&format!("snapshot {seed} spoilt in several ways"), &question);
    }
    let share = SPOILT as usize / 20;
    assert!(tally.wrote(Some(No::Room)) > share && tally.wrote(Some(No::Table)) > share && tally.wrote(None) > share);
    assert!(tally.forecast(Some(No::Room)) > share && tally.forecast(Some(No::Table)) > share);
    assert!(tally.forecast(Some(No::NoPrefix)) > share / 2 && tally.forecast(None) > share);
}

/// One router, and prefixes of so many routes.
fn prefixes(sizes: &[usize]) -> Snapshot {
    let route = |peer: usize| Route {
        router: 0,
        neighbour_as: 1,
        preference: 100,
        path: 2,
        origin: 0,
        mark: 1,
        med: 0,
        neighbour_id: 1,
        peer: 1 + peer as u32,
    };
    let prefix = |(number, &size): (u32, &usize)| {
        let routes = (0..size).map(route).collect();
        Prefix { address: number << 24, length: 8, routes }
    };
    Snapshot { ids: vec![1], distances: vec![vec![0]], prefixes: (0..).zip(sizes).map(prefix).collect() }
}

/// At the limits, and one beyond in tables that have room for it.
#[test]
fn one_more_than_the_limit_is_table() {
    for (sizes, refusal) in [
        (vec![0; 64], None),
        (vec![256; 4], None),
        (vec![16; 64], None),
        (vec![257], Some(No::Table)),
        (vec![256, 257], Some(No::Table)),
    ] {
        assert_eq!(Question::of(&prefixes(&sizes)).ask_write(&format!("{sizes:?}")), refusal);
    }
    let mut question = Question::of(&prefixes(&[0; 64]));
    question.counts.prefixes = 65;
    for (table, value) in [(ADDRESS, 64 << 24), (LENGTH, 8), (OF_PREFIX, 0)] {
        question.lent[table].push(value);
    }
    assert_eq!(question.ask_write("a 65th prefix"), Some(No::Table));
    let mut question = Question::of(&prefixes(&[256, 256, 256, 256, 0]));
    question.counts.routes = 1025;
    question.lent[OF_PREFIX][4] = 1;
    for table in OF_ROUTE..=PEER {
        let first = question.lent[table][0];
        question.lent[table].push(first);
    }
    assert_eq!(question.ask_write("a 1,025th route"), Some(No::Table));
}

/// The AS of one route among both kinds at each of its borders.
#[test]
fn an_as_at_its_borders() {
    let mut snapshot = random::random(1, "mixed-open").expect("a kind");
    for (neighbour_as, refusal) in [
        (0, Some(No::Table)),
        (1, None),
        (23_455, None),
        (23_456, Some(No::Table)),
        (23_457, None),
        (65_534, None),
        (65_535, Some(No::Table)),
        (65_536, None),
        (65_536 + 23_456, None),
        (u32::MAX - 1, None),
        (u32::MAX, Some(No::Table)),
    ] {
        snapshot.prefixes[0].routes[1].neighbour_as = neighbour_as;
        let question = Question::of(&snapshot);
        assert_eq!(question.ask_write(&format!("AS {neighbour_as}")), refusal);
        assert_eq!(question.ask_forecast(&format!("AS {neighbour_as}")), refusal);
    }
}

/// Three routes in all, if sums of 32 bits wrapped.
#[test]
fn numbers_of_routes_do_not_wrap() {
    for (one, other) in [((1 << 31) + 1, (1 << 31) + 1), (u32::MAX, 3), (3, u32::MAX), (u32::MAX - 255, 258)] {
        let mut question = Question::of(&prefixes(&[1, 1, 1]));
        question.lent[OF_PREFIX][..2].copy_from_slice(&[one, other]);
        assert_eq!(question.ask_write(&format!("{one} and {other} routes")), Some(No::Table));
        assert_eq!(question.ask_forecast(&format!("{one} and {other} routes")), Some(No::Table));
    }
}

#[test]
fn reading_sound_and_damaged_snapshots() {
    let mut refused = 0;
    for seed in 0..3000 {
        let whole = writer::write(&some_snapshot(seed));
        let damaged = damage::damage(&whole, seed);
        assert_eq!(ask_read(&format!("snapshot {seed}"), &whole, &unused()), None);
        refused += usize::from(ask_read(&format!("damage {seed}"), &damaged, &unused()).is_some());
    }
    assert!(refused > 1500, "{refused} refused");
}
