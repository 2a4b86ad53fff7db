//! The host call against the second program: the number returned and every byte of the area. All inputs come from
//! seeds or from every place of a small snapshot, so each run asks the same.

use differential::host::{Tally, AREA};
use second::record::cut;
use second::{damage, random, text, writer};

/// How many damaged copies are asked, unless BARRIEROSE_DAMAGED gives another number. A full run has 100,000.
const DAMAGED: u64 = 20_000;

/// The share of prefixes, of those asked for in open kinds of snapshots, that must be open: one in so many.
const OPEN_SHARE: usize = 5;

/// Two prefixes, one of them open, with routes of all three routers and of both kinds: the small snapshot that is
/// damaged everywhere.
const SMALL: &str = "router 10.0.0.1 10.0.0.2 10.0.0.3\ndistance 0 1 4\ndistance 0 2 5\ndistance 1 to 2 9
prefix 10.0.0.0/8\nroute 0 as 65001 med 0 id 2\nroute 0 as 65002 med 5 id 1\nroute 1 as 65002 med 0 id 2
route 1 as 65001 med 5 id 1\nprefix 198.51.100.0/24\nroute 1 as 7 med absent\nroute 1 as 65543 med 3
route 2 as 7 path 3 origin egp\nroute 2 as 65543";

fn small() -> Vec<u8> {
    text::make_from_sheet(SMALL).expect("the notation is sound").bytes
}

fn made(seed: u64, kind: &str) -> Vec<u8> {
    writer::write(&random::random(seed, kind).expect("a kind"))
}

/// A kind and its form with ASes of both lengths, in turn.
fn in_turn(seed: u64, kind: &str) -> String {
    format!("{}{kind}", ["", "mixed-"][seed as usize % 2])
}

#[test]
fn random_snapshots() {
    let mut tally = Tally::default();
    for seed in 0..3000 {
        let kind = in_turn(seed, "small");
        tally.ask_all(&format!("random {seed} {kind}"), &made(seed, &kind));
    }
    tally.say("small");
    assert!(tally.settled() > 2000 && tally.refusals() == 0 && tally.refused(12) == tally.inputs());
}

#[test]
fn random_open_snapshots() {
    let mut tally = Tally::default();
    for seed in 0..3000 {
        let kind = in_turn(seed, "open");
        tally.ask_all(&format!("random {seed} {kind}"), &made(seed, &kind));
    }
    tally.say("open");
    assert!(OPEN_SHARE * tally.open() >= tally.open() + tally.settled() && tally.refusals() == 0);
}

#[test]
fn snapshots_at_the_limits() {
    let mut tally = Tally::default();
    for kind in &random::KINDS[2..] {
        for seed in 0..4 {
            let kind = in_turn(seed, kind);
            tally.ask_all(&format!("random {seed} {kind}"), &made(seed, &kind));
        }
    }
    tally.say("at the limits");
    assert!(tally.settled() > 500 && tally.refusals() == 0);
}

#[test]
fn open_snapshots_at_the_limits() {
    let mut tally = Tally::default();
    for seed in 0..50 {
        let kind = in_turn(seed, "wide");
        tally.ask_all(&format!("random {seed} {kind}"), &made(seed, &kind));
    }
    tally.say("open at the limits");
    assert!(OPEN_SHARE * tally.open() >= tally.open() + tally.settled() && tally.refusals() == 0);
}

#[test]
fn areas_of_all_lengths() {
    let mut tally = Tally::default();
    for room in 0..2 * AREA {
        tally.ask("areas of all lengths", &small(), 0, room);
    }
    assert_eq!((tally.refused(1), tally.open()), (AREA, AREA));
}

#[test]
fn every_number_of_leading_bytes() {
    let mut tally = Tally::default();
    let whole = small();
    for length in 0..whole.len() {
        tally.ask_all(&format!("the first {length} bytes"), &whole[..length]);
    }
    tally.say("every number of leading bytes");
    assert_eq!(tally.refused(2), whole.len());
}

#[test]
fn every_byte_with_every_value() {
    let mut tally = Tally::default();
    let whole = small();
    for place in 0..whole.len() {
        for value in 0..=255 {
            let mut altered = whole.clone();
            altered[place] = value;
            tally.ask_all(&format!("byte {place} is {value}"), &altered);
        }
    }
    tally.say("every byte with every value");
    assert!(tally.refusals() > 10_000 && tally.open() > 1000 && tally.settled() > 1000);
}

/// Two and four bytes at every place, with values at which a range may end.
#[test]
fn every_place_with_values_at_the_ends_of_ranges() {
    const TWO: [u16; 7] = [0, 1, 2, 23_456, 65_533, 65_534, 65_535];
    const FOUR: [u32; 12] = [0, 1, 15, 16, 17, 23_456, 65_535, 65_536, 16_777_215, 16_777_216, u32::MAX - 1, u32::MAX];
    let mut tally = Tally::default();
    let whole = small();
    let values =
        TWO.iter().map(|value| value.to_be_bytes().to_vec()).chain(FOUR.map(|value| value.to_be_bytes().to_vec()));
    for value in values {
        for place in 0..=whole.len() - value.len() {
            let mut altered = whole.clone();
            altered[place..place + value.len()].copy_from_slice(&value);
            tally.ask_all(&format!("bytes from {place} are {value:?}"), &altered);
        }
    }
    tally.say("two and four bytes at every place");
    assert!(tally.refusals() > 1000 && tally.open() + tally.settled() > 500);
}

/// Once as it is, and once with an end record that counts what is left, so that a dropped piece can pass for a whole.
#[test]
fn every_run_of_bytes_dropped() {
    let mut tally = Tally::default();
    let whole = small();
    for start in 0..whole.len() {
        for length in 1..=48.min(whole.len() - start) {
            let what = format!("{length} bytes dropped at {start}");
            let dropped = [&whole[..start], &whole[start + length..]].concat();
            tally.ask_all(&what, &dropped);
            if let Some(counted) = counted(&dropped) {
                tally.ask_all(&format!("{what} and counted"), &counted);
            }
        }
    }
    tally.say("every run of 1 to 48 bytes dropped");
    assert!(tally.refusals() > 8000 && tally.open() > 20 && tally.settled() > 200);
}

/// The same bytes with the right number in their end record, if they end in one.
fn counted(bytes: &[u8]) -> Option<Vec<u8>> {
    let records = cut(bytes);
    let (end, before) = records.split_last()?;
    let number = (before.len() as u32).to_be_bytes();
    (end.len() == 5 && end[0] == 6).then(|| [&bytes[..bytes.len() - 4], &number].concat())
}

#[test]
fn damaged_copies() {
    let asked = std::env::var("BARRIEROSE_DAMAGED").map_or(DAMAGED, |number| number.parse().expect("a number"));
    let mut tally = Tally::default();
    for seed in 0..asked {
        let kind = random::some_kind(seed);
        tally.ask_all(&format!("damage {seed} of random {seed} {kind}"), &damage::damage(&made(seed, &kind), seed));
    }
    tally.say("damaged copies");
    assert_eq!(tally.inputs(), asked as usize);
    assert!(tally.refusals() > tally.inputs() / 2, "most damages should be noticed");
    for number in 2..=10 {
        assert!(tally.refused(number) > tally.inputs() / 5000, "number {number} was hardly ever given");
    }
}
