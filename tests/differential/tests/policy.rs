//! Policies through the host call and over lent tables against the second program: the numbers returned, and all that
//! was lent. All inputs come from seeds or from every place of small files, so each run asks the same.

use differential::policy::{made, Tally};
use differential::spoil::{self, Spoil};
use differential::tables::Question;
use second::damage::{damage, damage_policy};
use second::policy::text as policies;
use second::reader::read;
use second::seed::Seeded;
use second::snapshot::No;
use second::tables::LIMITS;
use second::text;

/// Three routers, two prefixes, direct paths and longer ones, MEDs present and absent, routes of both kinds.
const SNAPSHOT: &str = "router 10.0.0.1 10.0.0.2 10.0.0.3
prefix 10.0.0.0/8\nroute 0 as 65001 path 1 med 5 peer 192.0.2.1\nroute 0 as 65002 med absent peer 192.0.2.2
route 1 as 65001 path 1 peer 192.0.2.1 preference 300\nprefix 198.51.100.0/24
route 0 as 65002 path 1 med 7 peer 192.0.2.2\nroute 1 as 65001 peer 192.0.2.1\nroute 2 as 65543 path 1 peer 192.0.2.9";

/// Sessions of all sorts, and every kind of clause.
const POLICY: &str = "session 0 peer 192.0.2.1\nmed 0\nprefix 10.0.0.0/8 preference 200
session 0 peer 192.0.2.2\nas 65002 preference 150\nall preference 90
session 1 peer 192.0.2.1\nmed 0\nprefix 198.51.100.0/24 preference 110\nas 65001 preference 120
session 2 peer 192.0.2.9\nas 65543 preference 130\nsession 9 peer 1";

fn small() -> Vec<u8> {
    text::make_from_sheet(SNAPSHOT).and_then(|made| made.judged()).expect("the notation is sound")
}

fn small_policy() -> Vec<u8> {
    policies::make(POLICY).and_then(|made| made.judged()).expect("the notation is sound")
}

#[test]
fn random_policies() {
    let mut tally = Tally::default();
    for seed in 0..6000 {
        let (what, snapshot, policy) = made(seed);
        tally.ask(&what, &snapshot, &policy, snapshot.len() + seed as usize % 3);
    }
    tally.say("random policies");
    assert_eq!(tally.applied(), 6000);
    let decided = [tally.by_prefix, tally.by_as, tally.by_all, tally.unfit, tally.of_no_session, tally.new_med];
    assert!(decided.iter().all(|&routes| routes > 1000), "{decided:?}");
}

#[test]
fn damaged_policies() {
    let mut tally = Tally::default();
    for seed in 0..8000 {
        let (what, snapshot, policy) = made(seed);
        tally.ask(&format!("damaged {what}"), &snapshot, &damage_policy(&policy, seed), snapshot.len());
    }
    tally.say("damaged policies");
    for number in [2, 3, 4, 5, 6, 8, 9, 10] {
        assert!(tally.refused_policy(number) > 20, "number {number} was hardly ever given");
    }
    assert!(tally.applied() > 400 && tally.refusals()[0] == 0);
}

/// One damaged, the other whole or damaged too: the snapshot's refusal comes first.
#[test]
fn damaged_snapshots() {
    let mut tally = Tally::default();
    for seed in 0..3000 {
        let (what, snapshot, policy) = made(seed);
        let damaged = damage(&snapshot, seed);
        tally.ask(&format!("{what}, damaged snapshot"), &damaged, &policy, damaged.len());
        tally.ask(&format!("{what}, both damaged"), &damaged, &damage_policy(&policy, seed), damaged.len() + 1);
    }
    tally.say("damaged snapshots");
    let [snapshots, policies] = tally.refusals();
    assert!(snapshots > 3000 && policies > 60 && tally.applied() > 300);
}

/// Too short for the snapshot given is ROOM, whatever the two files are.
#[test]
fn outputs_of_all_lengths() {
    let mut tally = Tally::default();
    let (snapshot, policy) = (small(), small_policy());
    for room in 0..snapshot.len() + 20 {
        tally.ask("outputs of all lengths", &snapshot, &policy, room);
        tally.ask("a refused snapshot", &snapshot[1..], &policy, room);
        tally.ask("a refused policy", &snapshot, &policy[1..], room);
    }
    let length = snapshot.len();
    assert_eq!((tally.refused(1), tally.applied()), (3 * length - 1, 20));
    assert_eq!(tally.refusals(), [21, 20]);
}

#[test]
fn every_number_of_leading_bytes() {
    let mut tally = Tally::default();
    let (snapshot, policy) = (small(), small_policy());
    for length in 0..policy.len() {
        tally.ask(&format!("the first {length} bytes"), &snapshot, &policy[..length], snapshot.len());
    }
    assert_eq!(tally.refused_policy(2), policy.len());
}

#[test]
fn every_byte_with_every_value() {
    let mut tally = Tally::default();
    let (snapshot, policy) = (small(), small_policy());
    for place in 0..policy.len() {
        for value in 0..=255 {
            let mut altered = policy.clone();
            altered[place] = value;
            tally.ask(&format!("byte {place} is {value}"), &snapshot, &altered, snapshot.len());
        }
    }
    tally.say("every byte with every value");
    assert!(tally.refusals()[1] > 5000 && tally.applied() > 5000);
}

/// Two and four bytes at every place, with values at which a range may end.
#[test]
fn every_place_with_values_at_the_ends_of_ranges() {
    const TWO: [u16; 4] = [0, 1, 256, 65_535];
    const FOUR: [u32; 7] = [0, 1, 11, 12, 13, u32::MAX - 1, u32::MAX];
    let mut tally = Tally::default();
    let (snapshot, policy) = (small(), small_policy());
    let values =
        TWO.iter().map(|value| value.to_be_bytes().to_vec()).chain(FOUR.map(|value| value.to_be_bytes().to_vec()));
    for value in values {
        for place in 0..=policy.len() - value.len() {
            let mut altered = policy.clone();
            altered[place..place + value.len()].copy_from_slice(&value);
            tally.ask(&format!("bytes from {place} are {value:?}"), &snapshot, &altered, snapshot.len());
        }
    }
    assert!(tally.refusals()[1] > 500 && tally.applied() > 100);
}

#[test]
fn every_run_of_bytes_dropped() {
    let mut tally = Tally::default();
    let (snapshot, policy) = (small(), small_policy());
    for start in 0..policy.len() {
        for length in 1..=20.min(policy.len() - start) {
            let dropped = [&policy[..start], &policy[start + length..]].concat();
            tally.ask(&format!("{length} bytes dropped at {start}"), &snapshot, &dropped, snapshot.len());
        }
    }
    assert_eq!(tally.refusals()[1], tally.asked);
}

/// The longest policy, and more behind it than has to be looked at.
#[test]
fn longer_than_the_longest() {
    let clauses = "prefix 198.51.100.0/24 preference 1\n".repeat(32);
    let session = |peer: u32| format!("session 0 peer {}\nmed 0\n{clauses}", 0xc000_0201 - 40 + peer);
    let lines: String = (0..64).map(session).collect();
    let longest = policies::make(&lines).and_then(|made| made.judged()).expect("the notation is sound");
    assert_eq!(longest.len(), 20_933);
    let mut tally = Tally::default();
    for more in [0, 1, 2, 1000, 100_000] {
        let policy = [&longest[..], &vec![6; more]].concat();
        tally.ask(&format!("{more} bytes more than the longest"), &small(), &policy, small().len());
    }
    assert_eq!((tally.applied(), tally.refused_policy(10), tally.by_prefix), (1, 4, 1));
}

/// What the call over tables is asked with: those of a random snapshot, and a policy for it.
fn question(seed: u64) -> Question {
    let (_, snapshot, policy) = made(seed);
    Question { policy, ..Question::of(&read(&snapshot).expect("it was made sound")) }
}

#[test]
fn over_sound_tables() {
    for seed in 0..3000 {
        assert_eq!(question(seed).ask_policy(&format!("policy {seed}")), None);
    }
}

#[test]
fn damaged_policies_over_tables() {
    let mut refused = [0; 13];
    for seed in 0..4000 {
        let mut question = question(seed);
        question.policy = damage_policy(&question.policy, seed);
        refused[question.ask_policy(&format!("damaged policy {seed}")).map_or(0, |no| no as usize)] += 1;
    }
    for number in [0, 2, 3, 4, 5, 6, 8, 9, 10] {
        assert!(refused[number] > 10, "number {number} was hardly ever given: {refused:?}");
    }
}

/// Tables and policy spoilt in several ways, so that the order of the checks is seen.
#[test]
fn over_spoilt_tables() {
    let ways: [Spoil; spoil::ALL.len()] = spoil::ALL.map(|(_, spoil)| spoil);
    let (mut room, mut table, mut of_policy, mut applied) = (0, 0, 0, 0);
    for seed in 0..8000 {
        let mut seeded = Seeded::new(seed);
        let mut question = question(seed);
        if seeded.below(3) == 0 {
            question.policy = damage_policy(&question.policy, seed);
        }
        for _ in 0..seeded.pick(&[1, 1, 2, 3]) {
            seeded.pick(&ways)(&mut seeded, &mut question);
        }
        match question.ask_policy(&format!("policy {seed}, spoilt")) {
            Some(No::Room) => room += 1,
            Some(No::Table) => table += 1,
            Some(_) => of_policy += 1,
            None => applied += 1,
        }
    }
    assert!(room > 500 && table > 1500 && of_policy > 500 && applied > 1500, "{room} {table} {of_policy} {applied}");
}

/// Every table one entry short by itself, with all else sound and with all else bad.
#[test]
fn each_table_one_short() {
    for table in 0..LIMITS.len() {
        let what = format!("table {table} one short");
        let mut question = question(1);
        question.lent[table].pop();
        assert_eq!(question.ask_policy(&what), Some(No::Room));
        question.counts.routers = 0;
        question.policy.clear();
        assert_eq!(question.ask_policy(&what), Some(No::Room));
    }
    let mut question = question(1);
    question.policy.clear();
    assert_eq!(question.ask_policy("no policy"), Some(No::Cut));
    question.counts.routers = 0;
    assert_eq!(question.ask_policy("no routers and no policy"), Some(No::Table));
}
