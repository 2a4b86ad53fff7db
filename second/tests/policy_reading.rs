//! Reading a policy: every refusal with its number and place, the order of the checks, the limits, and writing what was
//! read. What each input must bring was worked out by hand from document 02, request a.

use second::policy::reader::read;
use second::policy::record::write;
use second::policy::{random, text};
use second::snapshot::No::{self, *};
use second::{damage, random as snapshots};

/// A session of router 0 with 192.0.2.1.
const SESSION: [u8; 6] = [1, 0, 192, 0, 2, 1];

/// The bytes of a text of which nothing is judged.
fn bytes(notation: &str) -> Vec<u8> {
    text::make(notation).expect("the notation is sound").bytes
}

fn refusal(bytes: &[u8]) -> (No, usize) {
    let refusal = read(bytes).expect_err("the policy is refused");
    (refusal.number, refusal.place)
}

fn refused(notation: &str, number: No, place: usize) {
    assert_eq!(refusal(&bytes(notation)), (number, place), "{notation}");
}

fn accepted(notation: &str) {
    assert!(read(&bytes(notation)).is_ok(), "{notation}");
}

/// A session, then these lines: the first of them stands at 6.
fn one(lines: &str) -> String {
    format!("session 0 peer 192.0.2.1\n{lines}")
}

/// A session with so many clauses of four bytes' body.
fn clauses(count: usize) -> String {
    one(&"all preference 1\n".repeat(count))
}

/// So many sessions without clauses.
fn sessions(count: usize) -> String {
    (1..=count).map(|peer| format!("session 3 peer {peer}\n")).collect()
}

#[test]
fn cut() {
    assert_eq!(refusal(&[]), (Cut, 0));
    assert_eq!(refusal(&[1]), (Cut, 0));
    assert_eq!(refusal(&SESSION[..5]), (Cut, 0));
    assert_eq!(refusal(&SESSION), (Cut, 6));
    assert_eq!(refusal(&[6]), (Cut, 0));
    assert_eq!(refusal(&[6, 0, 0, 0]), (Cut, 0));
    refused(&one("raw 02 c6 33 64 00 18 00 00 00\nend none"), Cut, 6);
    refused(&one("raw 03 00 00 fd e9 00 00 00\nend none"), Cut, 6);
    refused(&one("raw 04 00 00 00\nend none"), Cut, 6);
    refused(&one("med 0\nend none"), Cut, 7);
    refused(&one("raw 06 00 00 00\nend none"), Cut, 6);
}

/// The worked sample of 42 bytes: its records stand at 0, 6, 7, 17, 26, 32 and 37.
#[test]
fn every_proper_beginning_is_cut_at_a_record() {
    let whole = bytes(&one("med 0\nprefix 198.51.100.0/24 preference 200\nas 65001 preference 150\n\
                            session 1 peer 192.0.2.5\nall preference 90"));
    for (start, end) in [(0, 6), (6, 7), (7, 17), (17, 26), (26, 32), (32, 37), (37, 42)] {
        for length in start..end {
            assert_eq!(refusal(&whole[..length]), (Cut, start));
        }
    }
    assert_eq!(whole.len(), 42);
    assert!(read(&whole).is_ok());
}

#[test]
fn kind() {
    for kind in (0..=0).chain(7..=255) {
        assert_eq!(refusal(&[kind]), (Kind, 0));
        assert_eq!(refusal(&[&SESSION[..], &[kind]].concat()), (Kind, 6));
        assert_eq!(refusal(&[&SESSION[..], &[5, kind, 0]].concat()), (Kind, 7));
    }
}

#[test]
fn place() {
    for kind in 2..=5 {
        assert_eq!(refusal(&[kind]), (Place, 0));
    }
    refused(&one("med 0\nmed 0"), Place, 7);
    refused(&one("all preference 1\nmed 0"), Place, 11);
    refused(&one("as 1 preference 1\nmed 0"), Place, 15);
    refused(&one("prefix 0.0.0.0/0 preference 1\nmed 0"), Place, 16);
    refused(&one("med 0\nall preference 1\nmed 0"), Place, 12);
    accepted(&one("med 0\nsession 0 peer 192.0.2.2\nmed 0\nsession 1 peer 192.0.2.1\nmed 0"));
}

#[test]
fn field_of_a_session() {
    refused("session 0 peer 0", Field, 0);
    refused("session 255 peer 0", Field, 0);
    for session in ["0 peer 1", "255 peer 1", "64 peer 255.255.255.255"] {
        accepted(&format!("session {session}"));
    }
}

#[test]
fn field_of_a_prefix_clause() {
    for prefix in ["10.0.0.1/24", "10.0.0.0/33", "0.0.0.0/255", "0.0.0.1/0", "128.0.0.0/0", "255.255.255.255/31"] {
        refused(&one(&format!("prefix {prefix} preference 1")), Field, 6);
    }
    for prefix in ["0.0.0.0/0", "128.0.0.0/1", "255.255.255.254/31", "255.255.255.255/32", "0.0.0.0/32"] {
        accepted(&one(&format!("prefix {prefix} preference 1")));
    }
}

#[test]
fn field_of_a_clause_for_an_as() {
    for neighbour_as in ["0", "4294967295"] {
        refused(&one(&format!("as {neighbour_as} preference 1")), Field, 6);
    }
    for neighbour_as in ["1", "23456", "65534", "65535", "65536", "4294967294"] {
        accepted(&one(&format!("as {neighbour_as} preference 1")));
    }
}

#[test]
fn any_preference_may_be_given() {
    for preference in ["0", "4294967295"] {
        accepted(&one(&format!("prefix 0.0.0.0/0 preference {preference}")));
        accepted(&one(&format!("as 1 preference {preference}")));
        accepted(&one(&format!("all preference {preference}")));
    }
}

/// Sessions rise by router, then peer address; clauses stand in any order, also twice and behind one that fits all.
#[test]
fn order() {
    refused("session 1 peer 5\nsession 1 peer 5", Order, 6);
    refused("session 1 peer 5\nsession 1 peer 4", Order, 6);
    refused("session 1 peer 5\nsession 0 peer 6", Order, 6);
    refused("session 1 peer 5\nall preference 1\nsession 1 peer 5", Order, 11);
    refused("session 0 peer 128.0.0.0\nsession 0 peer 1", Order, 6);
    accepted("session 0 peer 5\nsession 0 peer 6\nsession 1 peer 4\nsession 255 peer 1");
    accepted(&one("all preference 1\nall preference 1\nas 2 preference 1\nas 1 preference 1\nas 1 preference 2"));
    accepted(&one("prefix 10.0.0.0/9 preference 1\nprefix 10.0.0.0/8 preference 1\nprefix 10.0.0.0/8 preference 1"));
}

#[test]
fn full_of_sessions() {
    accepted(&sessions(64));
    refused(&sessions(65), Full, 64 * 6);
    refused(&format!("{}raw 01\nend none", sessions(64)), Full, 64 * 6);
    refused(&format!("{}session 3 peer 64", sessions(64)), Full, 64 * 6);
}

#[test]
fn full_of_clauses() {
    accepted(&clauses(32));
    for (kind, line) in ["raw 02", "raw 03", "raw 04"].into_iter().zip([
        "prefix 10.0.0.1/24 preference 1",
        "as 0 preference 1",
        "all preference 1",
    ]) {
        refused(&format!("{}{kind}\nend none", clauses(32)), Full, 6 + 32 * 5);
        refused(&format!("{}{line}", clauses(32)), Full, 6 + 32 * 5);
    }
    accepted(&format!("{}session 0 peer 192.0.2.2\n{}", clauses(32), "all preference 1\n".repeat(32)));
}

/// Kind 5 is no clause: 32 stand behind it, and behind these it is out of its place.
#[test]
fn the_med_is_not_among_the_32() {
    let with_med = one(&format!("med 0\n{}", "as 7 preference 1\n".repeat(32)));
    accepted(&with_med);
    refused(&format!("{with_med}as 7 preference 1"), Full, 7 + 32 * 9);
    refused(&format!("{}med 0", clauses(32)), Place, 6 + 32 * 5);
}

#[test]
fn count() {
    accepted("end 0");
    refused("end 1", Count, 0);
    accepted(&one("end 1"));
    accepted(&one("med 0\nend 2"));
    refused(&one("med 0\nend 1"), Count, 7);
    refused(&one("end 0"), Count, 6);
    refused(&one("end 2"), Count, 6);
    refused(&one("end 257"), Count, 6);
    refused(&one("end 16777217"), Count, 6);
}

#[test]
fn tail() {
    for byte in ["00", "01", "06", "07", "ff"] {
        refused(&format!("end 0\nraw {byte}"), Tail, 5);
        refused(&one(&format!("end 1\nraw {byte}")), Tail, 11);
    }
}

#[test]
fn earlier_checks_come_first() {
    refused("end 1\nraw 00", Count, 0);
    refused("session 1 peer 5\nsession 0 peer 0", Field, 6); // Peer 0 and falling.
    refused("session 1 peer 5\nraw 01 00 00 00 00\nend none", Cut, 6); // Cut and falling.
    refused(&one("as 0 preference 1\nend 9"), Field, 6);
    assert_eq!(refusal(&[5, 0]), (Place, 0)); // Out of place before an unknown kind.
    assert_eq!(refusal(&[2]), (Place, 0)); // Out of place and cut.
}

#[test]
fn a_session_needs_no_clause_and_a_policy_no_session() {
    assert!(read(&[6, 0, 0, 0, 0]).expect("the end record alone").sessions.is_empty());
    let policy = read(&[1, 255, 0, 0, 0, 1, 6, 0, 0, 0, 1]).expect("a session alone");
    assert_eq!((policy.sessions[0].router, policy.sessions[0].peer), (255, 1));
    assert!(policy.sessions[0].clauses.is_empty() && !policy.sessions[0].med_zero);
}

#[test]
fn the_longest_policy_has_20933_bytes() {
    let clauses = "prefix 10.0.0.0/8 preference 1\n".repeat(32);
    let session = |peer: usize| format!("session 9 peer {peer}\nmed 0\n{clauses}");
    let mut longest = bytes(&(1..=64).map(session).collect::<String>());
    assert_eq!(longest.len(), 20_933);
    assert!(read(&longest).is_ok());
    longest.push(0);
    assert_eq!(refusal(&longest), (Tail, 20_933));
}

#[test]
fn what_is_written_reads_back_the_same() {
    for seed in 0..600 {
        let snapshot = snapshots::random(seed, ["small", "mixed-open", "sessions"][seed as usize % 3]).expect("a kind");
        let kind = random::KINDS[seed as usize / 3 % 3];
        let policy = random::random(seed, kind, &snapshot).expect("a kind");
        let bytes = write(&policy);
        let back = read(&bytes).expect("a written policy is sound");
        assert_eq!(back, policy);
        assert_eq!(write(&back), bytes);
    }
}

#[test]
fn random_policies_are_varied_and_the_same_for_the_same_seed() {
    let snapshot = snapshots::random(1, "sessions").expect("a kind");
    let sizes = |seed: u64, kind: &str| {
        let policy = random::random(seed, kind, &snapshot).expect("a kind");
        assert_eq!(policy, random::random(seed, kind, &snapshot).expect("a kind"));
        (policy.sessions.len(), policy.sessions.iter().map(|session| session.clauses.len()).sum::<usize>())
    };
    assert_eq!(sizes(1, "limits"), (64, 2048));
    assert_eq!(sizes(1, "typical"), (16, 64));
    assert!((0..50).any(|seed| sizes(seed, "mixed").0 == 0) && (0..50).any(|seed| sizes(seed, "mixed").0 > 40));
    assert!(random::random(1, "unheard-of", &snapshot).is_none());
}

#[test]
fn damages_reach_every_check_of_the_reader() {
    let mut seen = [0; 13];
    for seed in 0..4000 {
        let snapshot = snapshots::random(seed, "small").expect("a kind");
        let kind = if seed % 10 == 0 { "limits" } else { "mixed" };
        let policy = random::random(seed, kind, &snapshot).expect("a kind");
        let bytes = damage::damage_policy(&write(&policy), seed);
        assert_eq!(bytes, damage::damage_policy(&write(&policy), seed));
        seen[read(&bytes).map_or_else(|refusal| refusal.number as usize, |_| 0)] += 1;
    }
    for number in [Cut, Kind, Place, Field, Order, Full, Count, Tail] {
        assert!(seen[number as usize] > 5, "{number:?} was hardly ever given: {seen:?}");
    }
    assert!(seen[0] > 5, "hardly any damaged copy was still sound");
    assert_eq!(seen[Room as usize] + seen[Twin as usize] + seen[Table as usize] + seen[NoPrefix as usize], 0);
}
