//! Random snapshots and damages: sound or varied as they should be, and the same for the same seed.

use second::reader::read;
use second::record::{cut, number};
use second::snapshot::No;
use second::{damage, random, writer};
use std::collections::BTreeSet;

#[test]
fn kinds_have_the_sizes_they_promise() {
    let sizes = |kind: &str| {
        let snapshot = random::random(5, kind).expect("a kind");
        let most = snapshot.prefixes.iter().map(|prefix| prefix.routes.len()).max().unwrap_or(0);
        (snapshot.ids.len(), snapshot.prefixes.len(), most, snapshot.routes())
    };
    assert_eq!(sizes("wide"), (64, 4, 256, 1024));
    assert_eq!(sizes("typical"), (64, 64, 16, 1024));
    assert_eq!(sizes("tied"), (64, 4, 256, 1024));
    assert_eq!(sizes("limits"), (64, 64, 256, 1024));
    assert_eq!(sizes("chain-early"), (64, 4, 256, 1024));
    assert_eq!(sizes("chain-late"), (64, 4, 256, 1024));
    assert_eq!(sizes("sessions"), (64, 64, 16, 1024));
    assert_eq!(sizes("mixed-typical"), (64, 64, 16, 1024));
}

/// Names of both lengths in most prefixes, few enough that routes of one AS meet, and the same in their last two bytes.
#[test]
fn mixed_snapshots_mix_ases_of_both_lengths() {
    let (mut both, mut alike, mut meeting) = (0, 0, 0);
    for seed in 0..300 {
        let snapshot = random::random(seed, "mixed-open").expect("a kind");
        for prefix in &snapshot.prefixes {
            let ases: BTreeSet<u32> = prefix.routes.iter().map(|route| route.neighbour_as).collect();
            let ends: BTreeSet<u32> = ases.iter().map(|neighbour_as| neighbour_as & 0xffff).collect();
            meeting += usize::from(ases.len() < prefix.routes.len());
            both += usize::from(ases.first() < Some(&65_536) && ases.last() > Some(&65_535));
            alike += usize::from(ends.len() < ases.len());
        }
    }
    assert!(both > 300 && alike > 300 && meeting > 300, "{both} with both, {alike} alike, {meeting} meeting");
}

#[test]
fn all_routes_at_the_limits_need_kind_7() {
    let snapshot = random::random(5, "limits").expect("a kind");
    let ases = || snapshot.prefixes.iter().flat_map(|prefix| &prefix.routes).map(|route| route.neighbour_as);
    assert!(ases().all(|neighbour_as| neighbour_as > 65_535));
    assert_eq!(ases().max(), Some(4_294_967_294));
}

/// A chain's ASes rise from any number on: with this seed from 23,444, and 23456 is not among them.
#[test]
fn chains_leave_out_23456() {
    let snapshot = random::random(2926, "chain-early").expect("a kind");
    let ases: BTreeSet<u32> = snapshot.prefixes[1].routes.iter().map(|route| route.neighbour_as).collect();
    assert_eq!(Vec::from_iter(ases), Vec::from_iter((23_444..=23_460).filter(|&number| number != 23_456)));
}

#[test]
fn the_routes_of_sessions_belong_to_64_of_them() {
    let snapshot = random::random(5, "sessions").expect("a kind");
    let routes = snapshot.prefixes.iter().flat_map(|prefix| &prefix.routes);
    let mut sessions: Vec<(u8, u32)> = routes.map(|route| (route.router, route.peer)).collect();
    sessions.sort();
    sessions.dedup();
    assert_eq!(sessions.len(), 64);
}

#[test]
fn the_same_seed_gives_the_same_bytes() {
    for kind in random::KINDS {
        let made = || writer::write(&random::random(11, &format!("mixed-{kind}")).expect("a kind"));
        assert_eq!(made(), made());
        assert_eq!(damage::damage(&made(), 3), damage::damage(&made(), 3));
    }
    assert_ne!(random::random(1, "typical"), random::random(2, "typical"));
    for unknown in ["unheard-of", "mixed-unheard-of", "mixed-", "mixed-mixed-small"] {
        assert!(random::random(1, unknown).is_none(), "{unknown}");
    }
}

#[test]
fn damages_reach_every_check_of_the_reader() {
    let mut seen = [0; 13];
    for seed in 0..4000 {
        let kind = if seed % 10 == 0 { "limits" } else { ["open", "mixed-open"][seed as usize % 2] };
        let bytes = damage::damage(&writer::write(&random::random(seed, kind).expect("a kind")), seed);
        let number = read(&bytes).map_or_else(|refusal| refusal.number as usize, |_| 0);
        seen[number] += 1;
    }
    let numbers = [No::Cut, No::Kind, No::Place, No::Field, No::Order, No::Twin, No::Full, No::Count, No::Tail];
    for number in numbers {
        assert!(seen[number as usize] > 5, "{number:?} was hardly ever given: {seen:?}");
    }
    assert!(seen[0] > 5, "hardly any damaged copy was still sound");
}

/// An AS at each border, in a record of each kind that can hold it.
#[test]
fn damages_reach_every_border_of_the_as() {
    let mut seen = BTreeSet::new();
    for seed in 0..4000 {
        let damaged = damage::damage(&writer::write(&random::random(seed, "mixed-open").expect("a kind")), seed);
        let routes = cut(&damaged).into_iter().filter(|record| matches!((record[0], record.len()), (5, 24) | (7, 26)));
        seen.extend(routes.map(|record| (record[0], number(&record[2..record.len() - 20]))));
    }
    for border in [0, 1, 23_455, 23_456, 23_457, 65_534, 65_535] {
        assert!(seen.contains(&(5, border)) && seen.contains(&(7, border)), "{border}");
    }
    for border in [65_536, 4_294_967_294, 4_294_967_295] {
        assert!(seen.contains(&(7, border)), "{border}");
    }
}
