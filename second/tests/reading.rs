//! Reading: every refusal with its number and place, the order of the checks, and writing what was read.

use second::reader::read;
use second::record;
use second::snapshot::No::{self, *};
use second::{random, text, writer};

/// The bytes of a text of which nothing is judged.
fn bytes(notation: &str) -> Vec<u8> {
    text::make_from_sheet(notation).expect("the notation is sound").bytes
}

fn refusal(bytes: &[u8]) -> (No, usize) {
    let refusal = read(bytes).expect_err("the snapshot is refused");
    (refusal.number, refusal.place)
}

fn refused(notation: &str, number: No, place: usize) {
    assert_eq!(refusal(&bytes(notation)), (number, place), "{notation}");
}

fn accepted(notation: &str) {
    assert!(read(&bytes(notation)).is_ok(), "{notation}");
}

/// One router and one prefix: the first route stands at 14.
fn one(route: &str) -> String {
    format!("router 1\nprefix 10.0.0.0/8\n{route}")
}

/// Routes of one router, with rising peers.
fn routes(count: usize) -> String {
    "route 0\n".repeat(count)
}

#[test]
fn cut() {
    assert_eq!(refusal(&[]), (Cut, 0));
    assert_eq!(refusal(&[1]), (Cut, 0));
    assert_eq!(refusal(&[1, 1]), (Cut, 2));
    assert_eq!(refusal(&[1, 1, 2, 0, 0, 0, 0]), (Cut, 2));
    refused("router 1\nend none", Cut, 8);
    refused("router 1 2\nend none\nraw 04 0a 00 00 00", Cut, 28);
    refused("router 1 2\nend none\nraw 06 00 00 00", Cut, 28);
    refused(&one("raw 05\nend none"), Cut, 14);
}

#[test]
fn every_proper_beginning_is_cut_at_a_record() {
    let whole = bytes("router 1 2\nprefix 10.0.0.0/8\nroute 0\nroute 1\nprefix 10.0.0.0/9\nroute 1");
    let mut start = 0;
    for record in cut_points(&whole) {
        for length in start..record {
            assert_eq!(refusal(&whole[..length]), (Cut, start));
        }
        start = record;
    }
    assert!(read(&whole).is_ok());
}

/// The offset after each record.
fn cut_points(bytes: &[u8]) -> Vec<usize> {
    let lengths = record::cut(bytes).into_iter().map(<[u8]>::len);
    lengths
        .scan(0, |place, length| {
            *place += length;
            Some(*place)
        })
        .collect()
}

#[test]
fn kind() {
    for kind in (0..=0).chain(8..=255) {
        assert_eq!(refusal(&[kind]), (Kind, 0));
        assert_eq!(refusal(&[1, 1, kind]), (Kind, 2));
        assert_eq!(refusal(&[1, 1, 2, 0, 0, 0, 0, 1, kind, 0]), (Kind, 8));
    }
}

#[test]
fn place() {
    for kind in 2..=7 {
        assert_eq!(refusal(&[kind]), (Place, 0));
    }
    for kind in [1, 3, 4, 5, 6, 7] {
        assert_eq!(refusal(&[1, 2, kind]), (Place, 2));
        assert_eq!(refusal(&[1, 2, 2, 0, 0, 0, 0, 1, kind]), (Place, 8));
    }
    for kind in [1, 2, 4, 5, 6, 7] {
        assert_eq!(refusal(&[1, 2, 2, 0, 0, 0, 0, 1, 2, 1, 0, 0, 0, 2, kind]), (Place, 14));
    }
    for kind in ["01", "02", "03", "05", "07"] {
        refused(&format!("router 1\nraw {kind}\nend none"), Place, 8);
        refused(&format!("router 1 2\nraw {kind}\nend none"), Place, 28);
    }
    for kind in ["01", "02", "03"] {
        refused(&one(&format!("raw {kind}\nend none")), Place, 14);
        refused(&one(&format!("route 0\nraw {kind}\nend none")), Place, 38);
    }
}

#[test]
fn field_of_the_network() {
    assert_eq!(refusal(&[1, 0]), (Field, 0));
    assert_eq!(refusal(&[1, 65]), (Field, 0));
    assert_eq!(refusal(&[1, 255]), (Field, 0));
    assert_eq!(refusal(&[1, 64]), (Cut, 2));
    refused("router 0", Field, 2);
    refused("router 1 0", Field, 8);
    assert_eq!(refusal(&[1, 1, 2, 1, 0, 0, 0, 1]), (Field, 2));
    accepted("router 1 2\ndistance default 16777215");
    accepted("router 1 2\ndistance default 0");
    refused("router 1 2\ndistance default 16777216", Field, 14);
    refused("router 1 2\ndistance 1 to 0 16777216", Field, 21);
    let ids = "raw 01 02\nraw 02 00 00 00 00 01\nraw 02 01 00 00 00 02";
    refused(&format!("{ids}\nraw 03 02 01 00 00 00 01"), Field, 14);
    refused(&format!("{ids}\nraw 03 00 02 00 00 00 01"), Field, 14);
}

#[test]
fn field_of_a_prefix() {
    refused("router 1\nprefix 10.0.0.1/24", Field, 8);
    refused("router 1\nprefix 10.0.0.0/33", Field, 8);
    refused("router 1\nprefix 0.0.0.0/255", Field, 8);
    refused("router 1\nprefix 0.0.0.1/0", Field, 8);
    refused("router 1\nprefix 128.0.0.0/0", Field, 8);
    refused("router 1\nprefix 255.255.255.255/31", Field, 8);
    for prefix in ["0.0.0.0/0", "128.0.0.0/1", "255.255.255.254/31", "255.255.255.255/32", "0.0.0.0/32"] {
        accepted(&format!("router 1\nprefix {prefix}"));
    }
}

#[test]
fn field_of_a_route() {
    let refused_values = [
        "route 1",
        "route 255",
        "route 0 as 0",
        "route 0 as 23456",
        "route 0 as 65535",
        "route 0 as 4294967295",
        "route 0 path 0",
        "route 0 origin 3",
        "route 0 origin 255",
        "route 0 mark 2",
        "route 0 med 1 mark 0",
        "route 0 med 16777216 mark 0",
        "route 0 id 0",
        "route 0 peer 0",
    ];
    for route in refused_values {
        refused(&one(route), Field, 14);
    }
    let accepted_values = [
        "route 0 as 1",
        "route 0 as 23455",
        "route 0 as 23457",
        "route 0 as 65534",
        "route 0 as 65536",
        "route 0 as 4294967294",
        "route 0 preference 0",
        "route 0 preference 4294967295",
        "route 0 path 1",
        "route 0 path 65535",
        "route 0 origin incomplete",
        "route 0 med absent",
        "route 0 med 4294967295",
        "route 0 id 255.255.255.255",
        "route 0 peer 255.255.255.255",
    ];
    for route in accepted_values {
        accepted(&one(route));
    }
}

#[test]
fn order() {
    assert_eq!(refusal(&[1, 2, 2, 1, 0, 0, 0, 1]), (Order, 2));
    assert_eq!(refusal(&[1, 2, 2, 0, 0, 0, 0, 1, 2, 0, 0, 0, 0, 2]), (Order, 8));
    let ids = "raw 01 02\nraw 02 00 00 00 00 01\nraw 02 01 00 00 00 02";
    refused(&format!("{ids}\nraw 03 00 00 00 00 00 01"), Order, 14);
    refused(&format!("{ids}\nraw 03 01 00 00 00 00 01"), Order, 14);
    refused(&format!("{ids}\nraw 03 00 01 00 00 00 01\nraw 03 00 01 00 00 00 01"), Order, 21);
    refused("router 1\nprefix 10.0.0.0/8\nprefix 10.0.0.0/8", Order, 14);
    refused("router 1\nprefix 10.0.0.0/9\nprefix 10.0.0.0/8", Order, 14);
    refused("router 1\nprefix 10.0.0.0/8\nprefix 9.0.0.0/9", Order, 14);
    accepted("router 1\nprefix 10.0.0.0/8\nprefix 10.0.0.0/9\nprefix 11.0.0.0/8");
    refused("router 1 2\nprefix 10.0.0.0/8\nroute 0 peer 5\nroute 0 peer 5", Order, 58);
    refused("router 1 2\nprefix 10.0.0.0/8\nroute 0 peer 5\nroute 0 peer 4", Order, 58);
    refused("router 1 2\nprefix 10.0.0.0/8\nroute 1 peer 5\nroute 0 peer 6", Order, 58);
    accepted("router 1 2\nprefix 10.0.0.0/8\nroute 0 peer 5\nroute 1 peer 4");
    accepted("router 1 2\nprefix 10.0.0.0/8\nroute 1 peer 5\nprefix 10.0.0.0/9\nroute 0 peer 4");
}

#[test]
fn distances_come_by_from_then_to() {
    let mut network = "raw 01 03\nraw 02 00 00 00 00 01\nraw 02 01 00 00 00 02\nraw 02 02 00 00 00 03\n".to_string();
    for (due, pair) in ["00 01", "00 02", "01 00", "01 02", "02 00", "02 01"].iter().enumerate() {
        for other in ["00 01", "00 02", "01 00", "01 02", "02 00", "02 01", "00 00", "01 01", "02 02"] {
            let number = if other == *pair { Cut } else { Order };
            let place = 20 + 7 * due + if number == Cut { 7 } else { 0 };
            refused(&format!("{network}raw 03 {other} 00 00 00 01"), number, place);
        }
        network += &format!("raw 03 {pair} 00 00 00 01\n");
    }
    accepted(&format!("{network}raw 06 00 00 00 0a"));
}

#[test]
fn twin() {
    refused("router 1 1", Twin, 8);
    refused("router 1 2 3 2", Twin, 20);
    accepted("router 1 2\nprefix 10.0.0.0/8\nroute 0 id 1 peer 2\nroute 1 id 1 peer 1");
}

#[test]
fn full_of_prefixes() {
    let prefixes: String = (0..64).map(|number| format!("prefix {number}.0.0.0/8\n")).collect();
    accepted(&format!("router 1\n{prefixes}"));
    refused(&format!("router 1\n{prefixes}raw 04\nend none"), Full, 8 + 64 * 6);
    refused(&format!("router 1\n{prefixes}prefix 63.0.0.0/8"), Full, 8 + 64 * 6);
}

#[test]
fn full_of_routes_in_a_prefix() {
    accepted(&one(&routes(256)));
    refused(&one(&routes(257)), Full, 14 + 256 * 24);
    refused(&one(&format!("{}raw 05\nend none", routes(256))), Full, 14 + 256 * 24);
    accepted(&one(&format!("{}prefix 10.0.0.0/9\nroute 0", routes(256))));
}

#[test]
fn full_of_routes_in_all() {
    let prefix = |number: usize| format!("prefix {number}.0.0.0/8\n{}", routes(256));
    let four: String = (0..4).map(prefix).collect();
    accepted(&format!("router 1\n{four}prefix 4.0.0.0/8"));
    let place = 8 + 4 * (6 + 256 * 24) + 6;
    refused(&format!("router 1\n{four}prefix 4.0.0.0/8\nroute 0"), Full, place);
    refused(&format!("router 1\n{four}route 0"), Full, place - 6);
}

#[test]
fn count() {
    accepted("router 1\nend 2");
    refused("router 1\nend 1", Count, 8);
    refused("router 1\nend 3", Count, 8);
    refused("router 1\nend 258", Count, 8);
    refused("router 1\nend 16777218", Count, 8);
}

#[test]
fn tail() {
    for byte in ["00", "01", "06", "07", "08", "ff"] {
        refused(&format!("router 1\nend 2\nraw {byte}"), Tail, 13);
    }
}

#[test]
fn earlier_checks_come_first() {
    refused("router 1\nend 3\nraw 00", Count, 8);
    assert_eq!(refusal(&[1, 2, 2, 0, 0, 0, 0, 1, 2, 2, 0, 0, 0, 1]), (Field, 8)); // Index n and twin.
    assert_eq!(refusal(&[1, 2, 2, 0, 0, 0, 0, 1, 2, 0, 0, 0, 0, 1]), (Order, 8)); // Not due and twin.
    refused("router 1\nprefix 10.0.0.0/8\nprefix 9.0.0.1/8", Field, 14);
    refused(&one("route 0 peer 5\nroute 0 peer 4 as 0"), Field, 38);
    refused("router 1 2\nraw 06\nend none", Cut, 28);
}

#[test]
fn the_longest_snapshot_has_55623_bytes() {
    let mut longest = writer::write(&random::random(1, "limits").expect("a kind"));
    assert_eq!(longest.len(), 55_623);
    assert!(read(&longest).is_ok());
    longest.push(0);
    assert_eq!(refusal(&longest), (Tail, 55_623));
}

#[test]
fn what_is_written_reads_back_the_same() {
    for seed in 0..300 {
        for kind in random::KINDS.iter().take(if seed < 3 { random::KINDS.len() } else { 2 }) {
            for kind in [kind.to_string(), format!("mixed-{kind}")] {
                let snapshot = random::random(seed, &kind).expect("a kind");
                let bytes = writer::write(&snapshot);
                let back = read(&bytes).expect("a written snapshot is sound");
                assert_eq!(back, snapshot);
                assert_eq!(writer::write(&back), bytes);
            }
        }
    }
}
