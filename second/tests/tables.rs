//! The calls over lent tables: what is used, what is TABLE, and the order of the checks. The tables are those of two
//! routers with two prefixes, of one and of two routes; what each alteration must bring was worked out by hand.

use second::snapshot::No;
use second::tables::*;
use second::text;

/// What unused entries hold; hardly any value of a snapshot would be allowed to.
const UNUSED: u32 = u32::MAX;

const TEXT: &str = "router 1 2\ndistances 0 - 5\ndistances 1 6 -
prefix 10.0.0.0/8\nroute 1 as 7 path 3 origin egp med absent preference 8 id 9 peer 10
prefix 10.0.0.0/9\nroute 0 as 1 path 2 id 3 peer 4\nroute 0 as 2 path 2 med 4 id 4 peer 5";

fn bytes() -> Vec<u8> {
    text::make(TEXT).and_then(|made| made.judged()).expect("the notation is sound")
}

fn unused() -> Lent {
    LIMITS.map(|limit| vec![UNUSED; limit])
}

fn lent() -> (Counts, Lent) {
    let mut lent = unused();
    let counts = read(&bytes(), &mut lent).expect("the snapshot is sound");
    (counts, lent)
}

fn is_table(counts: Counts, lent: &Lent) -> bool {
    let written = write(counts, lent, &mut [0; 1000]);
    let forecast = forecast(counts, lent, 64, &mut [0; 64], &mut [0; 64]);
    match (written, forecast) {
        (Err(No::Table), Err(No::Table)) => true,
        (Ok(_), Err(No::NoPrefix)) => false,
        other => panic!("{other:?}"),
    }
}

#[test]
fn reading_fills_the_used_rows_only() {
    let (counts, lent) = lent();
    assert_eq!(counts, Counts { routers: 2, prefixes: 2, routes: 3 });
    let used: [&[u32]; 14] = [
        &[1, 2],
        &[0, 5],
        &[0x0a00_0000; 2],
        &[8, 9],
        &[1, 2],
        &[1, 0, 0],
        &[7, 1, 2],
        &[8, 100, 100],
        &[3, 2, 2],
        &[1, 0, 0],
        &[0, 1, 1],
        &[0, 0, 4],
        &[9, 3, 4],
        &[10, 4, 5],
    ];
    let mut wanted = unused();
    for (table, used) in wanted.iter_mut().zip(used) {
        table[..used.len()].copy_from_slice(used);
    }
    wanted[DISTANCES][64..66].copy_from_slice(&[6, 0]);
    assert!(lent == wanted);
}

#[test]
fn writing_gives_the_bytes_that_were_read() {
    let (counts, lent) = lent();
    let length = bytes().len();
    let mut out = vec![0xee; length + 3];
    assert_eq!(write(counts, &lent, &mut out), Ok(length));
    assert!(out[..length] == bytes() && out[length..] == [0xee; 3]);
    assert_eq!(write(counts, &lent, &mut out[1..length]), Err(No::Room));
    assert_eq!(write(counts, &lent, &mut out[..length]), Ok(length));
}

/// The second prefix's second route, whose AS is the only one to need four bytes.
#[test]
fn writing_takes_kind_7_where_the_as_needs_it() {
    let (counts, mut lent) = lent();
    lent[NEIGHBOUR_AS][2] = 0x0001_0002;
    let mut wanted = bytes();
    let route = wanted.len() - 5 - 24;
    assert_eq!(wanted[route..route + 4], [5, 0, 0, 2]);
    wanted.splice(route..route + 4, [7, 0, 0, 1, 0, 2]);
    let mut out = vec![0xee; wanted.len() + 1];
    assert_eq!(write(counts, &lent, &mut out), Ok(wanted.len()));
    assert_eq!(out, [&wanted[..], &[0xee]].concat());
    let mut again = unused();
    assert_eq!(read(&wanted, &mut again), Ok(counts));
    assert!(again == lent);
    assert_eq!(write(counts, &lent, &mut out[..wanted.len() - 1]), Err(No::Room));
}

/// Router 0 takes the lower neighbour id of its two, router 1 follows.
#[test]
fn a_forecast_fills_the_entries_of_the_routers_only() {
    let (counts, lent) = lent();
    let (mut early, mut late) = ([7; 65], [8; 64]);
    assert_eq!(forecast(counts, &lent, 1, &mut early, &mut late), Ok(0));
    assert!(early[..2] == [0, 0] && late[..2] == [0, 0]);
    assert!(early[2..] == [7; 63] && late[2..] == [8; 62]);
}

#[test]
fn a_used_value_out_of_range_is_table() {
    let (counts, sound) = lent();
    assert!(!is_table(counts, &sound));
    let route = |field: usize| OF_ROUTE + field;
    for (table, entry, value, refused) in [
        (IDS, 1, 0, true),
        (IDS, 1, 1, true),
        (IDS, 1, 3, false),
        (DISTANCES, 1, 16_777_215, false),
        (DISTANCES, 1, 16_777_216, true),
        (DISTANCES, 0, 1, true),
        (DISTANCES, 65, 1, true),
        (ADDRESS, 0, 0x0a00_0001, true),
        (ADDRESS, 1, 0x0900_0000, true),
        (LENGTH, 1, 8, true),
        (LENGTH, 1, 7, true),
        (LENGTH, 1, 32, false),
        (LENGTH, 1, 33, true),
        (LENGTH, 1, 256 + 9, true),
        (OF_PREFIX, 1, 1, true),
        (OF_PREFIX, 1, 3, true),
        (OF_PREFIX, 1, u32::MAX, true),
        (route(0), 0, 2, true),
        (route(0), 0, 256, true),
        (route(0), 1, 1, true),
        (route(1), 0, 0, true),
        (route(1), 0, 1, false),
        (route(1), 0, 23_455, false),
        (route(1), 0, 23_456, true),
        (route(1), 0, 23_457, false),
        (route(1), 0, 65_534, false),
        (route(1), 0, 65_535, true),
        (route(1), 0, 65_536, false),
        (route(1), 0, 65_536 + 7, false),
        (route(1), 0, u32::MAX - 1, false),
        (route(1), 0, u32::MAX, true),
        (route(2), 0, 0, false),
        (route(2), 0, u32::MAX, false),
        (route(3), 0, 0, true),
        (route(3), 0, 65_535, false),
        (route(3), 0, 65_536 + 3, true),
        (route(4), 0, 2, false),
        (route(4), 0, 3, true),
        (route(4), 0, 257, true),
        (route(5), 0, 1, false),
        (route(5), 0, 2, true),
        (route(5), 0, 256, true),
        (route(5), 2, 0, true),
        (route(6), 0, 1, true),
        (route(6), 2, u32::MAX, false),
        (route(7), 0, 0, true),
        (PEER, 0, 0, true),
        (PEER, 1, 5, true),
        (PEER, 1, 6, true),
        (PEER, 2, u32::MAX, false),
    ] {
        let mut lent = sound.clone();
        lent[table][entry] = value;
        assert_eq!(is_table(counts, &lent), refused, "table {table}, entry {entry} is {value}");
    }
}

#[test]
fn unused_values_are_not_looked_at() {
    let (counts, sound) = lent();
    for (table, entry) in
        [(IDS, 2), (DISTANCES, 2), (DISTANCES, 66), (DISTANCES, 128), (ADDRESS, 2), (OF_PREFIX, 2), (PEER, 3)]
    {
        for value in [0, 1, 256, u32::MAX] {
            let mut lent = sound.clone();
            lent[table][entry] = value;
            assert!(!is_table(counts, &lent), "table {table}, entry {entry} is {value}");
        }
    }
}

#[test]
fn counts_that_no_snapshot_has_are_table() {
    let (counts, lent) = lent();
    for routers in [0, 1, 3, 64, 65, 256 + 2, u32::MAX] {
        assert!(is_table(Counts { routers, ..counts }, &lent), "{routers} routers");
    }
    for prefixes in [0, 1, 3, 64, 65, 256 + 2, u32::MAX] {
        assert!(is_table(Counts { prefixes, ..counts }, &lent), "{prefixes} prefixes");
    }
    for routes in [0, 2, 4, 1024, 1025, 65_536 + 3, u32::MAX] {
        assert!(is_table(Counts { routes, ..counts }, &lent), "{routes} routes");
    }
    assert!(!is_table(Counts { prefixes: 0, routes: 0, ..counts }, &lent));
    assert!(!is_table(Counts { prefixes: 1, routes: 1, ..counts }, &lent));
}

#[test]
fn a_short_table_is_room_before_all_else() {
    let (counts, sound) = lent();
    let bad = Counts { routers: 0, ..counts };
    for table in 0..14 {
        let mut lent = sound.clone();
        lent[table].pop();
        assert_eq!(read(&[], &mut lent), Err(No::Room));
        assert_eq!(write(bad, &lent, &mut []), Err(No::Room));
        assert_eq!(forecast(bad, &lent, 99, &mut [0; 64], &mut [0; 64]), Err(No::Room));
        lent[table].extend([0, 0]);
        assert!(!is_table(counts, &lent));
    }
}

#[test]
fn refusals_come_in_order() {
    let (counts, lent) = lent();
    let bad = Counts { routers: 0, ..counts };
    assert_eq!(read(&[], &mut lent.clone()), Err(No::Cut));
    assert_eq!(write(bad, &lent, &mut []), Err(No::Table));
    assert_eq!(write(counts, &lent, &mut []), Err(No::Room));
    assert_eq!(forecast(bad, &lent, 2, &mut [0; 63], &mut [0; 64]), Err(No::Room));
    assert_eq!(forecast(bad, &lent, 2, &mut [0; 64], &mut [0; 63]), Err(No::Room));
    assert_eq!(forecast(bad, &lent, 2, &mut [0; 64], &mut [0; 64]), Err(No::Table));
    assert_eq!(forecast(counts, &lent, 2, &mut [0; 64], &mut [0; 64]), Err(No::NoPrefix));
}
