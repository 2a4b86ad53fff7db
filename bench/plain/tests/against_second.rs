//! The baseline against the independent second program, on random and damaged snapshots.

use plain::{forecast, page, policy, read, write, Contest, Counts, Lent, Refusal, LONGEST, NONE};
use second::policy as policies;
use second::seed::Seeded;
use second::snapshot::{self, Snapshot};
use second::{damage, print, random, tables, text, writer};

/// What the tables hold before anything is read into them.
const BEFORE: u32 = 0xeeee_eeee;

fn snapshot(seed: u64, kind: &str) -> Snapshot {
    random::random(seed, kind).expect("a kind")
}

fn some_snapshot(seed: u64) -> Snapshot {
    snapshot(seed, &random::some_kind(seed))
}

fn printed(input: &[u8]) -> String {
    let mut out = Vec::new();
    page(input, &mut Lent::filled(BEFORE).tables(), &mut out).expect("a vector takes everything");
    String::from_utf8(out).expect("the page is text")
}

#[test]
fn pages_are_the_same() {
    for seed in 0..1000 {
        let bytes = writer::write(&some_snapshot(seed));
        assert_eq!(printed(&bytes), print::printed(&bytes), "seed {seed}");
    }
}

#[test]
fn damaged_snapshots_get_the_same_answer() {
    for seed in 0..4000 {
        let bytes = damage::damage(&writer::write(&some_snapshot(seed)), seed);
        assert_eq!(printed(&bytes), print::printed(&bytes), "seed {seed}");
    }
}

#[test]
fn one_more_than_the_limit_is_full() {
    let prefixes = |count: usize, routes: usize| -> String {
        (0..count).map(|number| format!("prefix {number}.0.0.0/8\n{}", "route 0\n".repeat(routes))).collect()
    };
    for (body, place) in [
        (prefixes(65, 0), 8 + 64 * 6),
        (prefixes(1, 257), 14 + 256 * 24),
        (prefixes(1, 256) + "route 0 as 65536\n", 14 + 256 * 24),
        (prefixes(1, 255) + "route 0 as 65536\nroute 0\n", 14 + 255 * 24 + 26),
        (prefixes(4, 256) + "prefix 4.0.0.0/8\nroute 0\n", 8 + 5 * 6 + 1024 * 24),
        (prefixes(4, 256) + "prefix 4.0.0.0/8\nroute 0 as 65536\n", 8 + 5 * 6 + 1024 * 24),
    ] {
        let bytes = text::make_from_sheet(&format!("router 1\n{body}")).expect("the notation is sound").bytes;
        assert_eq!(printed(&bytes), format!("refused 8 {place}\n"));
    }
}

/// One router and one route, whose record stands at 14: kind, router, AS in hexadecimal, and all fields behind it.
fn with_as(kind: u8, neighbour_as: &str) -> String {
    let route = format!("raw {kind:02x} 00 {neighbour_as} 00 00 00 64 00 02 00 01 00 00 00 00 00 00 00 01 c0 00 02 01");
    let made = text::make_from_sheet(&format!("router 1\nprefix 10.0.0.0/8\n{route}"));
    printed(&made.expect("the notation is sound").bytes)
}

/// 23456 is 5b a0 in hexadecimal.
#[test]
fn ases_at_the_borders() {
    for (kind, neighbour_as, sound) in [
        (5, "00 00", false),
        (5, "00 01", true),
        (5, "5b 9f", true),
        (5, "5b a0", false),
        (5, "5b a1", true),
        (5, "ff fe", true),
        (5, "ff ff", false),
        (7, "00 00 00 00", false),
        (7, "00 00 00 01", false),
        (7, "00 00 5b a0", false),
        (7, "00 00 ff fe", false),
        (7, "00 00 ff ff", false),
        (7, "00 01 00 00", true),
        (7, "00 01 5b a0", true),
        (7, "00 01 ff ff", true),
        (7, "ff ff ff fe", true),
        (7, "ff ff ff ff", false),
    ] {
        let page = if sound { "forecast 1 1\nprefix 10.0.0.0/8 settled\nrouter 0 own 0\n" } else { "refused 5 14\n" };
        assert_eq!(with_as(kind, neighbour_as), page, "kind {kind}, AS {neighbour_as}");
    }
}

#[test]
fn the_longest_snapshot() {
    let mut longest = writer::write(&snapshot(1, "limits"));
    assert_eq!(longest.len(), LONGEST);
    assert!(printed(&longest).starts_with("forecast 64 64\n"));
    longest.push(7);
    assert_eq!(printed(&longest), "refused 10 55623\n");
}

/// The tables as the second program's snapshot says they must be, with `BEFORE` in every unused row.
fn wanted_tables(snapshot: &Snapshot) -> Lent {
    let mut lent = Lent::filled(BEFORE);
    tables::fill(snapshot, &mut lent.0);
    lent
}

fn counts(snapshot: &Snapshot) -> Counts {
    Counts { routers: snapshot.ids.len(), prefixes: snapshot.prefixes.len(), routes: snapshot.routes() }
}

#[test]
fn reading_fills_the_used_rows_only() {
    for seed in 0..400 {
        let snapshot = some_snapshot(seed);
        let mut lent = Lent::filled(BEFORE);
        let read = read(&writer::write(&snapshot), &mut lent.tables());
        assert_eq!(read, Ok(counts(&snapshot)));
        assert!(lent.0 == wanted_tables(&snapshot).0, "seed {seed}");
    }
}

#[test]
fn a_refusal_leaves_the_tables() {
    for seed in 0..1000 {
        let bytes = damage::damage(&writer::write(&some_snapshot(seed)), seed);
        let mut lent = Lent::filled(BEFORE);
        if read(&bytes, &mut lent.tables()).is_err() {
            assert!(lent.0 == Lent::filled(BEFORE).0, "seed {seed}");
        }
    }
}

#[test]
fn a_short_table_is_room() {
    let snapshot = snapshot(1, "open");
    let bytes = writer::write(&snapshot);
    for table in 0..14 {
        let mut lent = wanted_tables(&snapshot);
        lent.0[table].pop();
        assert_eq!(read(&[], &mut lent.tables()), Err((1, 0)));
        assert_eq!(write(counts(&snapshot), &lent.tables(), &mut []), Err((1, 0)));
        assert_eq!(forecast(counts(&snapshot), &lent.tables(), 99, &mut [0; 64], &mut [0; 64]), Err((1, 0)));
        let mut lent = Lent::filled(BEFORE);
        lent.0[table].push(BEFORE);
        assert_eq!(read(&bytes, &mut lent.tables()), Ok(counts(&snapshot)));
    }
}

#[test]
fn writing_gives_the_bytes_that_were_read() {
    for seed in 0..400 {
        let snapshot = some_snapshot(seed);
        let bytes = writer::write(&snapshot);
        let mut lent = wanted_tables(&snapshot);
        let mut out = vec![0xee; bytes.len() + 3];
        assert_eq!(write(counts(&snapshot), &lent.tables(), &mut out), Ok(bytes.len()));
        assert!(out[..bytes.len()] == bytes && out[bytes.len()..] == [0xee; 3]);
        let mut short = vec![0xee; bytes.len() - 1];
        assert_eq!(write(counts(&snapshot), &lent.tables(), &mut short), Err((1, 0)));
        assert!(short.iter().all(|&byte| byte == 0xee));
    }
}

/// Whether some snapshot reads into these tables.
fn sound(counts: Counts, lent: &Lent) -> bool {
    let [routers, prefixes, routes] = [counts.routers, counts.prefixes, counts.routes].map(|count| count as u32);
    tables::snapshot(tables::Counts { routers, prefixes, routes }, &lent.0).is_some()
}

/// A value somewhere in the tables, or a count, altered.
fn altered(seeded: &mut Seeded, counts: &mut Counts, lent: &mut Lent) {
    const VALUES: [u32; 16] = {
        let last = u32::MAX;
        [0, 1, 2, 3, 33, 64, 255, 256, 23_456, 65_534, 65_535, 65_536, 16_777_215, 16_777_216, last - 1, last]
    };
    match seeded.below(12) {
        0 => counts.routers = seeded.pick(&[0, 1, 2, counts.routers + 1, 64, 65]),
        1 => counts.prefixes = seeded.pick(&[0, 1, counts.prefixes + 1, 64, 65]),
        2 => counts.routes = seeded.pick(&[0, 1, counts.routes + 1, 1024, 1025, u32::MAX as usize]),
        _ => {
            let table = &mut lent.0[seeded.below(14)];
            // Mostly among the first rows, which are used.
            let at = seeded.pick(&[0, 1, 2, 3, 5, 8, 64, 65, 66, 129]).min(table.len() - 1);
            let neighbour = table[(at + 1).min(table.len() - 1)];
            let value = seeded.pick(&VALUES);
            table[at] = seeded.pick(&[value, value, neighbour]);
        }
    }
}

#[test]
fn table_is_given_exactly_where_no_snapshot_reads_so() {
    let (mut yes, mut no) = (0, 0);
    for seed in 0..6000 {
        let snapshot = some_snapshot(seed);
        let mut lent = wanted_tables(&snapshot);
        let mut counts = counts(&snapshot);
        altered(&mut Seeded::new(seed), &mut counts, &mut lent);
        let mut out = vec![0xee; LONGEST];
        let (mut early, mut late) = ([7; 64], [7; 64]);
        let written = write(counts, &lent.tables(), &mut out);
        let forecast = forecast(counts, &lent.tables(), 64, &mut early, &mut late);
        if sound(counts, &lent) {
            yes += 1;
            assert!(written.is_ok(), "seed {seed}");
            assert_eq!(forecast, Err((12, 0)));
        } else {
            no += 1;
            assert_eq!((written, forecast), (Err((11, 0)), Err((11, 0))), "seed {seed}");
            assert!(out.iter().all(|&byte| byte == 0xee));
        }
        assert_eq!((early, late), ([7; 64], [7; 64]));
    }
    assert!(yes > 1000 && no > 1000, "{yes} sound, {no} not");
}

/// All 1,024 rows are sound, so only the sum of the prefixes' numbers can stop a fifth prefix from reaching beyond.
#[test]
fn rows_beyond_the_last_are_table() {
    let snapshot = snapshot(1, "tied");
    let mut lent = wanted_tables(&snapshot);
    let tables = lent.tables();
    (tables.address[4], tables.length[4], tables.prefix_routes[4]) = (u32::MAX, 32, 256);
    let counts = Counts { prefixes: 5, ..counts(&snapshot) };
    assert_eq!(write(counts, &tables, &mut [0; LONGEST]), Err((11, 0)));
    tables.prefix_routes[4] = 0;
    assert!(write(counts, &tables, &mut [0; LONGEST]).is_ok());
}

#[test]
fn table_at_the_borders_of_the_as() {
    let snapshot = snapshot(1, "tied");
    for (neighbour_as, sound) in [
        (0, false),
        (1, true),
        (23_455, true),
        (23_456, false),
        (23_457, true),
        (65_534, true),
        (65_535, false),
        (65_536, true),
        (u32::MAX - 1, true),
        (u32::MAX, false),
    ] {
        let mut lent = wanted_tables(&snapshot);
        let tables = lent.tables();
        tables.routes.neighbour_as[700] = neighbour_as;
        let written = write(counts(&snapshot), &tables, &mut [0; LONGEST]);
        assert_eq!(written.map_err(|(number, _)| number).err(), (!sound).then_some(11), "AS {neighbour_as}");
    }
}

#[test]
fn forecasts_fill_the_entries_of_the_routers_only() {
    for seed in 0..400 {
        let snapshot = some_snapshot(seed);
        let mut lent = wanted_tables(&snapshot);
        for prefix in 0..snapshot.prefixes.len() {
            let (mut early, mut late) = ([7; 65], [7; 65]);
            let given =
                forecast(counts(&snapshot), &lent.tables(), prefix, &mut early, &mut late).expect("sound tables");
            let outlook = second::forecast::forecast(&snapshot, prefix);
            let routers = snapshot.ids.len();
            let rows = |held: &[Option<usize>]| -> Vec<u16> {
                held.iter().map(|row| row.map_or(NONE, |row| row as u16)).collect()
            };
            assert_eq!(early[..routers], rows(&outlook.early));
            assert_eq!(late[..routers], rows(&outlook.late));
            assert!(early[routers..].iter().chain(&late[routers..]).all(|&entry| entry == 7));
            let bits = (0..64).filter(|router| given.word >> router & 1 == 1);
            assert!(bits.eq((0..routers).filter(|&router| early[router] != late[router])));
            assert_eq!(given.open as usize, outlook.open());
        }
    }
}

#[test]
fn a_forecast_refuses_in_order() {
    let snapshot = snapshot(3, "open");
    let mut lent = wanted_tables(&snapshot);
    let counts = counts(&snapshot);
    let prefixes = counts.prefixes;
    let bad = Counts { routers: 0, ..counts };
    assert_eq!(forecast(bad, &lent.tables(), prefixes, &mut [0; 63], &mut [0; 64]), Err((1, 0)));
    assert_eq!(forecast(bad, &lent.tables(), prefixes, &mut [0; 64], &mut [0; 63]), Err((1, 0)));
    assert_eq!(forecast(bad, &lent.tables(), prefixes, &mut [0; 64], &mut [0; 64]), Err((11, 0)));
    assert_eq!(forecast(counts, &lent.tables(), prefixes, &mut [0; 64], &mut [0; 64]), Err((12, 0)));
}

/// The rounds that change something on the way to early and to late, in a prefix of a random snapshot.
fn rounds(kind: &str, prefix: usize) -> (usize, usize) {
    let snapshot = snapshot(1, kind);
    let mut lent = wanted_tables(&snapshot);
    let tables = lent.tables();
    let start: usize = snapshot.prefixes[..prefix].iter().map(|prefix| prefix.routes.len()).sum();
    let rows = start..start + snapshot.prefixes[prefix].routes.len();
    let contest = Contest::new(&tables.routes, rows, 64);
    (contest.settle(&mut contest.all_first()), contest.settle(&mut contest.all_past()))
}

#[test]
fn the_chains_need_240_rounds() {
    for prefix in 0..4 {
        assert_eq!(rounds("chain-early", prefix).0, 240);
        assert_eq!(rounds("chain-late", prefix).1, 240);
    }
}

/// A policy for the snapshot, in every third case damaged.
fn some_policy(seed: u64, snapshot: &Snapshot) -> Vec<u8> {
    let kind = if seed.is_multiple_of(10) { "limits" } else { "mixed" };
    let bytes = policies::record::write(&policies::random::random(seed, kind, snapshot).expect("a kind"));
    if seed.is_multiple_of(3) {
        damage::damage_policy(&bytes, seed)
    } else {
        bytes
    }
}

/// Number and place, as the baseline has them.
fn refusal(refusal: snapshot::Refusal) -> Refusal {
    (refusal.number as u32, refusal.place)
}

#[test]
fn policies_make_the_same_tables_or_get_the_same_refusal() {
    let (mut applied, mut refused) = (0, [0; 13]);
    for seed in 0..6000 {
        let snapshot = some_snapshot(seed);
        let bytes = some_policy(seed, &snapshot);
        let mut lent = wanted_tables(&snapshot);
        let answer = policy(&bytes, counts(&snapshot), &mut lent.tables());
        let read = policies::reader::read(&bytes);
        assert_eq!(answer, read.as_ref().map(|_| ()).map_err(|&no| refusal(no)), "seed {seed}");
        let wanted = match read {
            Ok(read) => wanted_tables(&policies::apply::applied(&snapshot, &read)),
            Err(_) => wanted_tables(&snapshot),
        };
        assert!(lent.0 == wanted.0, "seed {seed}");
        match answer {
            Ok(()) => applied += 1,
            Err((number, _)) => refused[number as usize] += 1,
        }
    }
    assert!(applied > 3000 && [2, 3, 4, 5, 6, 8, 9, 10].iter().all(|&number| refused[number] > 5), "{refused:?}");
}

#[test]
fn a_policy_refuses_in_order_and_leaves_the_tables() {
    let snapshot = snapshot(1, "open");
    let sound = counts(&snapshot);
    let bad = Counts { routers: 0, ..sound };
    for table in 0..14 {
        let mut lent = wanted_tables(&snapshot);
        lent.0[table].pop();
        assert_eq!(policy(&[], bad, &mut lent.tables()), Err((1, 0)));
    }
    let mut lent = wanted_tables(&snapshot);
    assert_eq!(policy(&[], bad, &mut lent.tables()), Err((11, 0)));
    assert_eq!(policy(&[], sound, &mut lent.tables()), Err((2, 0)));
    assert!(lent.0 == wanted_tables(&snapshot).0);
}
