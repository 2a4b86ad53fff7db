//! What a policy makes of a snapshot, by hand from document 02, request a; and the two calls that apply one.

use second::policy::apply::{applied, rewritten};
use second::policy::{random, record, text as policies};
use second::reader::read;
use second::snapshot::{No, Route, Snapshot};
use second::tables::{self, Counts, Lent, LIMITS, OF_ROUTE};
use second::{damage, host, random as snapshots, text, writer};

const P5: &str = "router 10.0.0.1 10.0.0.2 10.0.0.3\ndistance 0 1 4\ndistance 0 2 5\ndistance 1 2 9
prefix 198.51.100.0/24\nroute 0 as 65001 med 0 id 2 peer 192.0.2.1\nroute 0 as 65002 med 5 id 1 peer 192.0.2.2
route 1 as 65002 med 0 id 2 peer 192.0.2.5\nroute 1 as 65001 med 5 id 1 peer 192.0.2.6";

/// Router 0's session with 192.0.2.2: MED 0, 200 for the prefix, 150 for direct paths from AS 65001; all that router 1
/// hears from 192.0.2.5 gets 90.
const WORKED: [u8; 42] = [
    1, 0, 192, 0, 2, 2, //
    5, //
    2, 198, 51, 100, 0, 24, 0, 0, 0, 200, //
    3, 0, 0, 0xfd, 0xe9, 0, 0, 0, 150, //
    1, 1, 192, 0, 2, 5, //
    4, 0, 0, 0, 90, //
    6, 0, 0, 0, 6,
];

fn snapshot(notation: &str) -> Vec<u8> {
    text::make_from_sheet(notation).and_then(|made| made.judged()).expect("the notation is sound")
}

fn policy(notation: &str) -> Vec<u8> {
    policies::make(notation).and_then(|made| made.judged()).expect("the notation is sound")
}

fn routes(bytes: &[u8]) -> Vec<Route> {
    let snapshot = read(bytes).expect("the snapshot is sound");
    snapshot.prefixes.into_iter().flat_map(|prefix| prefix.routes).collect()
}

/// The preferences of the routes, prefix after prefix, once a policy is applied.
fn preferences(notation: &str, policy: &[u8]) -> Vec<u32> {
    let after = rewritten(&snapshot(notation), policy).expect("both are sound");
    routes(&after).iter().map(|route| route.preference).collect()
}

/// One router with a session of these lines, and these routes of one prefix: their preferences.
fn fitted(lines: &str, routes: &str) -> Vec<u32> {
    let policy = policy(&format!("session 0 peer 192.0.2.1\n{lines}"));
    preferences(&format!("router 1\nprefix 10.0.0.0/8\n{routes}"), &policy)
}

#[test]
fn the_worked_sample() {
    let after = rewritten(&snapshot(P5), &WORKED).expect("both are sound");
    let [preferences, marks, meds] =
        [|route: &Route| route.preference, |route: &Route| u32::from(route.mark), |route: &Route| route.med]
            .map(|field| routes(&after).iter().map(field).collect::<Vec<u32>>());
    assert_eq!(preferences, [100, 200, 90, 100]);
    assert_eq!(marks, [1, 1, 1, 1]);
    assert_eq!(meds, [0, 0, 0, 5]);
}

/// Of P5's 169 bytes only these are others: row 1's preference and MED, row 2's preference.
#[test]
fn only_preference_mark_and_med_are_rewritten() {
    let before = snapshot(P5);
    let after = rewritten(&before, &WORKED).expect("both are sound");
    let mut wanted = before.clone();
    wanted[99] = 200;
    wanted[107] = 0;
    wanted[123] = 90;
    assert_eq!(after, wanted);
}

#[test]
fn the_text_of_the_worked_sample() {
    let lines = "session 0 peer 192.0.2.2\nmed 0\nprefix 198.51.100.0/24 preference 200\nas 65001 preference 150
        session 1 peer 192.0.2.5\nall preference 90";
    assert_eq!(policy(lines), WORKED);
}

#[test]
fn the_end_record_alone_gives_100_everywhere() {
    let notation = "router 1 2\nprefix 10.0.0.0/8\nroute 0 preference 7 med 5\nroute 1 preference 4294967295 med absent
        prefix 10.0.0.0/9\nroute 0 preference 0";
    let after = rewritten(&snapshot(notation), &[6, 0, 0, 0, 0]).expect("both are sound");
    let alike = |route: Route| Route { preference: 100, ..route };
    let wanted: Vec<Route> = routes(&snapshot(notation)).into_iter().map(alike).collect();
    assert_eq!(routes(&after), wanted);
}

#[test]
fn the_first_clause_that_fits_decides() {
    let route = "route 0 as 7 path 1";
    assert_eq!(fitted("prefix 10.0.0.0/8 preference 1\nas 7 preference 2\nall preference 3", route), [1]);
    assert_eq!(fitted("as 7 preference 2\nprefix 10.0.0.0/8 preference 1\nall preference 3", route), [2]);
    assert_eq!(fitted("all preference 3\nas 7 preference 2\nprefix 10.0.0.0/8 preference 1", route), [3]);
    assert_eq!(fitted("as 8 preference 2\nprefix 10.0.0.0/9 preference 1\nall preference 3", route), [3]);
    assert_eq!(fitted("as 7 preference 4\nas 7 preference 5", route), [4]);
}

#[test]
fn the_old_preference_never_survives() {
    let route = "route 0 as 7 preference 300";
    assert_eq!(fitted("", route), [100]);
    assert_eq!(fitted("med 0", route), [100]);
    assert_eq!(fitted("as 8 preference 2\nprefix 10.0.0.0/9 preference 1", route), [100]);
    assert_eq!(fitted("all preference 5", "route 0 preference 300 peer 192.0.2.9"), [100]);
}

#[test]
fn an_as_clause_fits_paths_of_length_1_only() {
    for (path, wanted) in [(1, 150), (2, 100), (257, 100), (65_535, 100)] {
        assert_eq!(fitted("as 7 preference 150", &format!("route 0 as 7 path {path}")), [wanted]);
    }
    assert_eq!(fitted("as 65543 preference 150", "route 0 as 7 path 1"), [100]); // 7 in its last two bytes.
    assert_eq!(fitted("as 65534 preference 150", "route 0 as 65534 path 1"), [150]);
}

#[test]
fn an_as_clause_fits_routes_of_both_kinds_by_all_32_bits() {
    for neighbour_as in [1, 23_457, 65_534, 65_536, 65_543, u32::MAX - 1] {
        let route = format!("route 0 as {neighbour_as} path 1");
        assert_eq!(fitted(&format!("as {neighbour_as} preference 150"), &route), [150], "{route}");
    }
    for (clause, neighbour_as) in [(7, 65_543), (65_543, 131_079), (65_534, u32::MAX - 1), (23_456, 88_992)] {
        let route = format!("route 0 as {neighbour_as} path 1");
        assert_eq!(fitted(&format!("as {clause} preference 150"), &route), [100], "AS {clause}, {route}");
    }
}

#[test]
fn a_prefix_clause_fits_address_and_length() {
    let notation = "router 1\nprefix 10.0.0.0/8\nroute 0\nprefix 10.0.0.0/9\nroute 0\nprefix 10.128.0.0/9\nroute 0";
    let fitted = |prefix: &str| {
        preferences(notation, &policy(&format!("session 0 peer 192.0.2.1\nprefix {prefix} preference 150")))
    };
    assert_eq!(fitted("10.0.0.0/8"), [150, 100, 100]);
    assert_eq!(fitted("10.0.0.0/9"), [100, 150, 100]);
    assert_eq!(fitted("10.128.0.0/9"), [100, 100, 150]);
    assert_eq!(fitted("10.0.0.0/10"), [100, 100, 100]);
}

/// Router 1 has a peer of the same address; router 3 and up are not there.
#[test]
fn a_session_is_a_router_and_a_peer() {
    let notation = "router 1 2 3\nprefix 10.0.0.0/8
        route 0 peer 1\nroute 0 peer 2\nroute 1 peer 1\nroute 1 peer 2\nroute 2 peer 2";
    let fitted = |lines: &str| preferences(notation, &policy(lines));
    assert_eq!(fitted("session 0 peer 1\nall preference 5"), [5, 100, 100, 100, 100]);
    assert_eq!(fitted("session 1 peer 1\nall preference 5"), [100, 100, 5, 100, 100]);
    assert_eq!(fitted("session 2 peer 1\nall preference 5"), [100; 5]);
    assert_eq!(fitted("session 3 peer 2\nall preference 5\nsession 255 peer 2\nall preference 5"), [100; 5]);
    let several = "session 0 peer 2\nall preference 1\nsession 1 peer 1\nsession 2 peer 2\nall preference 3";
    assert_eq!(fitted(several), [100, 1, 100, 100, 3]);
}

/// Kind 5 sets a present 0 on the whole session: whatever the clauses fit, and where no MED was.
#[test]
fn med_0_is_present_on_the_whole_session() {
    let notation = "router 1 2\nprefix 10.0.0.0/8\nroute 0 as 7 med absent\nroute 0 as 7 med 5\nroute 1 as 7 med absent
        prefix 10.0.0.0/9\nroute 0 as 8 med 9\nroute 0 as 8 med absent";
    let meds = |lines: &str| -> Vec<(u8, u32)> {
        let after = rewritten(&snapshot(notation), &policy(lines)).expect("both are sound");
        routes(&after).iter().map(|route| (route.mark, route.med)).collect()
    };
    let before = [(0, 0), (1, 5), (0, 0), (1, 9), (0, 0)];
    assert_eq!(meds("session 0 peer 192.0.2.1\nall preference 1"), before);
    assert_eq!(meds("session 0 peer 192.0.2.1\nmed 0"), [(1, 0), (1, 5), (0, 0), (1, 0), (0, 0)]);
    let fits_one = "session 0 peer 192.0.2.1\nmed 0\nprefix 10.0.0.0/9 preference 1\nsession 0 peer 192.0.2.2";
    assert_eq!(meds(fits_one), [(1, 0), (1, 5), (0, 0), (1, 0), (0, 0)]);
}

#[test]
fn the_snapshot_is_judged_before_the_policy() {
    let refused = |snapshot: &[u8], policy: &[u8]| rewritten(snapshot, policy).expect_err("one is refused").to_string();
    assert_eq!(refused(&[], &[]), "refused snapshot 2 0");
    assert_eq!(refused(&[1, 1, 9], &WORKED), "refused snapshot 3 2");
    assert_eq!(refused(&snapshot(P5), &[]), "refused policy 2 0");
    assert_eq!(refused(&snapshot(P5), &WORKED[..41]), "refused policy 2 37");
}

/// An output that held ee, and the number returned.
fn hosted(snapshot: &[u8], policy: &[u8], room: usize) -> (u32, Vec<u8>) {
    let mut out = vec![0xee; room];
    let number = host::policy(snapshot, policy, &mut out);
    (number, out)
}

#[test]
fn the_host_call_fills_as_many_bytes_as_the_snapshot_has() {
    let after = rewritten(&snapshot(P5), &WORKED).expect("both are sound");
    assert_eq!(hosted(&snapshot(P5), &WORKED, 169), (0, after.clone()));
    assert_eq!(hosted(&snapshot(P5), &WORKED, 172), (0, [after, vec![0xee; 3]].concat()));
}

#[test]
fn the_host_call_refuses_in_order_and_leaves_the_output() {
    let p5 = snapshot(P5);
    let longer = [&p5[..], &[0]].concat();
    for (snapshot, policy, room, wanted) in [
        (&p5[..], &WORKED[..], 168, 101),
        (&[9], &[9], 0, 101),
        (&longer, &WORKED, 169, 101),
        (&longer, &[9], 170, 110),
        (&[], &[], 0, 102),
        (&[9], &[9], 1, 103),
        (&p5, &[9], 169, 203),
        (&p5, &[], 169, 202),
        (&p5, &[2], 169, 204),
        (&p5, &[6, 0, 0, 0, 1], 169, 209),
        (&p5, &[6, 0, 0, 0, 0, 0], 169, 210),
    ] {
        assert_eq!(hosted(snapshot, policy, room), (wanted, vec![0xee; room]));
    }
}

/// P5 in tables in which every unused entry holds the largest number.
fn lent() -> (Counts, Lent) {
    let mut lent = LIMITS.map(|limit| vec![u32::MAX; limit]);
    let counts = tables::read(&snapshot(P5), &mut lent).expect("the snapshot is sound");
    (counts, lent)
}

#[test]
fn of_the_tables_three_columns_are_rewritten() {
    let (counts, before) = lent();
    let mut after = before.clone();
    assert_eq!(tables::policy(&WORKED, counts, &mut after), Ok(()));
    let mut wanted = before;
    wanted[OF_ROUTE + 2][..4].copy_from_slice(&[100, 200, 90, 100]);
    wanted[OF_ROUTE + 6][..4].copy_from_slice(&[0, 0, 0, 5]);
    assert!(after == wanted);
}

#[test]
fn the_call_over_tables_refuses_in_order_and_leaves_them() {
    let (counts, sound) = lent();
    let bad = Counts { routers: 0, ..counts };
    let refused = |counts: Counts, before: &Lent, policy: &[u8]| {
        let mut after = before.clone();
        let answer = tables::policy(policy, counts, &mut after);
        assert!(after == *before);
        answer
    };
    for table in 0..14 {
        let mut short = sound.clone();
        short[table].pop();
        assert_eq!(refused(bad, &short, &[]), Err(No::Room));
    }
    assert_eq!(refused(bad, &sound, &[]), Err(No::Table));
    assert_eq!(refused(counts, &sound, &[]), Err(No::Cut));
    assert_eq!(refused(counts, &sound, &WORKED[..41]), Err(No::Cut));
}

/// Of random snapshots and policies: what is rewritten is sound, and applying once more changes nothing.
#[test]
fn a_rewritten_snapshot_is_sound_and_stays() {
    let mut changed = 0;
    for seed in 0..1500 {
        let kind = ["small", "open", "mixed-small", "mixed-open"][seed as usize % 4];
        let snapshot = snapshots::random(seed, kind).expect("a kind");
        let policy = random::random(seed, "mixed", &snapshot).expect("a kind");
        let after = applied(&snapshot, &policy);
        assert_eq!(read(&writer::write(&after)).as_ref(), Ok(&after));
        assert_eq!(applied(&after, &policy), after);
        assert!(prefixes_alike(&snapshot, &after));
        changed += usize::from(after != snapshot);
    }
    assert!(changed > 700, "{changed} were changed");
}

fn prefixes_alike(one: &Snapshot, other: &Snapshot) -> bool {
    let names = |snapshot: &Snapshot| -> Vec<(u32, u8, usize)> {
        snapshot.prefixes.iter().map(|prefix| (prefix.address, prefix.length, prefix.routes.len())).collect()
    };
    one.ids == other.ids && one.distances == other.distances && names(one) == names(other)
}

#[test]
fn both_calls_answer_as_the_program_does() {
    for seed in 0..600 {
        let snapshot = snapshots::random(seed, ["small", "mixed-small"][seed as usize % 2]).expect("a kind");
        let policy = record::write(&random::random(seed, "mixed", &snapshot).expect("a kind"));
        let whole = writer::write(&snapshot);
        let damaged = damage::damage_policy(&policy, seed);
        for policy in [policy, damaged] {
            let mut lent = LIMITS.map(|limit| vec![7; limit]);
            tables::fill(&snapshot, &mut lent);
            let over_tables = tables::policy(&policy, tables::counts(&snapshot), &mut lent);
            let (number, out) = hosted(&whole, &policy, whole.len());
            match rewritten(&whole, &policy) {
                Ok(after) => {
                    assert_eq!((number, &out), (0, &after));
                    assert_eq!(over_tables, Ok(()));
                    let snapshot = tables::snapshot(tables::counts(&snapshot), &lent).expect("sound tables");
                    assert_eq!(writer::write(&snapshot), after);
                }
                Err(_) => assert_eq!(Err(number - 200), over_tables.map_err(|no| no as u32)),
            }
        }
    }
}
