//! Document 02, request b: which neighbour ASes there are, in which of the two kinds of routes they stand, and what a
//! kind 7 is refused for. All bytes and numbers are by hand.

use second::print::printed;
use second::random::random;
use second::reader::read;
use second::snapshot::No::{self, *};
use second::snapshot::Snapshot;
use second::{text, writer};

/// One router, 10.0.0.0/8: 14 bytes, four records with a route.
const HEAD: [u8; 14] = [1, 1, 2, 0, 0, 0, 0, 1, 4, 10, 0, 0, 0, 8];

/// What stands behind the AS: preference 100, path 2, origin 0, MED 0 present, neighbour id 1, and all of the peer but
/// its last byte.
const REST: [u8; 19] = [0, 0, 0, 100, 0, 2, 0, 1, 0, 0, 0, 0, 0, 0, 0, 1, 192, 0, 2];

/// A route of 24 bytes, and one of 26.
fn short(neighbour_as: u16, peer: u8) -> Vec<u8> {
    [&[5, 0][..], &neighbour_as.to_be_bytes(), &REST, &[peer]].concat()
}

fn long(neighbour_as: u32, peer: u8) -> Vec<u8> {
    [&[7, 0][..], &neighbour_as.to_be_bytes(), &REST, &[peer]].concat()
}

/// The head, these records and an end that counts them.
fn ended(records: &[Vec<u8>]) -> Vec<u8> {
    [&HEAD[..], &records.concat(), &[6, 0, 0, 0, 3 + records.len() as u8]].concat()
}

fn refusal(bytes: &[u8]) -> (No, usize) {
    let refusal = read(bytes).expect_err("the snapshot is refused");
    (refusal.number, refusal.place)
}

/// The ASes of an accepted snapshot, which is written as the same bytes again.
fn ases(bytes: &[u8]) -> Vec<u32> {
    let snapshot = read(bytes).expect("the snapshot is sound");
    assert_eq!(writer::write(&snapshot), bytes);
    snapshot.prefixes.iter().flat_map(|prefix| &prefix.routes).map(|route| route.neighbour_as).collect()
}

#[test]
fn in_kind_5_all_but_0_23456_and_65535() {
    for neighbour_as in [1, 2, 23_455, 23_457, 65_533, 65_534] {
        assert_eq!(ases(&ended(&[short(neighbour_as, 1)])), [u32::from(neighbour_as)]);
    }
    for neighbour_as in [0, 23_456, 65_535] {
        assert_eq!(refusal(&ended(&[short(neighbour_as, 1)])), (Field, 14), "{neighbour_as}");
    }
}

#[test]
fn in_kind_7_from_65536_to_the_last_but_one() {
    for neighbour_as in [65_536, 65_537, 65_536 + 23_456, 131_071, 131_072, 16_777_216, 4_294_967_293, 4_294_967_294] {
        assert_eq!(ases(&ended(&[long(neighbour_as, 1)])), [neighbour_as]);
    }
    for neighbour_as in [0, 1, 23_455, 23_456, 23_457, 65_533, 65_534, 65_535, 4_294_967_295] {
        assert_eq!(refusal(&ended(&[long(neighbour_as, 1)])), (Field, 14), "{neighbour_as}");
    }
}

/// The other fields of a kind 7 have the ranges that they have in kind 5, each two bytes further on.
#[test]
fn the_other_fields_of_kind_7() {
    for (at, bytes, refused) in [
        (1, &[1][..], true),
        (6, &[255, 255, 255, 255], false),
        (10, &[0, 0], true),
        (10, &[255, 255], false),
        (12, &[2], false),
        (12, &[3], true),
        (13, &[0], false),
        (13, &[2], true),
        (13, &[0, 0, 0, 0, 1], true),
        (14, &[255, 255, 255, 255], false),
        (18, &[0, 0, 0, 0], true),
        (22, &[0, 0, 0, 0], true),
    ] {
        let mut record = long(65_536, 1);
        record[at..at + bytes.len()].copy_from_slice(bytes);
        let read = read(&ended(&[record])).map_err(|refusal| (refusal.number, refusal.place));
        assert_eq!(read.err(), refused.then_some((Field, 14)), "{bytes:?} at {at}");
    }
}

/// The nine values of a route are told from one another.
#[test]
fn each_field_of_kind_7_is_read_from_its_bytes() {
    let bytes = [7, 0, 1, 2, 3, 4, 5, 6, 7, 8, 9, 10, 2, 1, 11, 12, 13, 14, 15, 16, 17, 18, 19, 20, 21, 22];
    let snapshot = read(&ended(&[bytes.to_vec()])).expect("the snapshot is sound");
    let route = snapshot.prefixes[0].routes[0];
    assert_eq!((route.router, route.neighbour_as, route.preference), (0, 0x0102_0304, 0x0506_0708));
    assert_eq!((route.path, route.origin, route.mark, route.med), (0x090a, 2, 1, 0x0b0c_0d0e));
    assert_eq!((route.neighbour_id, route.peer), (0x0f10_1112, 0x1314_1516));
}

#[test]
fn kind_7_stands_where_kind_5_may_and_nowhere_else() {
    let two_ids = [1, 2, 2, 0, 0, 0, 0, 1, 2, 1, 0, 0, 0, 2];
    let before_the_prefix = &HEAD[..8];
    for head in [&[][..], &[1, 2], &two_ids[..8], &two_ids, before_the_prefix] {
        let bytes = [head, &long(65_536, 1)].concat();
        assert_eq!(refusal(&bytes), (Place, head.len()));
        assert_eq!(refusal(&bytes[..head.len() + 1]), (Place, head.len()));
    }
    let after_the_end = [ended(&[]), long(65_536, 1)].concat();
    assert_eq!(refusal(&after_the_end), (Tail, 19));
    let next_prefix = vec![4, 10, 0, 0, 0, 9];
    assert_eq!(ases(&ended(&[short(1, 1), long(65_536, 2), next_prefix, long(65_537, 1), short(2, 2)])).len(), 4);
}

#[test]
fn kind_8_is_the_first_unknown_one() {
    for before in [&HEAD[..0], &HEAD[..2], &HEAD[..8], &HEAD] {
        assert_eq!(refusal(&[before, &[8]].concat()), (Kind, before.len()));
    }
}

#[test]
fn kind_7_is_cut_anywhere_in_its_25_bytes() {
    let bytes = ended(&[long(65_536, 1)]);
    for length in 15..40 {
        assert_eq!(refusal(&bytes[..length]), (Cut, 14), "{length} bytes");
    }
    assert_eq!(refusal(&bytes[..40]), (Cut, 40));
}

#[test]
fn routes_of_both_kinds_rise_together() {
    assert_eq!(ases(&ended(&[short(1, 5), long(65_536, 6), short(1, 7)])), [1, 65_536, 1]);
    assert_eq!(ases(&ended(&[long(65_536, 5), short(1, 6), long(65_536, 7)])), [65_536, 1, 65_536]);
    for peer in [4, 5] {
        assert_eq!(refusal(&ended(&[short(1, 5), long(65_536, peer)])), (Order, 38));
        assert_eq!(refusal(&ended(&[long(65_536, 5), short(1, peer)])), (Order, 40));
        assert_eq!(refusal(&ended(&[long(65_536, 5), long(65_537, peer)])), (Order, 40));
    }
    assert_eq!(refusal(&ended(&[short(1, 5), long(65_535, 4)])), (Field, 38));
    let another_routers = |mut record: Vec<u8>| {
        record[1] = 1;
        record
    };
    let two = [&[1, 2, 2, 0, 0, 0, 0, 1, 2, 1, 0, 0, 0, 2][..], &[3, 0, 1, 0, 0, 0, 1, 3, 1, 0, 0, 0, 0, 1]].concat();
    let two = [&two[..], &HEAD[8..]].concat();
    assert_eq!(refusal(&[&two[..], &another_routers(short(1, 5)), &long(65_536, 6)].concat()), (Order, 58));
    assert_eq!(refusal(&[&two[..], &another_routers(long(65_536, 5)), &short(1, 6)].concat()), (Order, 60));
}

/// So many routes of one router from one peer on, both kinds in turn; each two of them have 50 bytes.
fn in_turn(count: usize) -> String {
    (0..count).map(|number| format!("route 0 as {}\n", [1, 65_537][number % 2])).collect()
}

fn made(notation: &str) -> Vec<u8> {
    text::make_from_sheet(notation).expect("the notation is sound").bytes
}

#[test]
fn both_kinds_share_the_256_of_a_prefix() {
    let one = "router 1\nprefix 10.0.0.0/8\n";
    assert_eq!(ases(&made(&format!("{one}{}", in_turn(256)))).len(), 256);
    for more in ["route 0 as 1", "route 0 as 65536", "raw 05\nend none", "raw 07\nend none"] {
        assert_eq!(refusal(&made(&format!("{one}{}{more}", in_turn(256)))), (Full, 14 + 128 * 50), "{more}");
    }
}

#[test]
fn both_kinds_share_the_1024_of_a_snapshot() {
    let four: String = (0..4).map(|number| format!("prefix {number}.0.0.0/8\n{}", in_turn(256))).collect();
    assert_eq!(ases(&made(&format!("router 1\n{four}prefix 4.0.0.0/8"))).len(), 1024);
    for more in ["route 0 as 1", "route 0 as 65536", "raw 05\nend none", "raw 07\nend none"] {
        let bytes = made(&format!("router 1\n{four}prefix 4.0.0.0/8\n{more}"));
        assert_eq!(refusal(&bytes), (Full, 8 + 5 * 6 + 512 * 50), "{more}");
    }
}

/// Two customers with MEDs 5 and 0, at two routers.
fn customers(one: u32, other: u32) -> String {
    let routes = format!("route 0 as {one} med 5\nroute 1 as {other} med 0");
    printed(&made(&format!("router 1 2\nprefix 198.51.100.0/24\n{routes}")))
}

#[test]
fn meds_are_compared_within_one_as_of_32_bits() {
    let page = |rows: &str| format!("forecast 2 1\nprefix 198.51.100.0/24 settled\n{rows}");
    let compared = page("router 0 via 1 1\nrouter 1 own 1\n");
    let apart = page("router 0 own 0\nrouter 1 own 1\n");
    for same in [1, 65_534, 65_536, 65_537, 88_992, 4_294_967_294] {
        assert_eq!(customers(same, same), compared, "AS {same}");
    }
    for (one, other) in [
        (65_536, 65_537),
        (1, 65_537),
        (65_537, 131_073),
        (65_537, 0x0100_0001),
        (65_534, 4_294_967_294),
        (0x0001_0000, 0x0100_0000),
    ] {
        assert_eq!(customers(one, other), apart, "AS {one} and {other}");
        assert_eq!(customers(other, one), apart, "AS {other} and {one}");
    }
}

/// The page tells no AS, so calling ASes otherwise changes none.
#[test]
fn other_names_for_ases_change_no_forecast() {
    let page = |seed: u64, kind: &str| printed(&writer::write(&random(seed, kind).expect("a kind")));
    for seed in 0..400 {
        for kind in ["small", "open"] {
            assert_eq!(page(seed, kind), page(seed, &format!("mixed-{kind}")), "random {seed} {kind}");
        }
    }
    for kind in ["wide", "typical", "limits", "chain-early", "chain-late"] {
        assert_eq!(page(1, kind), page(1, &format!("mixed-{kind}")), "random 1 {kind}");
    }
}

/// What keeps the test before this one sharp: that the last two bytes of an AS are not enough is seen in many prefixes.
#[test]
fn ases_cut_to_two_bytes_change_many_forecasts() {
    let cut = |snapshot: &Snapshot| {
        let mut cut = snapshot.clone();
        let routes = cut.prefixes.iter_mut().flat_map(|prefix| &mut prefix.routes);
        // With a bit above them, any two bytes are an AS.
        routes.for_each(|route| route.neighbour_as = 65_536 + (route.neighbour_as & 0xffff));
        cut
    };
    let mut changed = 0;
    for seed in 0..400 {
        let snapshot = random(seed, "mixed-open").expect("a kind");
        changed += usize::from(printed(&writer::write(&snapshot)) != printed(&writer::write(&cut(&snapshot))));
    }
    assert!(changed > 200, "{changed} of 400 snapshots");
}
