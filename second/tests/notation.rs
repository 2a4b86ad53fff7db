//! The text notation: what a line may say, what must be said and only once, faults with their lines, and the way back
//! from any bytes.

use second::reader::read;
use second::snapshot::{Route, Snapshot};
use second::text::{make, make_from_sheet};
use second::{damage, random, show, writer};

/// What `second make` says of a text that it does not take.
fn fault(notation: &str) -> String {
    make(notation).and_then(|made| made.judged()).expect_err("the notation has a fault").to_string()
}

fn snapshot(notation: &str) -> Snapshot {
    let bytes = make(notation).and_then(|made| made.judged()).expect("the notation is sound");
    read(&bytes).expect("the snapshot is sound")
}

fn snapshot_from_sheet(notation: &str) -> Snapshot {
    let bytes = make_from_sheet(notation).and_then(|made| made.judged()).expect("the notation is sound");
    read(&bytes).expect("the snapshot is sound")
}

/// One router and one prefix with a route of these fields, on line 3.
fn with_route(fields: &str) -> String {
    format!("router 1\nprefix 0.0.0.0/0\nroute 0 {fields}")
}

/// Three routers and these lines, from line 2 on.
fn with_distances(lines: &str) -> String {
    format!("router 1 2 3\n{lines}")
}

#[test]
fn fields_stand_in_any_order() {
    let route = Route {
        router: 0,
        neighbour_as: 5,
        preference: 6,
        path: 7,
        origin: 1,
        mark: 0,
        med: 0,
        neighbour_id: 8,
        peer: 9,
    };
    for fields in [
        "med absent origin egp peer 9 id 0.0.0.8 path 7 preference 6 as 5",
        "as 5 preference 6 path 7 origin egp mark 0 med 0 id 0.0.0.8 peer 9",
        "as 5 preference 6 path 7 origin egp med 0 mark 0 id 0.0.0.8 peer 9",
    ] {
        assert_eq!(snapshot(&with_route(fields)).prefixes[0].routes, [route]);
    }
}

#[test]
fn only_preference_origin_and_med_may_be_left_out() {
    let short = snapshot(&with_route("as 5 path 7 id 8 peer 9"));
    assert_eq!(short, snapshot(&with_route("as 5 path 7 id 8 peer 9 preference 100 origin igp med 0")));
    for (fields, missing) in [
        ("path 7 id 8 peer 9", "as"),
        ("as 5 id 8 peer 9", "path"),
        ("as 5 path 7 peer 9", "id"),
        ("as 5 path 7 id 8", "peer"),
        ("as 5 preference 100 origin igp med 0 peer 9", "path, id"),
        ("", "as, path, id, peer"),
    ] {
        assert_eq!(fault(&with_route(fields)), format!("line 3: the route lacks {missing}"));
    }
}

#[test]
fn a_field_is_given_once() {
    for (field, doubled) in [
        ("as 1", "as"),
        ("preference 100", "preference"),
        ("path 2", "path"),
        ("origin igp", "origin"),
        ("med absent", "med"),
        ("mark 1", "mark"),
        ("id 1", "id"),
        ("peer 1", "peer"),
    ] {
        let fields = format!("as 1 preference 100 path 2 origin igp med 0 mark 1 id 1 peer 1 {field}");
        assert_eq!(fault(&with_route(&fields)), format!("line 3: '{doubled}' is given twice"));
    }
}

/// An AS that two bytes hold makes a record of 24 bytes, kind 5, any other one of 26, kind 7.
#[test]
fn the_as_tells_the_kind_of_a_route() {
    for (neighbour_as, kind, length) in
        [("0", 5, 24), ("23456", 5, 24), ("65535", 5, 24), ("65536", 7, 26), ("4294967295", 7, 26)]
    {
        let bytes = make(&with_route(&format!("as {neighbour_as} path 7 id 8 peer 9"))).expect("encodable").bytes;
        assert_eq!((bytes[14], bytes.len()), (kind, 14 + length + 5), "AS {neighbour_as}");
    }
}

#[test]
fn distances_by_pair_direction_row_and_default() {
    let made = |lines: &str| snapshot(&with_distances(lines)).distances;
    let wanted = [[0, 4, 7], [4, 0, 7], [5, 7, 0]];
    assert_eq!(made("distance default 7\ndistance 0 1 4\ndistance 2 to 0 5"), wanted);
    assert_eq!(made("distance 0 1 4\ndistance 2 to 0 5\ndistance default 7"), wanted);
    assert_eq!(made("distance 0 1 4\ndistance 2 to 0 5\ndistance 0 to 2 7\ndistance 1 2 7"), wanted);
    assert_eq!(made("distances 0 - 4 7\ndistances 1 4 - 7\ndistances 2 5 7 -"), wanted);
    assert_eq!(made("distances 2 5 7 -\ndistance 0 1 4\ndistance default 7"), wanted);
    assert_eq!(snapshot("distances 1 9 -\nrouter 1 2\ndistance 0 to 1 8").distances, [[0, 8], [9, 0]]);
}

/// The line is the one that names the later of the two routers.
#[test]
fn every_distance_is_needed() {
    assert_eq!(fault("router 1 2"), "line 1: no line has a distance from 0 to 1");
    assert_eq!(fault("router 1 2\ndistance 0 to 1 4"), "line 1: no line has a distance from 1 to 0");
    assert_eq!(fault("router 1 2\nrouter 3\ndistance 0 1 4"), "line 2: no line has a distance from 0 to 2");
    assert_eq!(fault("router 1\nrouter 2\nrouter 3\ndistances 0 - 1 1"), "line 2: no line has a distance from 1 to 0");
    assert!(snapshot("router 1").distances == [[0]]);
}

#[test]
fn a_distance_is_given_once() {
    let twice = |lines: &str| fault(&with_distances(&format!("distance default 1\n{lines}")));
    assert_eq!(twice("distance default 1"), "line 3: line 2 has a default distance already");
    assert_eq!(twice("distance 0 1 4\ndistance 0 1 4"), "line 4: line 3 has a distance from 0 to 1 already");
    assert_eq!(twice("distance 0 1 4\ndistance 1 0 4"), "line 4: line 3 has a distance from 1 to 0 already");
    assert_eq!(twice("distance 0 1 4\ndistance 1 to 0 5"), "line 4: line 3 has a distance from 1 to 0 already");
    assert_eq!(twice("distance 0 to 1 4\ndistance 0 to 1 5"), "line 4: line 3 has a distance from 0 to 1 already");
    assert_eq!(twice("distances 0 - 2 3\n\ndistance 0 2 9"), "line 5: line 3 has a distance from 0 to 2 already");
    assert_eq!(twice("distance 0 2 9\ndistances 2 1 2 -"), "line 4: line 3 has a distance from 2 to 0 already");
    assert_eq!(twice("distances 1 4 - 6\ndistances 1 4 - 6"), "line 4: line 3 has a distance from 1 to 0 already");
}

#[test]
fn a_row_of_distances_has_a_value_for_each_router() {
    for (row, values) in [("0", 0), ("0 -", 1), ("0 - 2", 2), ("0 - 2 3 4", 4), ("1 4", 1)] {
        let lines = format!("distance default 1\ndistances {row}");
        let what = format!("line 3: expected a value for each of 3 routers, not {values}");
        assert_eq!(fault(&with_distances(&lines)), what);
    }
}

#[test]
fn faults_name_their_line() {
    let forms = "expected 'distance default D', 'distance A B D' or 'distance A to B D'";
    let faults = [
        ("# nothing\nroutes 1", "line 2: 'routes' begins no line"),
        ("router", "line 1: expected 'router' and one id or more"),
        ("router 10.0.0", "line 1: '10.0.0' is not an address such as 192.0.2.1"),
        ("router 10.0.0.256", "line 1: '10.0.0.256' is not an address such as 192.0.2.1"),
        ("router one", "line 1: 'one' is not a number from 0 to 4294967295"),
        ("router 1\nprefix 10.0.0.0", "line 2: expected 'prefix A.B.C.D/LENGTH'"),
        ("router 1\n\nroute 0 as", "line 3: 'as' has no value"),
        ("route 0 as 4294967296", "line 1: '4294967296' is not a number from 0 to 4294967295"),
        ("route 0 colour 1", "line 1: a route has no field 'colour'"),
        ("route", "line 1: expected 'route ROUTER' and its fields"),
        ("distance 1", &format!("line 1: {forms}")),
        ("distance 1 2", &format!("line 1: {forms}")),
        ("distance default", &format!("line 1: {forms}")),
        ("router 1 2\ndistance 0 2 9", "line 2: there is no router 2"),
        ("router 1 2\ndistances 2 1 1", "line 2: there is no router 2"),
        ("distance 0 1 9", "line 1: there is no router 1"),
        ("router 1 2\ndistance 1 1 9", "line 2: router 1 has no distance to itself"),
        ("router 1 2\ndistances 0 5 -", "line 2: '-' must stand for router 0 itself, and for it alone"),
        ("router 1 2\ndistances 0 - -", "line 2: '-' must stand for router 0 itself, and for it alone"),
        ("raw", "line 1: expected 'raw' and one byte or more"),
        ("raw 1", "line 1: '1' is not a byte of two hexadecimal digits"),
        ("raw +1", "line 1: '+1' is not a byte of two hexadecimal digits"),
        ("end", "line 1: expected 'end RECORDS' or 'end none'"),
    ];
    for (notation, wanted) in faults {
        assert_eq!(fault(notation), wanted);
    }
}

#[test]
fn a_text_without_routers_says_so() {
    for notation in ["", "\n", "# nothing yet\n", "prefix 10.0.0.0/8", "\nend 0"] {
        assert_eq!(fault(notation), "line 1: no router is named", "{notation:?}");
    }
    assert_eq!(fault("# bytes\nraw 08"), "line 2: the snapshot would be refused 3 0 (Kind)");
    assert_eq!(make("# nothing yet\n").expect("encodable").bytes, []);
}

#[test]
fn a_refused_record_is_traced_to_its_line() {
    let refused = |line: usize, refusal: &str| format!("line {line}: the snapshot would be refused {refusal}");
    let faults = [
        ("router 0\nrouter 2\nrouter 3\ndistance default 1".to_string(), refused(1, "5 2 (Field)")),
        ("router 1\nrouter 0 3\nrouter 4\ndistance default 1".to_string(), refused(2, "5 8 (Field)")),
        ("router 1 2\nrouter 1\nrouter 4\ndistance default 1".to_string(), refused(2, "7 14 (Twin)")),
        ("router 1\nrouter 2\n\ndistance default 16777216".to_string(), refused(4, "5 14 (Field)")),
        ("router 1 2\ndistance 0 to 1 16777216\ndistance default 5".to_string(), refused(2, "5 14 (Field)")),
        ("router 1 2\ndistance default 5\ndistance 1 to 0 16777216\n".to_string(), refused(3, "5 21 (Field)")),
        ("router 1 2\ndistances 0 - 1\ndistances 1 16777216 -".to_string(), refused(3, "5 21 (Field)")),
        ("router 1\n# a comment\nprefix 10.0.0.1/8".to_string(), refused(3, "5 8 (Field)")),
        ("router 1\n\nroute 0 as 1 path 1 id 1 peer 1".to_string(), refused(3, "4 8 (Place)")),
        (with_route("as 0 path 1 id 1 peer 1"), refused(3, "5 14 (Field)")),
        (with_route("as 23456 path 1 id 1 peer 1"), refused(3, "5 14 (Field)")),
        ("router 1\nend 3\n\n".to_string(), refused(2, "9 8 (Count)")),
        ("router 1\n\nend none\n".to_string(), refused(3, "2 8 (Cut)")),
        ("router 1\nend none\nraw 04\n# a comment".to_string(), refused(3, "2 8 (Cut)")),
        ("router 1\nend 2\nraw 04\n# a comment".to_string(), refused(3, "10 13 (Tail)")),
        ("router 1\nraw 04 00 00 00 00 00 06 00 00 00 03\n\n".to_string(), refused(3, "10 19 (Tail)")),
    ];
    for (notation, wanted) in faults {
        assert_eq!(fault(&notation), wanted);
    }
}

/// The line that passes the 64 is to blame for the number of routers.
#[test]
fn too_many_routers_are_traced_to_the_line_of_the_65th() {
    assert_eq!(snapshot(&routers(64, 8)).ids.len(), 64);
    for (count, each, line) in [(65, 8, 9), (65, 1, 65), (66, 65, 1), (96, 60, 2), (255, 64, 2)] {
        let wanted = format!("line {line}: the snapshot would be refused 5 0 (Field)");
        assert_eq!(fault(&routers(count, each)), wanted);
    }
    assert_eq!(fault(&routers(256, 64)), "line 4: the number of routers does not fit its byte");
}

/// So many routers, so many to a line, and then their distance.
fn routers(count: usize, each: usize) -> String {
    let ids: Vec<String> = (1..=count).map(|id| id.to_string()).collect();
    let lines: String = ids.chunks(each).map(|ids| format!("router {}\n", ids.join(" "))).collect();
    lines + "distance default 1"
}

#[test]
fn on_the_sheet_what_is_left_out_is_as_in_document_01() {
    let usual = "as 1 preference 100 path 2 origin igp med 0";
    let network = "router 1 2\ndistance 0 1 1\nprefix 0.0.0.0/0";
    let first = format!("route 0 {usual} id 1 peer 192.0.2.1");
    let second = format!("route 1 {usual} id 2 peer 192.0.2.2");
    let written = snapshot(&format!("{network}\n{first}\n{second}\nprefix 0.0.0.0/1\n{first}"));
    let short = "router 1 2\nprefix 0.0.0.0/0\nroute 0\nroute 1\nprefix 0.0.0.0/1\nroute 0";
    assert_eq!(snapshot_from_sheet(short), written);
    assert_eq!(snapshot_from_sheet("router 1 2\ndistance 1 to 0 7").distances, [[0, 1], [7, 0]]);
    assert_eq!(snapshot_from_sheet("router 1 2\ndistance default 7").distances, [[0, 7], [7, 0]]);
}

/// The sheet fills gaps; it lets nothing pass that is said twice or in part.
#[test]
fn the_sheet_excuses_nothing_else() {
    let fault = |notation: &str| make_from_sheet(notation).expect_err("a fault").to_string();
    assert_eq!(fault("route 0 as 1 as 1"), "line 1: 'as' is given twice");
    assert_eq!(fault("distance default 1\ndistance default 1"), "line 2: line 1 has a default distance already");
    assert_eq!(fault("distance 0 1 1\ndistance 0 1 1"), "line 2: line 1 has a distance from 0 to 1 already");
    assert_eq!(fault("router 1 2\ndistances 0 -"), "line 2: expected a value for each of 2 routers, not 1");
}

#[test]
fn raw_lines_are_bytes_and_count_as_records() {
    assert_eq!(make("raw 01 02\nraw ff").expect("encodable").bytes, [1, 2, 255]);
    assert_eq!(snapshot("router 1\nraw 04 00 00 00 00 00").prefixes.len(), 1);
}

#[test]
fn whatever_is_shown_makes_the_same_bytes_again() {
    for seed in 0..400 {
        let kind = ["small", "open", "mixed-small", "mixed-open"][seed as usize % 4];
        let whole = writer::write(&random::random(seed, kind).expect("a kind"));
        for bytes in [damage::damage(&whole, seed), whole] {
            let made = make(&show::show(&bytes)).expect("what is shown is sound");
            assert_eq!(made.bytes, bytes);
        }
    }
}
