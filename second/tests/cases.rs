//! Document 01's sums on paper, and cases worked out by hand where P1 to P11 do not tell two readings apart.
//! Each is forecast by trying everything and by searching, and both must print what is written here.

use second::decide::Mesh;
use second::print::printed;
use second::reader::read;
use second::record::cut;
use second::stable::{all_stable, extremes};
use second::{search, text};

fn bytes(notation: &str) -> Vec<u8> {
    text::make_from_sheet(notation).expect("the notation is sound").bytes
}

/// Checks the lines below the prefix line, and that both ways of forecasting agree.
fn forecasts(notation: &str, outcome: &str, routers: &[&str]) {
    let bytes = bytes(notation);
    let snapshot = read(&bytes).expect("the snapshot is sound");
    let mesh = Mesh::of(&snapshot, &snapshot.prefixes[0]);
    let (early, late) = extremes(&mesh, &all_stable(&mesh));
    assert_eq!((&early, &late), (&search::early(&mesh), &search::late(&mesh)));
    let mut wanted = format!("forecast {} 1\nprefix 198.51.100.0/24 {outcome}\n", routers.len());
    for (router, entries) in routers.iter().enumerate() {
        wanted += &format!("router {router} {entries}\n");
    }
    assert_eq!(printed(&bytes), wanted);
}

#[test]
fn p1_no_routes() {
    forecasts("router 1 2 3\nprefix 198.51.100.0/24", "settled", &["none", "none", "none"]);
}

#[test]
fn p2_one_route() {
    forecasts("router 1\nprefix 198.51.100.0/24\nroute 0", "settled", &["own 0"]);
}

#[test]
fn p3_preference_before_path() {
    let routes = "route 0 preference 110 path 5\nroute 1 preference 100 path 1";
    forecasts(&format!("router 1 2\nprefix 198.51.100.0/24\n{routes}"), "settled", &["own 0", "via 0 0"]);
}

#[test]
fn p4_an_own_route_put_out_by_another_router() {
    let routes = "route 0 as 1 med 0 id 2\nroute 0 as 2 med 5 id 1\nroute 1 as 2 med 0 id 3";
    forecasts(&format!("router 1 2\nprefix 198.51.100.0/24\n{routes}"), "settled", &["own 0", "own 2"]);
}

const P5: &str = "
router 10.0.0.1 10.0.0.2 10.0.0.3
distance 0 1 4
distance 0 2 5
distance 1 2 9
prefix 198.51.100.0/24
route 0 as 65001 med 0 id 2 peer 192.0.2.1
route 0 as 65002 med 5 id 1 peer 192.0.2.2
route 1 as 65002 med 0 id 2 peer 192.0.2.5
route 1 as 65001 med 5 id 1 peer 192.0.2.6
";

#[test]
fn p5_is_open() {
    forecasts(P5, "open 3", &["own 1 or own 0", "own 3 or own 2", "via 0 1 or via 0 0"]);
}

#[test]
fn p5_is_printed_as_in_document_01() {
    let page = "forecast 3 1\n\
                prefix 198.51.100.0/24 open 3\n\
                router 0 own 1 or own 0\n\
                router 1 own 3 or own 2\n\
                router 2 via 0 1 or via 0 0\n";
    assert_eq!(printed(&bytes(P5)), page);
}

#[test]
fn p5_has_169_bytes_and_15_records_before_its_end() {
    let bytes = bytes(P5);
    assert_eq!(bytes.len(), 169);
    assert_eq!(bytes[164..], [6, 0, 0, 0, 15]);
    assert_eq!(cut(&bytes).len(), 16);
}

#[test]
fn p5_has_two_stable_assignments() {
    let snapshot = read(&bytes(P5)).expect("the snapshot is sound");
    let stable = all_stable(&Mesh::of(&snapshot, &snapshot.prefixes[0]));
    assert_eq!(stable, [[Some(0), Some(2), Some(0)], [Some(1), Some(3), Some(1)]]);
}

#[test]
fn p6_a_lowest_med_that_nobody_holds() {
    let routes = "route 0 as 1 med 0 id 9\nroute 0 as 3 med 0 id 1\nroute 1 as 1 med 7";
    forecasts(&format!("router 1 2\nprefix 198.51.100.0/24\n{routes}"), "settled", &["own 1", "own 2"]);
}

#[test]
fn p7_the_lower_med_elsewhere() {
    let routes = "route 0 as 2 med 5\nroute 1 as 2 med 0";
    forecasts(&format!("router 1 2\nprefix 198.51.100.0/24\n{routes}"), "settled", &["via 1 1", "own 1"]);
}

#[test]
fn p8_an_absent_med_counts_as_0() {
    let routes = "route 0 med absent\nroute 1 med 1";
    forecasts(&format!("router 1 2\nprefix 198.51.100.0/24\n{routes}"), "settled", &["own 0", "via 0 0"]);
}

#[test]
fn p9_the_lower_peer_address() {
    let routes = "route 0 as 2 id 1\nroute 0 as 1 id 1";
    forecasts(&format!("router 1\nprefix 198.51.100.0/24\n{routes}"), "settled", &["own 0"]);
}

#[test]
fn p10_the_lower_router_id() {
    let routes = "route 0 as 1\nroute 1 as 2";
    let notation = format!("router 1 2 3\ndistance 0 2 7\ndistance 1 2 7\nprefix 198.51.100.0/24\n{routes}");
    forecasts(&notation, "settled", &["own 0", "own 1", "via 0 0"]);
}

#[test]
fn p11_meds_of_different_ases_are_not_compared() {
    let routes = "route 0 as 1 med 9\nroute 1 as 2 med 0";
    forecasts(&format!("router 1 2\nprefix 198.51.100.0/24\n{routes}"), "settled", &["own 0", "own 1"]);
}

#[test]
fn the_shorter_path_though_its_ids_are_higher() {
    let routes = "route 0 path 3\nroute 1 path 2";
    forecasts(&format!("router 1 2\nprefix 198.51.100.0/24\n{routes}"), "settled", &["via 1 1", "own 1"]);
}

#[test]
fn the_lower_origin_though_its_ids_are_higher() {
    let routes = "route 0 origin incomplete\nroute 1 origin egp";
    forecasts(&format!("router 1 2\nprefix 198.51.100.0/24\n{routes}"), "settled", &["via 1 1", "own 1"]);
}

#[test]
fn the_nearer_owner_though_its_id_is_higher() {
    let distances = "distance 0 2 9\ndistance 1 2 3";
    let notation = format!("router 1 2 3\n{distances}\nprefix 198.51.100.0/24\nroute 0 as 1\nroute 1 as 2");
    forecasts(&notation, "settled", &["own 0", "own 1", "via 1 1"]);
}

/// AS 3's lowest MED (row 1) is held by nobody; router 2's MED, between that and router 1's, is the one held late.
#[test]
fn late_may_need_a_med_in_between_at_three_routers() {
    let routes = [
        "route 0 as 2 med 0\nroute 0 as 3 med 0",
        "route 1 as 3 med 3\nroute 1 as 1 med 0",
        "route 2 as 1 med 3\nroute 2 as 3 med 2",
    ];
    let notation = format!("router 1 2 3\nprefix 198.51.100.0/24\n{}", routes.join("\n"));
    forecasts(&notation, "open 2", &["own 0 or own 0", "own 2 or own 3", "own 4 or own 5"]);
}

#[test]
fn the_distance_is_from_the_choosing_router_to_the_owner() {
    let distances = "distance 2 to 0 5\ndistance 2 to 1 3\ndistance 0 to 2 1\ndistance 1 to 2 9";
    let notation = format!("router 1 2 3\n{distances}\nprefix 198.51.100.0/24\nroute 0 as 1\nroute 1 as 2");
    forecasts(&notation, "settled", &["own 0", "own 1", "via 1 1"]);
}

#[test]
fn another_routers_route_goes_by_the_router_id_not_the_neighbours() {
    let notation = "router 9 1 5\nprefix 198.51.100.0/24\nroute 0 as 1 id 1\nroute 1 as 2 id 2";
    forecasts(notation, "settled", &["own 0", "own 1", "via 1 1"]);
}

#[test]
fn an_own_route_goes_by_the_neighbour_id_before_the_peer() {
    let notation = "router 1\nprefix 198.51.100.0/24\nroute 0 as 1 id 2\nroute 0 as 2 id 1";
    forecasts(notation, "settled", &["own 1"]);
}

#[test]
fn an_own_route_comes_before_one_at_distance_0_with_lower_ids() {
    let notation = "router 9 1\ndistance default 0\nprefix 198.51.100.0/24\nroute 0 as 1 id 7\nroute 1 as 2 id 2";
    forecasts(notation, "settled", &["own 0", "own 1"]);
}

#[test]
fn absent_and_present_0_tie() {
    let notation = "router 1 2\nprefix 198.51.100.0/24\nroute 0 med absent\nroute 1 med 0";
    forecasts(notation, "settled", &["own 0", "own 1"]);
}

#[test]
fn path_before_origin_before_med() {
    let routes = "route 0 path 3 med 0\nroute 1 origin egp med 0\nroute 2 origin igp med 9\nroute 3 origin incomplete";
    let notation = format!("router 1 2 3 4\nprefix 198.51.100.0/24\n{routes}");
    forecasts(&notation, "settled", &["via 2 2", "via 2 2", "own 2", "via 2 2"]);
}

/// Router 0's row 0 is no contender, as row 1 undercuts it; taken for one, it would put out router 1's route.
#[test]
fn contenders_have_passed_step_4_among_the_routers_own() {
    let routes = "route 0 as 1 med 5 id 1\nroute 0 as 1 med 0 id 3\nroute 0 as 2 med 0 id 2\nroute 1 as 1 med 7";
    forecasts(&format!("router 1 2\nprefix 198.51.100.0/24\n{routes}"), "settled", &["own 2", "own 3"]);
}

/// AS 1's lowest MED (row 1) is held by nobody, and the next one, at router 1, keeps router 2 off its row 3.
/// Who skips it lets router 2 go there for a moment, after which routers 2 and 3 never come back to late.
#[test]
fn late_may_need_a_med_in_between() {
    let routes = "
        route 0 as 2 med 0 id 1
        route 0 as 1 med 0 id 2
        route 1 as 1 med 1 id 1
        route 2 as 1 med 2 id 1
        route 2 as 4 med 5 id 2
        route 2 as 5 med 0 id 3
        route 3 as 5 med 5 id 1
        route 3 as 4 med 0 id 2";
    let notation = format!("router 1 2 3 4\nprefix 198.51.100.0/24\n{routes}");
    forecasts(&notation, "open 2", &["own 0 or own 0", "own 2 or own 2", "own 4 or own 5", "own 6 or own 7"]);
}

#[test]
fn without_prefixes_only_the_first_line_is_printed() {
    assert_eq!(printed(&bytes("router 1 2")), "forecast 2 0\n");
}

#[test]
fn each_prefix_has_its_own_rows() {
    let notation = "router 1 2\nprefix 0.0.0.0/0\nroute 1\nprefix 10.0.0.0/8\nprefix 10.0.0.0/9\nroute 0 as 7";
    let page = "forecast 2 3\nprefix 0.0.0.0/0 settled\nrouter 0 via 1 0\nrouter 1 own 0\n\
                prefix 10.0.0.0/8 settled\nrouter 0 none\nrouter 1 none\n\
                prefix 10.0.0.0/9 settled\nrouter 0 own 0\nrouter 1 via 0 0\n";
    assert_eq!(printed(&bytes(notation)), page);
}

#[test]
fn a_refusal_is_one_line() {
    assert_eq!(printed(&[]), "refused 2 0\n");
    assert_eq!(printed(&[1, 1, 9]), "refused 3 2\n");
}
