//! Snapshots in threes: the least, and then one and ten measures more of what makes a call cost more.

use plain::{read, Contest, Lent};
use second::random::random;
use second::snapshot::{Prefix, Route, Snapshot};
use second::writer::write;

/// The rounds to early that the three forecasts take.
const ROUNDS: [usize; 3] = [2, 24, 222];

/// One router and six prefixes, with 0, 17 and 170 routes in each.
pub fn in_routes() -> [Vec<u8>; 3] {
    [0, 17, 170].map(|routes| {
        let routes: Vec<Route> = (0..routes).map(|k| contender(0, 0, 0, k)).collect();
        let prefixes = (0..6).map(|number| Prefix { address: number << 24, length: 8, routes: routes.clone() });
        write(&Snapshot { ids: vec![1], distances: vec![vec![0]], prefixes: prefixes.collect() })
    })
}

/// A typical snapshot's first 0, 6 and 60 prefixes of 16 routes.
pub fn in_prefixes() -> [Vec<u8>; 3] {
    [0, 6, 60].map(|prefixes| {
        let mut snapshot = random(1, "typical").expect("a kind");
        snapshot.prefixes.truncate(prefixes);
        write(&snapshot)
    })
}

/// 64 routers and one prefix of 256 routes, of which the three differ in 16 MEDs and have the same forecast.
pub fn in_rounds() -> Result<[Vec<u8>; 3], String> {
    let three = [35, 57, 256].map(|med| one_prefix(chain(med)));
    for (bytes, wanted) in three.iter().zip(ROUNDS) {
        let rounds = rounds(bytes);
        if rounds != wanted {
            return Err(format!("{rounds} rounds in the place of {wanted}"));
        }
    }
    Ok(three)
}

/// Routers like a lower `liking` better.
fn contender(router: usize, neighbour_as: usize, med: usize, liking: usize) -> Route {
    let (router, neighbour_as, med, liking) = (router as u8, 1 + neighbour_as as u32, med as u32, 1 + liking as u32);
    let (neighbour_id, peer) = (liking, liking);
    Route { router, neighbour_as, preference: 100, path: 2, origin: 0, mark: 1, med, neighbour_id, peer }
}

/// The chain to early of the README's, as far as route 237; the two routes after it have too high a MED to take part.
/// Sixteen more routers have a route each, one in each AS, with the MED given. In the first round these put out all
/// routes with a higher MED, so that the chain begins in its middle; then they are put out themselves.
fn chain(med: usize) -> Vec<Route> {
    let links = (0..240).map(|k| contender(k % 17, k % 16, if k < 238 { 256 - k } else { 256 }, k));
    links.chain((0..16).map(|neighbour_as| contender(17 + neighbour_as, neighbour_as, med, 0))).collect()
}

fn one_prefix(mut routes: Vec<Route>) -> Vec<u8> {
    routes.sort_by_key(|route| (route.router, route.peer));
    let mut snapshot = random(1, "tied").expect("a kind");
    snapshot.prefixes.truncate(1);
    snapshot.prefixes[0].routes = routes;
    write(&snapshot)
}

/// The rounds that change something on the way to early.
fn rounds(bytes: &[u8]) -> usize {
    let mut lent = Lent::filled(0);
    let mut tables = lent.tables();
    let counts = read(bytes, &mut tables).expect("it was made by the writer");
    let contest = Contest::new(&tables.routes, 0..counts.routes, counts.routers);
    contest.settle(&mut contest.all_first())
}
