//! Valid snapshots made at random, the same for the same seed, in kinds that each stress something else.

use crate::seed::Seeded;
use crate::snapshot::*;
use std::collections::{BTreeMap, BTreeSet};

/// The kinds by name. Each has a second form, with `mixed-` before its name.
pub const KINDS: [&str; 9] =
    ["small", "open", "wide", "typical", "tied", "limits", "chain-early", "chain-late", "sessions"];

/// A kind of random snapshots: small kinds in turn, one of the large ones now and then; half of all with ASes of both
/// lengths.
pub fn some_kind(seed: u64) -> String {
    let (small, large) = KINDS.split_at(2);
    let kind = match seed % 20 {
        0 => large[(seed / 20) as usize % large.len()],
        _ => small[seed as usize % 2],
    };
    let form = ["", "mixed-"][(seed / 2 + seed / 20) as usize % 2];
    format!("{form}{kind}")
}

/// The last AS that two bytes hold.
const LAST_SHORT_AS: u32 = 65_534;

/// A snapshot of the kind, or nothing where there is no such kind.
pub fn random(seed: u64, kind: &str) -> Option<Snapshot> {
    let mut seeded = Seeded::new(seed);
    match kind.strip_prefix("mixed-") {
        Some(kind) => Some(mixed(of_kind(&mut seeded, kind)?, &mut seeded)),
        None => of_kind(&mut seeded, kind),
    }
}

fn of_kind(seeded: &mut Seeded, kind: &str) -> Option<Snapshot> {
    let snapshot = match kind {
        "small" => small(seeded),
        "open" => open(seeded),
        "wide" => network(seeded, ROUTERS, 4, wide),
        "typical" => full(seeded, &[16; PREFIXES], varied_route),
        "tied" => full(seeded, &[ROUTES_OF_PREFIX; 4], tied_route),
        "limits" => full(seeded, &limits(), long_route),
        "chain-early" => chained(seeded, chain_early),
        "chain-late" => chained(seeded, chain_late),
        "sessions" => full(seeded, &[16; PREFIXES], session_route),
        _ => return None,
    };
    Some(snapshot)
}

/// A few routers and routes, with field values so few that every step gets its ties.
fn small(seeded: &mut Seeded) -> Snapshot {
    let routers = 1 + seeded.below(4);
    let prefixes = seeded.below(3);
    network(seeded, routers, prefixes, |seeded| {
        let routes = seeded.below(7);
        (0..routes).map(|_| small_route(seeded, routers)).collect()
    })
}

fn small_route(seeded: &mut Seeded, routers: usize) -> Route {
    let mark = seeded.pick(&[0, 1, 1, 1]);
    Route {
        router: seeded.below(routers) as u8,
        neighbour_as: seeded.within(1, 3),
        preference: seeded.pick(&[100, 100, 100, 100, 110]),
        path: seeded.pick(&[2, 2, 2, 2, 1, 65_535]),
        origin: seeded.pick(&[0, 0, 0, 0, 1, 2]),
        mark,
        med: u32::from(mark) * seeded.within(0, 3),
        neighbour_id: seeded.within(1, 4),
        peer: seeded.within(1, 4),
    }
}

/// Prefixes that MED decides, often openly.
fn open(seeded: &mut Seeded) -> Snapshot {
    let routers = 2 + seeded.below(5);
    let prefixes = 1 + seeded.below(3);
    network(seeded, routers, prefixes, |seeded| match seeded.below(2) {
        0 => all_crossed(seeded, routers),
        _ => entangled(seeded, routers),
    })
}

/// Pairs of routers with crossed MEDs as in P5, and some routes beside them.
fn all_crossed(seeded: &mut Seeded, routers: usize) -> Vec<Route> {
    let mut routes = Vec::new();
    for first in (0..routers - 1).step_by(2) {
        routes.extend(crossed(seeded, first as u8));
    }
    let more = seeded.below(4);
    routes.extend((0..more).map(|_| Route { preference: 100, path: 2, origin: 0, ..small_route(seeded, routers) }));
    routes
}

/// Up to four routers that each hear three ASes, liked in any order and with any MEDs.
fn entangled(seeded: &mut Seeded, routers: usize) -> Vec<Route> {
    let mut routes = Vec::new();
    for router in 0..routers.min(4) as u8 {
        for neighbour_as in 1..=3 {
            let (med, neighbour_id, peer) = (seeded.within(0, 5), seeded.within(1, 9), seeded.within(1, 200));
            routes.push(contesting(router, neighbour_as, med, neighbour_id, peer));
        }
    }
    routes
}

/// Two routers and two ASes: each router prefers by id the route whose MED the other one's undercuts.
fn crossed(seeded: &mut Seeded, first: u8) -> Vec<Route> {
    let base = 1 + 2 * u32::from(first) * seeded.within(0, 1);
    let mut routes = Vec::new();
    for (router, other) in [(first, 0), (first + 1, 1)] {
        for (liked, neighbour_as) in [(other == 1, base), (other == 0, base + 1)] {
            let (med, neighbour_id) = if liked { (seeded.within(2, 4), 2) } else { (seeded.within(0, 2), 3) };
            let peer = 5 + seeded.within(0, 200);
            routes.push(contesting(router, neighbour_as, med, neighbour_id, peer));
        }
    }
    routes
}

/// All routers in crossed pairs, which share their ASes or have their own, and less liked routes up to the limit.
fn wide(seeded: &mut Seeded) -> Vec<Route> {
    let mut routes: Vec<Route> = (0..ROUTERS as u8).step_by(2).flat_map(|first| crossed(seeded, first)).collect();
    routes = risen(routes);
    for serial in routes.len()..ROUTES_OF_PREFIX {
        let (router, neighbour_as) = (seeded.below(ROUTERS) as u8, seeded.within(1, 128));
        let (med, neighbour_id) = (seeded.within(0, 4), seeded.within(2, 9));
        routes.push(contesting(router, neighbour_as, med, neighbour_id, 1000 + serial as u32));
    }
    routes
}

/// All 64 routers, and as many routes in each prefix as asked.
fn full(seeded: &mut Seeded, sizes: &[usize], route: fn(&mut Seeded, u32) -> Route) -> Snapshot {
    let mut sizes = sizes.iter();
    network(seeded, ROUTERS, sizes.len(), |seeded| {
        let size = *sizes.next().expect("a size for each prefix");
        (0..size as u32).map(|serial| route(seeded, serial)).collect()
    })
}

/// Three prefixes with all the routes they may have, and the rest spread to the last of the 1,024.
fn limits() -> Vec<usize> {
    let mut sizes = vec![4; PREFIXES];
    sizes[..3].fill(ROUTES_OF_PREFIX);
    sizes[PREFIXES - 1] = ROUTES - 3 * ROUTES_OF_PREFIX - (PREFIXES - 4) * 4;
    sizes
}

/// Routes as a network may have them; the serial number keeps the peers apart.
fn varied_route(seeded: &mut Seeded, serial: u32) -> Route {
    let mark = seeded.pick(&[0, 1, 1, 1]);
    Route {
        router: seeded.below(ROUTERS) as u8,
        neighbour_as: seeded.within(LAST_SHORT_AS - 7, LAST_SHORT_AS),
        preference: seeded.pick(&[100, 100, 100, 100, 100, 100, 100, 90]),
        path: seeded.pick(&[2, 2, 2, 3]),
        origin: seeded.pick(&[0, 0, 0, 2]),
        mark,
        med: u32::from(mark) * seeded.pick(&[0, 10, 20, 50, u32::MAX]),
        neighbour_id: seeded.within(1, u32::MAX),
        peer: (seeded.within(0, 0xffff) << 16) + serial + 1,
    }
}

/// The same with ASes that need four bytes, up to the last one; all of them are the same in their last two bytes.
fn long_route(seeded: &mut Seeded, serial: u32) -> Route {
    let route = varied_route(seeded, serial);
    Route { neighbour_as: ((route.neighbour_as + 1) << 16) | LAST_SHORT_AS, ..route }
}

/// A route of one of four sessions that every fourth router has, so that there are 64 sessions in all.
fn session_route(seeded: &mut Seeded, serial: u32) -> Route {
    let (path, peer) = (seeded.pick(&[1, 1, 2, 3]), 0xc000_0201 + 4 * serial + seeded.within(0, 3));
    Route { router: 4 * serial as u8, path, peer, ..varied_route(seeded, serial) }
}

/// Routes that stay tied until ids and peers are compared.
fn tied_route(seeded: &mut Seeded, serial: u32) -> Route {
    let router = seeded.below(ROUTERS) as u8;
    let peer = (seeded.within(0, 0xffff) << 16) + serial + 1;
    contesting(router, 1, 0, 1, peer)
}

/// A route that no other one of its making beats in steps 1 to 3.
fn contesting(router: u8, neighbour_as: u32, med: u32, neighbour_id: u32, peer: u32) -> Route {
    Route { router, neighbour_as, preference: 100, path: 2, origin: 0, mark: 1, med, neighbour_id, peer }
}

/// Four prefixes that each hold the longest chain, at routers and ASes taken at random.
fn chained(seeded: &mut Seeded, chain: fn(usize, usize) -> Vec<Route>) -> Snapshot {
    network(seeded, ROUTERS, 4, |seeded| {
        let routers = shuffled(seeded, ROUTERS);
        let below_all = seeded.within(0, 60_000);
        // The ASes are the numbers from the next one on; the place of one that is no AS is taken by this number.
        let called = |number: u32| if NO_AS.contains(&(below_all + number)) { below_all } else { below_all + number };
        let moved = |route: Route| Route {
            router: routers[route.owner()] as u8,
            neighbour_as: called(route.neighbour_as),
            ..route
        };
        chain(17, ROUTES_OF_PREFIX).into_iter().map(moved).collect()
    })
}

/// A chain of displacements on the way to early. Route k belongs to router k mod `routers` and to one of
/// `routers - 1` ASes, k mod that number, and undercuts all routes before it; each router likes its routes in
/// their order. So the routers start at the first ones, where one too many stands in AS 0; whoever takes
/// route k displaces the owner of the route `routers - 1` before it, who can only go on to route k + 1. With
/// 17 routers and 256 routes, 240 rounds move one router each, and one more finds nothing to move.
pub fn chain_early(routers: usize, routes: usize) -> Vec<Route> {
    (0..routes).map(|k| chain_route(k % routers, k % (routers - 1), routes - k, k)).collect()
}

/// The same with the parts exchanged, on the way to late: the ASes offer, by rising MED, to routers which like
/// a later route better. The first round finds each router its place among the first offers, then 239 rounds
/// move one router each, and one more finds nothing to move (with 17 ASes, 16 routers and 256 routes).
pub fn chain_late(ases: usize, routes: usize) -> Vec<Route> {
    (0..routes).map(|k| chain_route(k % (ases - 1), k % ases, k, routes - k)).collect()
}

fn chain_route(router: usize, neighbour_as: usize, med: usize, liking: usize) -> Route {
    let liking = 1 + liking as u32;
    contesting(router as u8, 1 + neighbour_as as u32, med as u32, liking, liking)
}

/// The same snapshot with its ASes called otherwise, each by a name of its own. Which routes are of one AS stays, and
/// so does every forecast; whoever takes an AS for its last two bytes finds more routes of one AS than there are.
fn mixed(mut snapshot: Snapshot, seeded: &mut Seeded) -> Snapshot {
    let routes = snapshot.prefixes.iter().flat_map(|prefix| &prefix.routes);
    let ases: BTreeSet<u32> = routes.map(|route| route.neighbour_as).collect();
    let names: Vec<u32> = names().skip(seeded.below(14)).take(ases.len()).collect();
    let named = shuffled(seeded, ases.len()).into_iter().map(|place| names[place]);
    let called: BTreeMap<u32, u32> = ases.into_iter().zip(named).collect();
    for route in snapshot.prefixes.iter_mut().flat_map(|prefix| &mut prefix.routes) {
        route.neighbour_as = called[&route.neighbour_as];
    }
    snapshot
}

/// Different ASes, those of two bytes and of four beside each other that are the same in their last two bytes. Some of
/// these are no AS by themselves.
fn names() -> impl Iterator<Item = u32> {
    let ends = [1, 23_456, LAST_SHORT_AS, 65_535, 2, 0].into_iter().chain(3..23_456);
    let names = ends.flat_map(|end| [0, 1, 0xffff].map(|front: u32| (front << 16) | end));
    names.filter(|name| !NO_AS.contains(name))
}

/// A network with its prefixes; `routes` makes each prefix's routes, in any order.
fn network(
    seeded: &mut Seeded,
    routers: usize,
    prefixes: usize,
    mut routes: impl FnMut(&mut Seeded) -> Vec<Route>,
) -> Snapshot {
    let ids = shuffled(seeded, routers).into_iter().map(|rank| (rank as u32 + 1) * 0x0301_0107).collect();
    let mut distances = vec![vec![0; routers]; routers];
    for (from, row) in distances.iter_mut().enumerate() {
        for (to, distance) in row.iter_mut().enumerate().filter(|(to, _)| *to != from) {
            *distance = seeded.pick(&[0, 1, 1, 2, 2, 3, 10 + to as u32, FARTHEST]);
        }
    }
    let named = prefix_names(seeded, prefixes).into_iter();
    let prefixes = named.map(|(address, length)| Prefix { address, length, routes: risen(routes(seeded)) }).collect();
    Snapshot { ids, distances, prefixes }
}

/// Routes in the order of the format; of those with the same router and peer the first stays.
fn risen(mut routes: Vec<Route>) -> Vec<Route> {
    routes.sort_by_key(|route| (route.router, route.peer));
    routes.dedup_by_key(|route| (route.router, route.peer));
    routes
}

/// Different prefixes in their order, 0.0.0.0/0 and equal addresses often among them.
fn prefix_names(seeded: &mut Seeded, prefixes: usize) -> Vec<(u32, u8)> {
    let mut names = Vec::new();
    while names.len() < prefixes {
        let length = seeded.within(0, 32);
        let anywhere = seeded.within(0, u32::MAX);
        let address = seeded.pick(&[0, 0x0a00_0000, 0xc633_6400, anywhere]);
        names.push((address & u32::MAX.checked_shl(32 - length).unwrap_or(0), length as u8));
        names.sort();
        names.dedup();
    }
    names
}

/// 0, 1, 2 and so on up to `count`, in a random order.
fn shuffled(seeded: &mut Seeded, count: usize) -> Vec<usize> {
    let mut order: Vec<usize> = (0..count).collect();
    for last in (1..count).rev() {
        order.swap(last, seeded.below(last + 1));
    }
    order
}
