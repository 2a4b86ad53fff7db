//! Early and late where there are too many combinations to try, each by a way of its own.

use crate::decide::Mesh;
use crate::stable::{contenders, decision, is_stable, Held};
use std::collections::BTreeMap;

/// Early: each router starts with its first contender, then one router at a time decides again by the eight
/// steps from what is then available, until none would change. No router's standing ever goes back, so this
/// ends; and no router is ever pushed past its standing in a stable assignment, so it ends in the early one.
pub fn early(mesh: &Mesh) -> Held {
    let mut held: Held = (0..mesh.routers()).map(|router| contenders(mesh, router).first().copied()).collect();
    loop {
        let mut quiet = true;
        for router in 0..mesh.routers() {
            let row = decision(mesh, &held, router);
            quiet &= row == held[router];
            held[router] = row;
        }
        if quiet {
            return held;
        }
    }
}

/// Late: the neighbour ASes make offers. Each AS starts by offering its lowest MED among the contenders, and
/// every router takes its first contender that is not above its AS's offer. An AS whose offered MED nobody
/// then holds raises its offer by one step, to its next higher MED, or withdraws after its highest.
///
/// No offer rises above the AS's lowest MED held in the late assignment. While no offer is above those, no
/// router stands before its place in late; so a router that holds such a MED in late holds it as soon as it
/// is on offer, and it is not given up. And no MED below an offer is held: when it was given up, every router
/// that has it stood before it, and rising offers only open contenders further to the front. So in the end,
/// with every offer held or withdrawn, each router has its first contender that no held route beats.
pub fn late(mesh: &Mesh) -> Held {
    let lists: Vec<Vec<usize>> = (0..mesh.routers()).map(|router| contenders(mesh, router)).collect();
    let mut offers = Offers::lowest(mesh, &lists);
    loop {
        let own_held = offers.taken(mesh, &lists);
        if !offers.raise_one(mesh, &own_held) {
            let held: Held = (0..mesh.routers()).map(|router| decision(mesh, &own_held, router)).collect();
            assert!(is_stable(mesh, &held), "the offers ended in an assignment that is not stable");
            return held;
        }
    }
}

/// For each neighbour AS its MEDs not yet given up, falling, so that the one on offer is the last.
struct Offers(BTreeMap<u32, Vec<u32>>);

impl Offers {
    fn lowest(mesh: &Mesh, lists: &[Vec<usize>]) -> Offers {
        let mut offers: BTreeMap<u32, Vec<u32>> = BTreeMap::new();
        for &row in lists.iter().flatten() {
            let route = &mesh.routes[row];
            offers.entry(route.neighbour_as).or_default().push(route.compared_med());
        }
        for meds in offers.values_mut() {
            meds.sort_by(|a, b| b.cmp(a));
            meds.dedup();
        }
        Offers(offers)
    }

    /// Each router's first contender not above the offer; a withdrawn AS leaves all its routes.
    fn taken(&self, mesh: &Mesh, lists: &[Vec<usize>]) -> Held {
        let open = |row: &usize| {
            let route = &mesh.routes[*row];
            self.0[&route.neighbour_as].last().is_none_or(|&offer| route.compared_med() <= offer)
        };
        lists.iter().map(|list| list.iter().copied().find(open)).collect()
    }

    /// Raises one offer that nobody holds; false where there is none.
    fn raise_one(&mut self, mesh: &Mesh, held: &[Option<usize>]) -> bool {
        let is_held = |neighbour_as: u32, med: u32| {
            let mut routes = held.iter().flatten().map(|&row| &mesh.routes[row]);
            routes.any(|route| route.neighbour_as == neighbour_as && route.compared_med() == med)
        };
        for (&neighbour_as, meds) in &mut self.0 {
            if meds.last().is_some_and(|&offer| !is_held(neighbour_as, offer)) {
                meds.pop();
                return true;
            }
        }
        false
    }
}
