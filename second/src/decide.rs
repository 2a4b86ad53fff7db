//! Choosing among what is available: the eight steps of document 01, each narrowing the rows still kept.

use crate::snapshot::{Prefix, Route, Snapshot};
use std::cmp::Reverse;

/// One prefix's routes in the network that decides about them.
pub struct Mesh<'a> {
    pub ids: &'a [u32],
    pub distances: &'a [Vec<u32>],
    pub routes: &'a [Route],
}

impl<'a> Mesh<'a> {
    pub fn of(snapshot: &'a Snapshot, prefix: &'a Prefix) -> Self {
        Mesh { ids: &snapshot.ids, distances: &snapshot.distances, routes: &prefix.routes }
    }

    pub fn routers(&self) -> usize {
        self.ids.len()
    }

    pub fn is_own(&self, router: usize, row: usize) -> bool {
        self.routes[row].owner() == router
    }

    /// The rows that a router owns.
    pub fn own(&self, router: usize) -> Vec<usize> {
        (0..self.routes.len()).filter(|&row| self.is_own(router, row)).collect()
    }

    /// The row that the eight steps leave of the available ones.
    pub fn choose(&self, router: usize, available: Vec<usize>) -> Option<usize> {
        let mut kept = available;
        self.steps_1_to_3(&mut kept);
        self.step_4(&mut kept);
        // 5: the router's own routes, if any is kept.
        keep_lowest(&mut kept, |row| !self.is_own(router, row));
        // 6: the interior distance; equal pairs hold 0, as an own route's distance is.
        keep_lowest(&mut kept, |row| self.distances[router][self.routes[row].owner()]);
        // 7: the neighbour's id on own routes, the owning router's on others.
        keep_lowest(&mut kept, |row| self.compared_id(router, row));
        // 8: the peer address.
        keep_lowest(&mut kept, |row| self.routes[row].peer);
        assert!(kept.len() <= 1, "the eight steps leave one row at most");
        kept.pop()
    }

    /// The highest local preference, then the shortest AS path, then the lowest origin.
    pub fn steps_1_to_3(&self, kept: &mut Vec<usize>) {
        keep_lowest(kept, |row| Reverse(self.routes[row].preference));
        keep_lowest(kept, |row| self.routes[row].path);
        keep_lowest(kept, |row| self.routes[row].origin);
    }

    /// Routes for which no route still kept has the same neighbour AS and a lower MED.
    pub fn step_4(&self, kept: &mut Vec<usize>) {
        let before = kept.clone();
        kept.retain(|&row| !before.iter().any(|&other| self.lower_med(other, row)));
    }

    fn lower_med(&self, other: usize, row: usize) -> bool {
        let (other, route) = (&self.routes[other], &self.routes[row]);
        other.neighbour_as == route.neighbour_as && other.compared_med() < route.compared_med()
    }

    fn compared_id(&self, router: usize, row: usize) -> u32 {
        if self.is_own(router, row) {
            self.routes[row].neighbour_id
        } else {
            self.ids[self.routes[row].owner()]
        }
    }
}

/// Keeps the rows whose key is the lowest.
fn keep_lowest<Key: Ord>(kept: &mut Vec<usize>, key: impl Fn(usize) -> Key) {
    if let Some(lowest) = kept.iter().map(|&row| key(row)).min() {
        kept.retain(|&row| key(row) == lowest);
    }
}
