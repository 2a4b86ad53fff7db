//! A snapshot as the rest of this program sees it, its limits, and the numbers for a no.

use std::fmt;

/// The most routers, prefixes, routes of one prefix and routes in all.
pub const ROUTERS: usize = 64;
pub const PREFIXES: usize = 64;
pub const ROUTES_OF_PREFIX: usize = 256;
pub const ROUTES: usize = 1024;

/// The largest interior distance.
pub const FARTHEST: u32 = 16_777_215;

/// The numbers of 32 bits that are no neighbour's AS. 23456 stands in for each AS of four bytes where a router knows
/// only two (RFC 6793).
pub const NO_AS: [u32; 4] = [0, 23_456, 65_535, u32::MAX];

#[derive(Clone, Debug, Default, PartialEq, Eq)]
pub struct Snapshot {
    pub ids: Vec<u32>,
    /// `distances[from][to]`; 0 for equal pairs.
    pub distances: Vec<Vec<u32>>,
    pub prefixes: Vec<Prefix>,
}

#[derive(Clone, Debug, PartialEq, Eq)]
pub struct Prefix {
    pub address: u32,
    pub length: u8,
    pub routes: Vec<Route>,
}

/// A route with the fields of its record, in their order.
#[derive(Clone, Copy, Debug, PartialEq, Eq)]
pub struct Route {
    pub router: u8,
    pub neighbour_as: u32,
    pub preference: u32,
    pub path: u16,
    pub origin: u8,
    pub mark: u8,
    pub med: u32,
    pub neighbour_id: u32,
    pub peer: u32,
}

impl Route {
    pub fn owner(&self) -> usize {
        usize::from(self.router)
    }

    /// The MED that step 4 compares: an absent one counts as 0.
    pub fn compared_med(&self) -> u32 {
        if self.mark == 1 {
            self.med
        } else {
            0
        }
    }
}

impl Snapshot {
    pub fn routes(&self) -> usize {
        self.prefixes.iter().map(|prefix| prefix.routes.len()).sum()
    }
}

/// The numbers for a no.
#[derive(Clone, Copy, Debug, PartialEq, Eq)]
pub enum No {
    Room = 1,
    Cut = 2,
    Kind = 3,
    Place = 4,
    Field = 5,
    Order = 6,
    Twin = 7,
    Full = 8,
    Count = 9,
    Tail = 10,
    Table = 11,
    NoPrefix = 12,
}

#[derive(Clone, Copy, Debug, PartialEq, Eq)]
pub struct Refusal {
    pub number: No,
    pub place: usize,
}

impl fmt::Display for Refusal {
    fn fmt(&self, out: &mut fmt::Formatter) -> fmt::Result {
        write!(out, "refused {} {}", self.number as u32, self.place)
    }
}
