//! The lent tables, their limits, the counts, and the numbers for a no.

pub const ROUTERS: usize = 64;
pub const PREFIXES: usize = 64;
pub const ROUTES_OF_PREFIX: usize = 256;
pub const ROUTES: usize = 1024;
pub const FARTHEST: u32 = 16_777_215;

/// The last number that two bytes hold. A neighbour AS above it stands in a route of kind 7, any other one in kind 5.
pub const SHORT: u32 = 65_535;

/// What stands for any AS that a router cannot tell, so that no neighbour has it.
pub const STAND_IN: u32 = 23_456;

/// The most sessions of a policy, and the most clauses of a session.
pub const SESSIONS: usize = 64;
pub const CLAUSES: usize = 32;

/// The length of the longest snapshot; one byte more decides any input's answer.
pub const LONGEST: usize = 55_623;

pub const ROOM: u32 = 1;
pub const CUT: u32 = 2;
pub const KIND: u32 = 3;
pub const PLACE: u32 = 4;
pub const FIELD: u32 = 5;
pub const ORDER: u32 = 6;
pub const TWIN: u32 = 7;
pub const FULL: u32 = 8;
pub const COUNT: u32 = 9;
pub const TAIL: u32 = 10;
pub const TABLE: u32 = 11;
pub const NO_PREFIX: u32 = 12;

/// A refusal: its number and place.
pub type Refusal = (u32, usize);

#[derive(Clone, Copy, Debug, PartialEq, Eq)]
pub struct Counts {
    pub routers: usize,
    pub prefixes: usize,
    pub routes: usize,
}

/// The 14 lent tables; distances stand at from times 64, plus to.
pub struct Tables<'a> {
    pub ids: &'a mut [u32],
    pub distances: &'a mut [u32],
    pub address: &'a mut [u32],
    pub length: &'a mut [u32],
    pub prefix_routes: &'a mut [u32],
    pub routes: Columns<'a>,
}

/// One column for each field of a route; the routes stand prefix after prefix.
pub struct Columns<'a> {
    pub router: &'a mut [u32],
    pub neighbour_as: &'a mut [u32],
    pub preference: &'a mut [u32],
    pub path: &'a mut [u32],
    pub origin: &'a mut [u32],
    pub mark: &'a mut [u32],
    pub med: &'a mut [u32],
    pub neighbour_id: &'a mut [u32],
    pub peer: &'a mut [u32],
}

impl Tables<'_> {
    /// ROOM if a table is shorter than its limit.
    pub fn check_room(&self) -> Result<(), Refusal> {
        let network = self.ids.len() >= ROUTERS && self.distances.len() >= ROUTERS * ROUTERS;
        let prefixes = [&self.address, &self.length, &self.prefix_routes];
        let routes = &self.routes;
        let routes = [
            &routes.router,
            &routes.neighbour_as,
            &routes.preference,
            &routes.path,
            &routes.origin,
            &routes.mark,
            &routes.med,
            &routes.neighbour_id,
            &routes.peer,
        ];
        let room = network
            && prefixes.iter().all(|column| column.len() >= PREFIXES)
            && routes.iter().all(|column| column.len() >= ROUTES);
        if room {
            Ok(())
        } else {
            Err((ROOM, 0))
        }
    }
}

/// Room for the 14 tables, in the order in which `Tables` names them.
pub struct Lent(pub [Vec<u32>; 14]);

impl Lent {
    /// Tables of exactly their limits, with one value everywhere.
    pub fn filled(value: u32) -> Lent {
        const LIMITS: [usize; 5] = [ROUTERS, ROUTERS * ROUTERS, PREFIXES, PREFIXES, PREFIXES];
        Lent(std::array::from_fn(|table| vec![value; *LIMITS.get(table).unwrap_or(&ROUTES)]))
    }

    pub fn tables(&mut self) -> Tables<'_> {
        let [ids, distances, address, length, prefix_routes, routes @ ..] = &mut self.0;
        let [router, neighbour_as, preference, path, origin, mark, med, neighbour_id, peer] = routes;
        let routes = Columns { router, neighbour_as, preference, path, origin, mark, med, neighbour_id, peer };
        Tables { ids, distances, address, length, prefix_routes, routes }
    }
}
