//! The ranges of prefixes and routes, and TABLE: whether the used rows are those of a snapshot.

use crate::tables::*;

/// One row of the route columns.
pub struct Route {
    pub router: u32,
    pub neighbour_as: u32,
    pub preference: u32,
    pub path: u32,
    pub origin: u32,
    pub mark: u32,
    pub med: u32,
    pub neighbour_id: u32,
    pub peer: u32,
}

impl Route {
    pub fn load(columns: &Columns, row: usize) -> Route {
        Route {
            router: columns.router[row],
            neighbour_as: columns.neighbour_as[row],
            preference: columns.preference[row],
            path: columns.path[row],
            origin: columns.origin[row],
            mark: columns.mark[row],
            med: columns.med[row],
            neighbour_id: columns.neighbour_id[row],
            peer: columns.peer[row],
        }
    }

    pub fn store(&self, columns: &mut Columns, row: usize) {
        columns.router[row] = self.router;
        columns.neighbour_as[row] = self.neighbour_as;
        columns.preference[row] = self.preference;
        columns.path[row] = self.path;
        columns.origin[row] = self.origin;
        columns.mark[row] = self.mark;
        columns.med[row] = self.med;
        columns.neighbour_id[row] = self.neighbour_id;
        columns.peer[row] = self.peer;
    }

    pub fn in_range(&self, routers: usize) -> bool {
        (self.router as usize) < routers
            && !matches!(self.neighbour_as, 0 | STAND_IN | SHORT | u32::MAX)
            && (1..=0xffff).contains(&self.path)
            && self.origin <= 2
            && (self.mark == 1 || (self.mark == 0 && self.med == 0))
            && self.neighbour_id != 0
            && self.peer != 0
    }
}

pub fn prefix_in_range(address: u32, length: u32) -> bool {
    length <= 32 && address.checked_shl(length).unwrap_or(0) == 0
}

/// TABLE unless some snapshot reads into these used rows and counts.
pub fn judge_tables(counts: Counts, tables: &Tables) -> Result<(), Refusal> {
    let sound = (1..=ROUTERS).contains(&counts.routers)
        && counts.prefixes <= PREFIXES
        && counts.routes <= ROUTES
        && ids_sound(&tables.ids[..counts.routers])
        && distances_sound(tables.distances, counts.routers)
        && prefixes_sound(counts.prefixes, tables)
        && routes_sound(counts, tables);
    if sound {
        Ok(())
    } else {
        Err((TABLE, 0))
    }
}

fn ids_sound(ids: &[u32]) -> bool {
    ids.iter().enumerate().all(|(index, id)| *id != 0 && !ids[..index].contains(id))
}

fn distances_sound(distances: &[u32], routers: usize) -> bool {
    let mut rows = distances.chunks_exact(ROUTERS).take(routers).enumerate();
    rows.all(|(from, row)| row[from] == 0 && row[..routers].iter().all(|&distance| distance <= FARTHEST))
}

fn prefixes_sound(prefixes: usize, tables: &Tables) -> bool {
    let mut last = None;
    tables.address[..prefixes].iter().zip(&tables.length[..prefixes]).all(|(&address, &length)| {
        let rises = last < Some((address, length));
        last = Some((address, length));
        rises && prefix_in_range(address, length)
    })
}

/// The rows of each prefix in range and rising, and the prefixes' numbers of routes adding up.
fn routes_sound(counts: Counts, tables: &Tables) -> bool {
    let mut row = 0;
    for &in_prefix in &tables.prefix_routes[..counts.prefixes] {
        let end = row + in_prefix as usize;
        if in_prefix as usize > ROUTES_OF_PREFIX || end > counts.routes {
            return false;
        }
        let mut last = None;
        for route in (row..end).map(|row| Route::load(&tables.routes, row)) {
            if !route.in_range(counts.routers) || last >= Some((route.router, route.peer)) {
                return false;
            }
            last = Some((route.router, route.peer));
        }
        row = end;
    }
    row == counts.routes
}
