//! Writing the tables back as a snapshot.

use crate::judge::{judge_tables, Route};
use crate::tables::*;

/// Writes the snapshot into `out` and returns its length.
pub fn write(counts: Counts, tables: &Tables, out: &mut [u8]) -> Result<usize, Refusal> {
    tables.check_room()?;
    judge_tables(counts, tables)?;
    let Counts { routers, prefixes, routes } = counts;
    let pairs = routers * (routers - 1);
    let long = tables.routes.neighbour_as[..routes].iter().filter(|&&neighbour_as| neighbour_as > SHORT).count();
    let length = 2 + 6 * routers + 7 * pairs + 6 * prefixes + 24 * routes + 2 * long + 5;
    let out = out.get_mut(..length).ok_or((ROOM, 0))?;
    let mut output = Output { rest: out };
    write_network(routers, tables, &mut output);
    write_prefixes(prefixes, tables, &mut output);
    output.put([6]);
    output.put(((1 + routers + pairs + prefixes + routes) as u32).to_be_bytes());
    Ok(length)
}

/// What of the output is still to be written.
struct Output<'a> {
    rest: &'a mut [u8],
}

impl Output<'_> {
    fn put<const LENGTH: usize>(&mut self, bytes: [u8; LENGTH]) {
        let rest = std::mem::take(&mut self.rest);
        let (here, after) = rest.split_first_chunk_mut().expect("the length was counted");
        *here = bytes;
        self.rest = after;
    }
}

fn write_network(routers: usize, tables: &Tables, output: &mut Output) {
    output.put([1, routers as u8]);
    for (index, id) in tables.ids[..routers].iter().enumerate() {
        output.put([2, index as u8]);
        output.put(id.to_be_bytes());
    }
    for (from, row) in tables.distances.chunks_exact(ROUTERS).take(routers).enumerate() {
        for (to, distance) in row[..routers].iter().enumerate().filter(|(to, _)| *to != from) {
            output.put([3, from as u8, to as u8]);
            output.put(distance.to_be_bytes());
        }
    }
}

fn write_prefixes(prefixes: usize, tables: &Tables, output: &mut Output) {
    let mut row = 0;
    for prefix in 0..prefixes {
        output.put([4]);
        output.put(tables.address[prefix].to_be_bytes());
        output.put([tables.length[prefix] as u8]);
        let end = row + tables.prefix_routes[prefix] as usize;
        for route in (row..end).map(|row| Route::load(&tables.routes, row)) {
            write_route(&route, output);
        }
        row = end;
    }
}

fn write_route(route: &Route, output: &mut Output) {
    if route.neighbour_as > SHORT {
        output.put([7, route.router as u8]);
        output.put(route.neighbour_as.to_be_bytes());
    } else {
        output.put([5, route.router as u8]);
        output.put((route.neighbour_as as u16).to_be_bytes());
    }
    output.put(route.preference.to_be_bytes());
    output.put((route.path as u16).to_be_bytes());
    output.put([route.origin as u8, route.mark as u8]);
    output.put(route.med.to_be_bytes());
    output.put(route.neighbour_id.to_be_bytes());
    output.put(route.peer.to_be_bytes());
}
