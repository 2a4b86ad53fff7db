//! Reading: one pass that judges and writes nothing, then one that fills the tables.

use crate::cursor;
use crate::judge::{prefix_in_range, Route};
use crate::tables::*;

type Cursor<'a> = cursor::Cursor<'a, 7>;

pub fn read(input: &[u8], tables: &mut Tables) -> Result<Counts, Refusal> {
    tables.check_room()?;
    let counts = judge(input)?;
    fill(input, counts.routers, tables);
    Ok(counts)
}

fn judge(input: &[u8]) -> Result<Counts, Refusal> {
    let mut cursor = Cursor::new(input);
    let &[routers] = cursor.only(1)?;
    let routers = usize::from(routers);
    cursor.check((1..=ROUTERS).contains(&routers), FIELD)?;
    cursor.pass(1);
    judge_ids(&mut cursor, routers)?;
    judge_distances(&mut cursor, routers)?;
    let (prefixes, routes) = judge_prefixes(&mut cursor, routers)?;
    Ok(Counts { routers, prefixes, routes })
}

fn judge_ids(cursor: &mut Cursor, routers: usize) -> Result<(), Refusal> {
    let first = cursor.place;
    for due in 0..routers {
        let &[index, a, b, c, d] = cursor.only(2)?;
        let id = [a, b, c, d];
        cursor.check(usize::from(index) < routers && id != [0; 4], FIELD)?;
        cursor.check(usize::from(index) == due, ORDER)?;
        let mut before = cursor.input[first..cursor.place].chunks_exact(6);
        cursor.check(before.all(|record| record[2..] != id), TWIN)?;
        cursor.pass(5);
    }
    Ok(())
}

fn judge_distances(cursor: &mut Cursor, routers: usize) -> Result<(), Refusal> {
    for due_from in 0..routers {
        for due_to in (0..routers).filter(|&to| to != due_from) {
            let &[from, to, a, b, c, d] = cursor.only(3)?;
            let (from, to) = (usize::from(from), usize::from(to));
            let distance = u32::from_be_bytes([a, b, c, d]);
            cursor.check(from < routers && to < routers && distance <= FARTHEST, FIELD)?;
            cursor.check(from == due_from && to == due_to, ORDER)?;
            cursor.pass(6);
        }
    }
    Ok(())
}

/// What the next prefix and the next route must rise above.
#[derive(Default)]
struct Last {
    prefix: Option<(u32, u32)>,
    route: Option<(u32, u32)>,
}

/// Prefixes and routes up to the end record; the numbers of both.
fn judge_prefixes(cursor: &mut Cursor, routers: usize) -> Result<(usize, usize), Refusal> {
    let mut last = Last::default();
    let (mut prefixes, mut routes, mut in_prefix) = (0, 0, 0);
    loop {
        match cursor.kind()? {
            4 => {
                cursor.check(prefixes < PREFIXES, FULL)?;
                judge_prefix(cursor, &mut last)?;
                prefixes += 1;
                in_prefix = 0;
            }
            kind @ (5 | 7) => {
                cursor.check(prefixes > 0, PLACE)?;
                cursor.check(in_prefix < ROUTES_OF_PREFIX && routes < ROUTES, FULL)?;
                judge_route(kind, cursor, routers, &mut last)?;
                routes += 1;
                in_prefix += 1;
            }
            6 => {
                cursor.end()?;
                return Ok((prefixes, routes));
            }
            _ => return cursor.no(PLACE),
        }
    }
}

fn judge_prefix(cursor: &mut Cursor, last: &mut Last) -> Result<(), Refusal> {
    let (address, length) = decode_prefix(cursor.body()?);
    cursor.check(prefix_in_range(address, length), FIELD)?;
    cursor.check(last.prefix < Some((address, length)), ORDER)?;
    *last = Last { prefix: Some((address, length)), route: None };
    cursor.pass(5);
    Ok(())
}

fn judge_route(kind: u8, cursor: &mut Cursor, routers: usize, last: &mut Last) -> Result<(), Refusal> {
    let (route, _) = decode_route(kind, &cursor.input[cursor.place + 1..]).ok_or((CUT, cursor.place))?;
    cursor.check(route.in_range(routers) && (kind == 5 || route.neighbour_as > SHORT), FIELD)?;
    cursor.check(last.route < Some((route.router, route.peer)), ORDER)?;
    last.route = Some((route.router, route.peer));
    cursor.pass(if kind == 5 { 23 } else { 25 });
    Ok(())
}

fn decode_prefix(&[a, b, c, d, length]: &[u8; 5]) -> (u32, u32) {
    (u32::from_be_bytes([a, b, c, d]), u32::from(length))
}

/// The route whose body begins here, if it is whole, and what stands behind it. Only the AS is shorter in kind 5.
fn decode_route(kind: u8, body: &[u8]) -> Option<(Route, &[u8])> {
    let (router, neighbour_as, rest) = match (kind, body) {
        (5, &[router, a, b, ref rest @ ..]) => (router, u32::from(u16::from_be_bytes([a, b])), rest),
        (7, &[router, a, b, c, d, ref rest @ ..]) => (router, u32::from_be_bytes([a, b, c, d]), rest),
        _ => return None,
    };
    let (rest, after) = rest.split_first_chunk::<20>()?;
    let four = |at: usize| u32::from_be_bytes([rest[at], rest[at + 1], rest[at + 2], rest[at + 3]]);
    let route = Route {
        router: u32::from(router),
        neighbour_as,
        preference: four(0),
        path: u32::from(u16::from_be_bytes([rest[4], rest[5]])),
        origin: u32::from(rest[6]),
        mark: u32::from(rest[7]),
        med: four(8),
        neighbour_id: four(12),
        peer: four(16),
    };
    Some((route, after))
}

/// Fills the used rows from an input that was judged to be sound.
fn fill(input: &[u8], routers: usize, tables: &mut Tables) {
    let (ids, rest) = input[2..].split_at(6 * routers);
    let (distances, mut rest) = rest.split_at(7 * routers * (routers - 1));
    fill_network(ids, distances, routers, tables);
    let (mut prefix, mut route) = (0, 0);
    loop {
        match rest {
            [4, body @ ..] => {
                let (body, after) = body.split_first_chunk().expect("a judged prefix");
                (tables.address[prefix], tables.length[prefix]) = decode_prefix(body);
                tables.prefix_routes[prefix] = 0;
                prefix += 1;
                rest = after;
            }
            [kind @ (5 | 7), body @ ..] => {
                let (decoded, after) = decode_route(*kind, body).expect("a judged route");
                decoded.store(&mut tables.routes, route);
                tables.prefix_routes[prefix - 1] += 1;
                route += 1;
                rest = after;
            }
            _ => return,
        }
    }
}

fn fill_network(ids: &[u8], distances: &[u8], routers: usize, tables: &mut Tables) {
    for (entry, record) in tables.ids.iter_mut().zip(ids.chunks_exact(6)) {
        *entry = u32::from_be_bytes([record[2], record[3], record[4], record[5]]);
    }
    for router in 0..routers {
        tables.distances[router * ROUTERS + router] = 0;
    }
    for record in distances.chunks_exact(7) {
        let at = usize::from(record[1]) * ROUTERS + usize::from(record[2]);
        tables.distances[at] = u32::from_be_bytes([record[3], record[4], record[5], record[6]]);
    }
}
