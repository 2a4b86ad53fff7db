//! One record of a snapshot: a byte of kind and a body whose length the kind fixes.
//! Nothing is judged here: any values that fit their bytes can be encoded and decoded.

use crate::snapshot::Route;

#[derive(Clone, Copy, Debug, PartialEq, Eq)]
pub enum Record {
    Routers(u8),
    Id { index: u8, id: u32 },
    Distance { from: u8, to: u8, distance: u32 },
    Prefix { address: u32, length: u8 },
    Route(Route),
    End(u32),
}

/// The body's length for a known kind.
pub fn body_length(kind: u8) -> Option<usize> {
    match kind {
        1 => Some(1),
        2 => Some(5),
        3 => Some(6),
        4 => Some(5),
        5 => Some(23),
        6 => Some(4),
        7 => Some(25),
        _ => None,
    }
}

/// What a reader of bytes may call a known kind.
pub fn kind_name(kind: u8) -> &'static str {
    match kind {
        1 => "number of routers",
        2 => "router id",
        3 => "distance",
        4 => "prefix",
        5 => "route",
        6 => "end",
        7 => "route with an AS of four bytes",
        _ => "unknown kind",
    }
}

/// The number that these bytes are, most significant first.
pub fn number(bytes: &[u8]) -> u32 {
    bytes.iter().fold(0, |sum, &byte| (sum << 8) | u32::from(byte))
}

/// The record of a known kind with a body of its length.
pub fn decode(kind: u8, body: &[u8]) -> Record {
    match kind {
        1 => Record::Routers(body[0]),
        2 => Record::Id { index: body[0], id: number(&body[1..5]) },
        3 => Record::Distance { from: body[0], to: body[1], distance: number(&body[2..6]) },
        4 => Record::Prefix { address: number(&body[0..4]), length: body[4] },
        5 | 7 => Record::Route(decode_route(body)),
        6 => Record::End(number(&body[0..4])),
        _ => panic!("kind {kind} has no body"),
    }
}

/// The last 20 bytes are the same fields in both kinds of routes; what stands between the router and them is the AS.
fn decode_route(body: &[u8]) -> Route {
    let (head, rest) = body.split_at(body.len() - 20);
    Route {
        router: head[0],
        neighbour_as: number(&head[1..]),
        preference: number(&rest[0..4]),
        path: u16::from_be_bytes([rest[4], rest[5]]),
        origin: rest[6],
        mark: rest[7],
        med: number(&rest[8..12]),
        neighbour_id: number(&rest[12..16]),
        peer: number(&rest[16..20]),
    }
}

/// The record's bytes, its kind first.
pub fn encode(record: &Record) -> Vec<u8> {
    match record {
        Record::Routers(routers) => vec![1, *routers],
        Record::Id { index, id } => [&[2, *index][..], &id.to_be_bytes()].concat(),
        Record::Distance { from, to, distance } => [&[3, *from, *to][..], &distance.to_be_bytes()].concat(),
        Record::Prefix { address, length } => [&[4][..], &address.to_be_bytes(), &[*length]].concat(),
        Record::Route(route) => encode_route(route),
        Record::End(records) => [&[6][..], &records.to_be_bytes()].concat(),
    }
}

/// Of kind 5 where two bytes hold the AS, and of kind 7 where they do not.
fn encode_route(route: &Route) -> Vec<u8> {
    let (kind, neighbour_as) = match &route.neighbour_as.to_be_bytes() {
        [0, 0, short @ ..] => (5, short.to_vec()),
        long => (7, long.to_vec()),
    };
    [
        &[kind, route.router][..],
        &neighbour_as,
        &route.preference.to_be_bytes(),
        &route.path.to_be_bytes(),
        &[route.origin, route.mark],
        &route.med.to_be_bytes(),
        &route.neighbour_id.to_be_bytes(),
        &route.peer.to_be_bytes(),
    ]
    .concat()
}

/// How long the body of a known kind is: what tells the records of one file from those of another.
pub type Bodies = fn(u8) -> Option<usize>;

/// A snapshot's bytes cut into records.
pub fn cut(bytes: &[u8]) -> Vec<&[u8]> {
    cut_by(bytes, body_length)
}

/// The bytes cut into records as far as known kinds and whole bodies go; what is left comes as one last piece.
pub fn cut_by(bytes: &[u8], body_length: Bodies) -> Vec<&[u8]> {
    let mut pieces = Vec::new();
    let mut rest = bytes;
    while let Some(&kind) = rest.first() {
        let length = match body_length(kind) {
            Some(body) if body < rest.len() => 1 + body,
            _ => rest.len(),
        };
        let (piece, after) = rest.split_at(length);
        pieces.push(piece);
        rest = after;
    }
    pieces
}
