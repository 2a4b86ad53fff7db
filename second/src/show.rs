//! From a snapshot's bytes back to the text notation, with comments that help a reader.
//! Whatever the bytes, `text::make` of the text shown gives them again.

use crate::decide::Mesh;
use crate::print::dotted;
use crate::reader::read;
use crate::record::{body_length, cut, cut_by, kind_name, Bodies};
use crate::snapshot::{Prefix, Refusal, Route, Snapshot};
use crate::stable::contenders;

pub fn show(bytes: &[u8]) -> String {
    match read(bytes) {
        Ok(snapshot) => sound(&snapshot, bytes),
        Err(refusal) => refused(&refusal, bytes, body_length, kind_name),
    }
}

fn sound(snapshot: &Snapshot, bytes: &[u8]) -> String {
    let (routers, prefixes) = (snapshot.ids.len(), snapshot.prefixes.len());
    let mut text = format!("# Routers: {routers}, prefixes: {prefixes}, routes: {}, ", snapshot.routes());
    text += &format!("records before the end: {}, bytes: {}.\n\n", cut(bytes).len() - 1, bytes.len());
    for (index, &id) in snapshot.ids.iter().enumerate() {
        text += &format!("router {:<15}  # router {index}\n", dotted(id));
    }
    text += &distance_lines(&snapshot.distances);
    for prefix in &snapshot.prefixes {
        text += &prefix_lines(snapshot, prefix);
    }
    text
}

fn distance_lines(distances: &[Vec<u32>]) -> String {
    if distances.len() < 2 {
        return String::new();
    }
    let mut text = "\n# From one router to routers 0, 1, 2 and so on.\n".to_string();
    for (from, row) in distances.iter().enumerate() {
        text += &format!("distances {from}");
        for (to, distance) in row.iter().enumerate() {
            text += &if from == to { " -".to_string() } else { format!(" {distance}") };
        }
        text.push('\n');
    }
    text
}

fn prefix_lines(snapshot: &Snapshot, prefix: &Prefix) -> String {
    let mut text = format!("\nprefix {}/{}\n", dotted(prefix.address), prefix.length);
    let mesh = Mesh::of(snapshot, prefix);
    for (row, route) in prefix.routes.iter().enumerate() {
        let list = contenders(&mesh, route.owner());
        let standing = match list.iter().position(|&contender| contender == row) {
            Some(position) => format!("contender {position} of router {}", route.router),
            None => "no contender".to_string(),
        };
        text += &format!("{}  # row {row}, {standing}\n", route_line(route));
    }
    text
}

fn route_line(route: &Route) -> String {
    let origin = ["igp", "egp", "incomplete"][usize::from(route.origin)];
    let med = if route.mark == 1 { route.med.to_string() } else { "absent".to_string() };
    let fields = [
        format!("route {} as {}", route.router, route.neighbour_as),
        format!("preference {} path {} origin {origin} med {med}", route.preference, route.path),
        format!("id {} peer {}", dotted(route.neighbour_id), dotted(route.peer)),
    ];
    fields.join(" ")
}

/// A refused input, record by record as far as it can be cut into records.
pub fn refused(refusal: &Refusal, bytes: &[u8], body_length: Bodies, kind_name: fn(u8) -> &'static str) -> String {
    let mut text = format!("# {refusal} ({:?}). The bytes as they are:\n", refusal.number);
    let mut place = 0;
    for piece in cut_by(bytes, body_length) {
        let whole = body_length(piece[0]).is_some_and(|body| piece.len() == 1 + body);
        let name = if whole { kind_name(piece[0]) } else { "not a whole record" };
        let here = if place == refusal.place { ", refused here" } else { "" };
        let hex: Vec<String> = piece.iter().map(|byte| format!("{byte:02x}")).collect();
        text += &format!("raw {}  # at {place}: {name}{here}\n", hex.join(" "));
        place += piece.len();
    }
    text
}
