//! The printed forecast, and addresses in dotted form.

use crate::forecast::forecast;
use crate::reader::read;
use crate::snapshot::{Route, Snapshot};

/// What the program named forecast prints for these bytes.
pub fn printed(bytes: &[u8]) -> String {
    match read(bytes) {
        Ok(snapshot) => page(&snapshot),
        Err(refusal) => format!("{refusal}\n"),
    }
}

fn page(snapshot: &Snapshot) -> String {
    let mut page = format!("forecast {} {}\n", snapshot.ids.len(), snapshot.prefixes.len());
    for prefix in 0..snapshot.prefixes.len() {
        page += &prefix_lines(snapshot, prefix);
    }
    page
}

fn prefix_lines(snapshot: &Snapshot, number: usize) -> String {
    let prefix = &snapshot.prefixes[number];
    let outlook = forecast(snapshot, number);
    let open = outlook.open();
    let word = if open == 0 { "settled".to_string() } else { format!("open {open}") };
    let mut lines = format!("prefix {}/{} {word}\n", dotted(prefix.address), prefix.length);
    for (router, (&early, &late)) in outlook.early.iter().zip(&outlook.late).enumerate() {
        lines += &format!("router {router} {}", entry(&prefix.routes, router, early));
        if open > 0 {
            lines += &format!(" or {}", entry(&prefix.routes, router, late));
        }
        lines.push('\n');
    }
    lines
}

fn entry(routes: &[Route], router: usize, held: Option<usize>) -> String {
    match held {
        None => "none".to_string(),
        Some(row) if routes[row].owner() == router => format!("own {row}"),
        Some(row) => format!("via {} {row}", routes[row].router),
    }
}

pub fn dotted(address: u32) -> String {
    let [a, b, c, d] = address.to_be_bytes();
    format!("{a}.{b}.{c}.{d}")
}
