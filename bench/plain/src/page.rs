//! The printed forecast.

use crate::forecast::{outlook, Outlook, NONE};
use crate::read::read;
use crate::tables::*;
use std::io::{self, Write};

/// Reads a snapshot and writes its printed forecast, or its refusal.
pub fn page(input: &[u8], tables: &mut Tables, out: &mut impl Write) -> io::Result<()> {
    let counts = match read(input, tables) {
        Ok(counts) => counts,
        Err((number, place)) => return writeln!(out, "refused {number} {place}"),
    };
    writeln!(out, "forecast {} {}", counts.routers, counts.prefixes)?;
    let (mut early, mut late) = ([0; ROUTERS], [0; ROUTERS]);
    let mut start = 0;
    for prefix in 0..counts.prefixes {
        let outlook = outlook(counts, tables, prefix, &mut early, &mut late);
        prefix_line(tables, prefix, outlook, out)?;
        let owners = &tables.routes.router[start..];
        router_lines(owners, &early[..counts.routers], &late, outlook, out)?;
        start += tables.prefix_routes[prefix] as usize;
    }
    Ok(())
}

fn prefix_line(tables: &Tables, prefix: usize, outlook: Outlook, out: &mut impl Write) -> io::Result<()> {
    let [a, b, c, d] = tables.address[prefix].to_be_bytes();
    write!(out, "prefix {a}.{b}.{c}.{d}/{} ", tables.length[prefix])?;
    match outlook.open {
        0 => writeln!(out, "settled"),
        open => writeln!(out, "open {open}"),
    }
}

fn router_lines(owners: &[u32], early: &[u16], late: &[u16], outlook: Outlook, out: &mut impl Write) -> io::Result<()> {
    for (router, (&early, &late)) in early.iter().zip(late).enumerate() {
        write!(out, "router {router} ")?;
        entry(owners, router, early, out)?;
        if outlook.open > 0 {
            write!(out, " or ")?;
            entry(owners, router, late, out)?;
        }
        writeln!(out)?;
    }
    Ok(())
}

fn entry(owners: &[u32], router: usize, row: u16, out: &mut impl Write) -> io::Result<()> {
    if row == NONE {
        return write!(out, "none");
    }
    match owners[usize::from(row)] {
        owner if owner as usize == router => write!(out, "own {row}"),
        owner => write!(out, "via {owner} {row}"),
    }
}
