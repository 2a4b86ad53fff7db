//! The forecast of one prefix over lent tables.

use crate::choose::{choose, Rows};
use crate::contest::Contest;
use crate::judge::judge_tables;
use crate::tables::*;
use std::ops::Range;

/// The row of a router that holds none.
pub const NONE: u16 = 65_535;

/// One bit for each router whose two rows differ, and how many these are.
#[derive(Clone, Copy, Debug, PartialEq, Eq)]
pub struct Outlook {
    pub word: u64,
    pub open: u32,
}

pub fn forecast(
    counts: Counts,
    tables: &Tables,
    prefix: usize,
    early: &mut [u16],
    late: &mut [u16],
) -> Result<Outlook, Refusal> {
    tables.check_room()?;
    if early.len() < ROUTERS || late.len() < ROUTERS {
        return Err((ROOM, 0));
    }
    judge_tables(counts, tables)?;
    if prefix >= counts.prefixes {
        return Err((NO_PREFIX, 0));
    }
    Ok(outlook(counts, tables, prefix, early, late))
}

/// The forecast where tables and prefix are known to be sound.
pub fn outlook(counts: Counts, tables: &Tables, prefix: usize, early: &mut [u16], late: &mut [u16]) -> Outlook {
    let start = tables.prefix_routes[..prefix].iter().sum::<u32>() as usize;
    let rows = start..start + tables.prefix_routes[prefix] as usize;
    let contest = Contest::new(&tables.routes, rows.clone(), counts.routers);
    let (mut first, mut past) = (contest.all_first(), contest.all_past());
    contest.settle(&mut first);
    contest.settle(&mut past);
    hold(tables, &rows, &contest, &first, &mut early[..counts.routers]);
    hold(tables, &rows, &contest, &past, &mut late[..counts.routers]);
    let differs = |router: &usize| early[*router] != late[*router];
    let word = (0..counts.routers).filter(differs).fold(0, |word, router| word | 1 << router);
    Outlook { word, open: word.count_ones() }
}

/// What each router holds where the contest is at rest at these standings: the row of its own at which it stands, and
/// without one what it chooses from its own rows and from those which the others hold.
fn hold(tables: &Tables, rows: &Range<usize>, contest: &Contest, standings: &[usize; ROUTERS], answer: &mut [u16]) {
    let mut held = [None; ROUTERS];
    for (router, held) in held.iter_mut().enumerate().take(answer.len()) {
        *held = contest.row_at(router, standings[router]);
    }
    let mut own_end = rows.start;
    for (router, entry) in answer.iter_mut().enumerate() {
        let own_start = own_end;
        while own_end < rows.end && tables.routes.router[own_end] as usize == router {
            own_end += 1;
        }
        if let Some(row) = held[router] {
            *entry = (row - rows.start) as u16;
            continue;
        }
        let mut available = Rows::none();
        for row in own_start..own_end {
            available.push(row);
        }
        for row in held[..router].iter().chain(&held[router + 1..]).flatten() {
            available.push(*row);
        }
        *entry = choose(tables, router, available).map_or(NONE, |row| (row - rows.start) as u16);
    }
}
