//! An import policy: one pass that judges and writes nothing, then each session once along the routes.

use crate::cursor;
use crate::judge::{judge_tables, prefix_in_range};
use crate::tables::*;

type Cursor<'a> = cursor::Cursor<'a, 6>;

/// The preference of a route that no clause fits.
const USUAL: u32 = 100;

/// Rewrites preferences, marks and MEDs by the policy.
pub fn policy(input: &[u8], counts: Counts, tables: &mut Tables) -> Result<(), Refusal> {
    tables.check_room()?;
    judge_tables(counts, tables)?;
    judge(input)?;
    apply(input, counts, tables);
    Ok(())
}

fn judge(input: &[u8]) -> Result<(), Refusal> {
    let mut cursor = Cursor::new(input);
    let (mut sessions, mut clauses) = (0, 0);
    let (mut last, mut fresh) = (None, false);
    loop {
        match cursor.kind()? {
            1 => {
                cursor.check(sessions < SESSIONS, FULL)?;
                last = Some(judge_session(&mut cursor, last)?);
                (sessions, clauses, fresh) = (sessions + 1, 0, true);
            }
            5 => {
                cursor.check(fresh, PLACE)?;
                cursor.pass(0);
                fresh = false;
            }
            6 => return cursor.end(),
            kind => {
                cursor.check(sessions > 0, PLACE)?;
                cursor.check(clauses < CLAUSES, FULL)?;
                judge_clause(&mut cursor, kind)?;
                (clauses, fresh) = (clauses + 1, false);
            }
        }
    }
}

/// A session above the last one: its router and peer.
fn judge_session(cursor: &mut Cursor, last: Option<(u8, u32)>) -> Result<(u8, u32), Refusal> {
    let &[router, a, b, c, d] = cursor.body()?;
    let session = (router, u32::from_be_bytes([a, b, c, d]));
    cursor.check(session.1 != 0, FIELD)?;
    cursor.check(last < Some(session), ORDER)?;
    cursor.pass(5);
    Ok(session)
}

fn judge_clause(cursor: &mut Cursor, kind: u8) -> Result<(), Refusal> {
    match kind {
        2 => {
            let &[a, b, c, d, length, ..] = cursor.body::<9>()?;
            cursor.check(prefix_in_range(u32::from_be_bytes([a, b, c, d]), u32::from(length)), FIELD)?;
            cursor.pass(9);
        }
        3 => {
            let &[a, b, c, d, ..] = cursor.body::<8>()?;
            cursor.check(!matches!(u32::from_be_bytes([a, b, c, d]), 0 | u32::MAX), FIELD)?;
            cursor.pass(8);
        }
        _ => {
            cursor.body::<4>()?;
            cursor.pass(4);
        }
    }
    Ok(())
}

/// A session as far as its routes need it.
struct Session {
    router: u32,
    peer: u32,
    med_zero: bool,
    clauses: Vec<Clause>,
}

struct Clause {
    fits: Fits,
    preference: u32,
}

enum Fits {
    Prefix(u32, u32),
    Direct(u32),
    All,
}

/// Applies a policy that was judged to be sound.
fn apply(input: &[u8], counts: Counts, tables: &mut Tables) {
    tables.routes.preference[..counts.routes].fill(USUAL);
    let mut session = Session { router: 0, peer: 0, med_zero: false, clauses: Vec::with_capacity(CLAUSES) };
    let mut rest = input;
    while let &[1, router, a, b, c, d, ref after @ ..] = rest {
        (session.router, session.peer) = (u32::from(router), u32::from_be_bytes([a, b, c, d]));
        rest = session.load(after);
        session.along_the_routes(counts, tables);
    }
}

impl Session {
    /// Takes what belongs to the session from the records behind its own; the records after that.
    fn load<'a>(&mut self, mut rest: &'a [u8]) -> &'a [u8] {
        self.clauses.clear();
        self.med_zero = rest[0] == 5;
        rest = &rest[usize::from(self.med_zero)..];
        while let Some((clause, after)) = decode_clause(rest) {
            self.clauses.push(clause);
            rest = after;
        }
        rest
    }

    /// Rewrites the session's route of each prefix; there is at most one, as the routes of a prefix rise.
    fn along_the_routes(&self, counts: Counts, tables: &mut Tables) {
        let mut start = 0;
        for prefix in 0..counts.prefixes {
            let named = (tables.address[prefix], tables.length[prefix]);
            let end = start + tables.prefix_routes[prefix] as usize;
            let (routers, peers) = (&tables.routes.router[start..end], &tables.routes.peer[start..end]);
            let own = |(&router, &peer): (&u32, &u32)| router == self.router && peer == self.peer;
            if let Some(place) = routers.iter().zip(peers).position(own) {
                self.rewrite(&mut tables.routes, start + place, named);
            }
            start = end;
        }
    }

    fn rewrite(&self, routes: &mut Columns, row: usize, prefix: (u32, u32)) {
        let direct = (routes.path[row] == 1).then_some(routes.neighbour_as[row]);
        let fitting = self.clauses.iter().find(|clause| match clause.fits {
            Fits::Prefix(address, length) => (address, length) == prefix,
            Fits::Direct(neighbour_as) => direct == Some(neighbour_as),
            Fits::All => true,
        });
        if let Some(clause) = fitting {
            routes.preference[row] = clause.preference;
        }
        if self.med_zero {
            (routes.mark[row], routes.med[row]) = (1, 0);
        }
    }
}

/// The clause at the head of judged records, if there is one, and the records behind it.
fn decode_clause(records: &[u8]) -> Option<(Clause, &[u8])> {
    let (fits, after) = match *records {
        [2, a, b, c, d, length, ref after @ ..] => {
            (Fits::Prefix(u32::from_be_bytes([a, b, c, d]), u32::from(length)), after)
        }
        [3, a, b, c, d, ref after @ ..] => (Fits::Direct(u32::from_be_bytes([a, b, c, d])), after),
        [4, ref after @ ..] => (Fits::All, after),
        _ => return None,
    };
    let (preference, after) = after.split_first_chunk()?;
    Some((Clause { fits, preference: u32::from_be_bytes(*preference) }, after))
}
