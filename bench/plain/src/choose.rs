//! The eight steps on a list of available rows.

use crate::contest::beats;
use crate::tables::{Tables, ROUTERS, ROUTES_OF_PREFIX};

/// Rows in a list of fixed room: a router's own, and one of each other router at most.
pub struct Rows {
    rows: [usize; ROUTES_OF_PREFIX + ROUTERS],
    count: usize,
}

impl Rows {
    pub fn none() -> Rows {
        Rows { rows: [0; ROUTES_OF_PREFIX + ROUTERS], count: 0 }
    }

    pub fn push(&mut self, row: usize) {
        self.rows[self.count] = row;
        self.count += 1;
    }

    fn kept(&self) -> &[usize] {
        &self.rows[..self.count]
    }

    fn keep(&mut self, mut test: impl FnMut(usize) -> bool) {
        let mut count = 0;
        for at in 0..self.count {
            let row = self.rows[at];
            if test(row) {
                self.rows[count] = row;
                count += 1;
            }
        }
        self.count = count;
    }

    fn keep_lowest<Key: Ord>(&mut self, key: impl Fn(usize) -> Key) {
        if let Some(lowest) = self.kept().iter().map(|&row| key(row)).min() {
            self.keep(|row| key(row) == lowest);
        }
    }

    /// Step 4: a row is out as soon as one kept row of its AS has a lower MED.
    fn strike_out(&mut self, tables: &Tables) {
        let mut out = [false; ROUTES_OF_PREFIX + ROUTERS];
        'rows: for (out, &row) in out.iter_mut().zip(self.kept()) {
            for &other in self.kept() {
                if beats(&tables.routes, other, row) {
                    *out = true;
                    continue 'rows;
                }
            }
        }
        let mut out = out.iter();
        self.keep(|_| out.next() == Some(&false));
    }
}

/// The row that the eight steps leave.
pub fn choose(tables: &Tables, router: usize, mut rows: Rows) -> Option<usize> {
    let routes = &tables.routes;
    let owner = |row: usize| routes.router[row] as usize;
    rows.keep_lowest(|row| u32::MAX - routes.preference[row]);
    rows.keep_lowest(|row| routes.path[row]);
    rows.keep_lowest(|row| routes.origin[row]);
    rows.strike_out(tables);
    rows.keep_lowest(|row| owner(row) != router);
    rows.keep_lowest(|row| tables.distances[router * ROUTERS + owner(row)]);
    rows.keep_lowest(|row| if owner(row) == router { routes.neighbour_id[row] } else { tables.ids[owner(row)] });
    rows.keep_lowest(|row| routes.peer[row]);
    rows.kept().first().copied()
}
