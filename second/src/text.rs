//! The text notation: from lines a planner can write to a snapshot's bytes. README.md describes it.
//! A fault is what cannot be encoded, what is said twice, and what nobody has said; whether the bytes are a sound
//! snapshot is the reader's business.

use crate::distance_lines::{Distances, Said};
use crate::made::{end, raw, Fault, Made};
use crate::reader::read;
use crate::record::{encode, Record};
use crate::route_line::route;
use crate::snapshot::ROUTERS;
use crate::words::{address, lines, prefix};
use crate::writer::network;

/// The distance of all pairs on document 01's sheet.
const SHEET_DISTANCE: u32 = 1;

/// The bytes of a text that says everything itself.
pub fn make(text: &str) -> Result<Made, Fault> {
    drafted(text, false)?.made()
}

/// The same for a test case: what is left out is as in document 01's 'Sums on paper'.
pub fn make_from_sheet(text: &str) -> Result<Made, Fault> {
    drafted(text, true)?.made()
}

fn drafted(text: &str, on_sheet: bool) -> Result<Draft, Fault> {
    let mut draft = Draft { on_sheet, ends: true, ..Draft::default() };
    for (line, words) in lines(text) {
        draft.take(line, &words).map_err(|what| Fault { line, what })?;
        draft.last_line = line;
    }
    Ok(draft)
}

/// What the lines so far have said.
#[derive(Default)]
struct Draft {
    on_sheet: bool,
    ids: Vec<Said>,
    distances: Distances,
    /// Everything after the network: line and bytes.
    pieces: Vec<(usize, Vec<u8>)>,
    /// Whether some of the pieces are bytes as they stand.
    raw: bool,
    /// The row that the next route of this prefix will have.
    row: u32,
    /// Whether an end record is to be added.
    ends: bool,
    last_line: usize,
}

impl Draft {
    fn take(&mut self, line: usize, words: &[&str]) -> Result<(), String> {
        let Some((&keyword, values)) = words.split_first() else {
            return Ok(());
        };
        match keyword {
            "router" => self.take_routers(line, values),
            "distance" => self.distances.take_one(line, values),
            "distances" => self.distances.take_row(line, values),
            "prefix" => self.take_prefix(line, values),
            "route" => self.take_route(line, values),
            "raw" => self.take_raw(line, values),
            "end" => self.take_end(line, values),
            _ => Err(format!("'{keyword}' begins no line")),
        }
    }

    fn take_routers(&mut self, line: usize, values: &[&str]) -> Result<(), String> {
        if values.is_empty() {
            return Err("expected 'router' and one id or more".to_string());
        }
        for value in values {
            self.ids.push(Said { line, value: address(value)? });
        }
        if self.ids.len() > 255 {
            return Err("the number of routers does not fit its byte".to_string());
        }
        Ok(())
    }

    fn take_prefix(&mut self, line: usize, values: &[&str]) -> Result<(), String> {
        let named = match *values {
            [named] => prefix(named),
            _ => None,
        };
        let (address, length) = named.ok_or("expected 'prefix A.B.C.D/LENGTH'")??;
        self.row = 0;
        self.pieces.push((line, encode(&Record::Prefix { address, length })));
        Ok(())
    }

    fn take_route(&mut self, line: usize, values: &[&str]) -> Result<(), String> {
        let route = route(values, self.row, self.on_sheet)?;
        self.row += 1;
        self.pieces.push((line, encode(&Record::Route(route))));
        Ok(())
    }

    fn take_raw(&mut self, line: usize, values: &[&str]) -> Result<(), String> {
        self.pieces.push((line, raw(values)?));
        self.raw = true;
        Ok(())
    }

    fn take_end(&mut self, line: usize, values: &[&str]) -> Result<(), String> {
        self.pieces.push((line, end(values)?));
        self.ends = false;
        Ok(())
    }

    fn made(self) -> Result<Made, Fault> {
        let mut made = Made::new("snapshot", |bytes| read(bytes).err());
        if self.ids.is_empty() && !self.raw {
            made.lacks("no router is named");
        }
        for (line, record) in self.network()? {
            made.push(line, &encode(&record));
        }
        for (line, piece) in &self.pieces {
            made.push(*line, piece);
        }
        if self.ends && !self.ids.is_empty() {
            made.push_end(self.last_line);
        }
        Ok(made)
    }

    /// The records of routers and distances, each with the line that decided it.
    fn network(&self) -> Result<Vec<(usize, Record)>, Fault> {
        let unsaid = |from: usize, to: usize| self.unsaid(from, to);
        let table = self.distances.table(self.ids.len(), unsaid).map_err(|(line, what)| Fault { line, what })?;
        if self.ids.is_empty() {
            return Ok(Vec::new());
        }
        let ids: Vec<u32> = self.ids.iter().map(|said| said.value).collect();
        let values = |row: &Vec<Said>| row.iter().map(|said| said.value).collect();
        let distances: Vec<Vec<u32>> = table.iter().map(values).collect();
        let line = |record: &Record| match *record {
            Record::Id { index, .. } => self.ids[usize::from(index)].line,
            Record::Distance { from, to, .. } => table[usize::from(from)][usize::from(to)].line,
            _ => self.router_line(ROUTERS),
        };
        Ok(network(&ids, &distances).into_iter().map(|record| (line(&record), record)).collect())
    }

    /// The line that names a router, or the last one that names any.
    fn router_line(&self, index: usize) -> usize {
        self.ids.get(index).or(self.ids.last()).map_or(1, |said| said.line)
    }

    /// A distance that no line gives: that of the sheet, or a fault of the line that named the later of the two routers.
    fn unsaid(&self, from: usize, to: usize) -> Result<Said, (usize, String)> {
        let line = self.router_line(from.max(to));
        if self.on_sheet {
            Ok(Said { line, value: SHEET_DISTANCE })
        } else {
            Err((line, format!("no line has a distance from {from} to {to}")))
        }
    }
}
