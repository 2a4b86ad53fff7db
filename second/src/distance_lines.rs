//! The distance lines of the text notation: each pair's distance is said once, by a line of its own or of its row,
//! and `distance default` speaks for the pairs that no line names.

use crate::words::{index, number};

const FORMS: &str = "expected 'distance default D', 'distance A B D' or 'distance A to B D'";

/// A value and the line that gives it.
#[derive(Clone, Copy, Default)]
pub struct Said {
    pub line: usize,
    pub value: u32,
}

/// What is wrong, and with which line.
type Wrong = (usize, String);

/// What the lines so far have said of distances.
#[derive(Default)]
pub struct Distances {
    default: Option<Said>,
    /// One direction of a pair at a time: from, to and the distance.
    pairs: Vec<(usize, usize, Said)>,
    /// The lines that give a whole row, with the number of its values.
    rows: Vec<(usize, usize)>,
}

impl Distances {
    pub fn take_one(&mut self, line: usize, words: &[&str]) -> Result<(), String> {
        match *words {
            ["default", value] => self.take_default(line, value),
            [from, to, value] => {
                let (from, to) = (index(from)?, index(to)?);
                self.push(line, from, to, value)?;
                self.push(line, to, from, value)
            }
            [from, "to", to, value] => self.push(line, index(from)?, index(to)?, value),
            _ => Err(FORMS.to_string()),
        }
    }

    fn take_default(&mut self, line: usize, value: &str) -> Result<(), String> {
        if let Some(earlier) = self.default {
            return Err(format!("line {} has a default distance already", earlier.line));
        }
        self.default = Some(Said { line, value: number(value, u32::MAX)? });
        Ok(())
    }

    pub fn take_row(&mut self, line: usize, words: &[&str]) -> Result<(), String> {
        let (from, values) = words.split_first().ok_or("expected 'distances A' and a value for each router")?;
        let from = index(from)?;
        for (to, value) in values.iter().enumerate() {
            match (*value == "-", from == to) {
                (true, true) => {}
                (false, false) => self.push(line, from, to, value)?,
                _ => return Err(format!("'-' must stand for router {from} itself, and for it alone")),
            }
        }
        self.rows.push((line, values.len()));
        Ok(())
    }

    fn push(&mut self, line: usize, from: usize, to: usize, value: &str) -> Result<(), String> {
        if from == to {
            return Err(format!("router {from} has no distance to itself"));
        }
        let same = |&&(a, b, _): &&(usize, usize, Said)| (a, b) == (from, to);
        if let Some((.., earlier)) = self.pairs.iter().find(same) {
            return Err(format!("line {} has a distance from {from} to {to} already", earlier.line));
        }
        self.pairs.push((from, to, Said { line, value: number(value, u32::MAX)? }));
        Ok(())
    }

    /// The distances of all pairs of so many routers, equal pairs with 0; `unsaid` speaks for what no line says.
    pub fn table(
        &self,
        routers: usize,
        unsaid: impl Fn(usize, usize) -> Result<Said, Wrong>,
    ) -> Result<Vec<Vec<Said>>, Wrong> {
        self.check_rows(routers)?;
        let mut table = vec![vec![None; routers]; routers];
        for &(from, to, said) in &self.pairs {
            if from.max(to) >= routers {
                return Err((said.line, format!("there is no router {}", from.max(to))));
            }
            table[from][to] = Some(said);
        }
        let said = |from: usize, to: usize| match table[from][to].or(self.default) {
            _ if from == to => Ok(Said::default()),
            Some(said) => Ok(said),
            None => unsaid(from, to),
        };
        (0..routers).map(|from| (0..routers).map(|to| said(from, to)).collect()).collect()
    }

    fn check_rows(&self, routers: usize) -> Result<(), Wrong> {
        match self.rows.iter().find(|(_, values)| *values != routers) {
            Some((line, values)) => {
                Err((*line, format!("expected a value for each of {routers} routers, not {values}")))
            }
            None => Ok(()),
        }
    }
}
