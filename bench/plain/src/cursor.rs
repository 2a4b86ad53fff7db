//! Going along the records of a snapshot or of a policy, whose kinds begin with 1 in both.

use crate::tables::*;

/// The place and the number of records before it, in a file whose kinds end with `LAST_KIND`.
pub struct Cursor<'a, const LAST_KIND: u8> {
    pub input: &'a [u8],
    pub place: usize,
    records: u32,
}

impl<'a, const LAST_KIND: u8> Cursor<'a, LAST_KIND> {
    pub fn new(input: &'a [u8]) -> Self {
        Cursor { input, place: 0, records: 0 }
    }

    pub fn no<T>(&self, number: u32) -> Result<T, Refusal> {
        Err((number, self.place))
    }

    pub fn check(&self, passed: bool, number: u32) -> Result<(), Refusal> {
        if passed {
            Ok(())
        } else {
            self.no(number)
        }
    }

    /// The kind byte due here: CUT, KIND.
    pub fn kind(&self) -> Result<u8, Refusal> {
        match self.input.get(self.place) {
            None => self.no(CUT),
            Some(&kind) if (1..=LAST_KIND).contains(&kind) => Ok(kind),
            Some(_) => self.no(KIND),
        }
    }

    pub fn body<const LENGTH: usize>(&self) -> Result<&'a [u8; LENGTH], Refusal> {
        let rest = &self.input[self.place + 1..];
        rest.first_chunk().ok_or((CUT, self.place))
    }

    /// The body of the one kind that may stand here.
    pub fn only<const LENGTH: usize>(&self, kind: u8) -> Result<&'a [u8; LENGTH], Refusal> {
        self.check(self.kind()? == kind, PLACE)?;
        self.body()
    }

    pub fn pass(&mut self, body: usize) {
        self.place += 1 + body;
        self.records += 1;
    }

    /// The end record: CUT, COUNT, and TAIL behind it.
    pub fn end(&mut self) -> Result<(), Refusal> {
        let &records = self.body()?;
        self.check(u32::from_be_bytes(records) == self.records, COUNT)?;
        self.pass(4);
        self.check(self.place == self.input.len(), TAIL)
    }
}
