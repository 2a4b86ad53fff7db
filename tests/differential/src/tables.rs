//! One question put to the proved calls over lent tables and to the second program.

use second::snapshot::{No, Snapshot};
use second::tables::{self, Counts, Lent, AREA, LIMITS};
use second::writer;

/// What unused entries and outputs hold before a call: values that differ, so that a moved one is seen too.
fn before(place: usize) -> u32 {
    0x9e37_79b9u32.wrapping_mul(1 + place as u32)
}

/// Tables of their limits in which nothing has been put yet.
pub fn unused() -> Lent {
    LIMITS.map(|limit| (0..limit).map(before).collect())
}

/// All that is lent for a writing, a forecast and a policy, and the prefix that is asked for.
#[derive(Clone, PartialEq, Eq)]
pub struct Question {
    pub counts: Counts,
    pub lent: Lent,
    pub prefix: u32,
    pub out: Vec<u8>,
    pub early: Vec<u16>,
    pub late: Vec<u16>,
    pub policy: Vec<u8>,
}

impl Question {
    /// The tables of a snapshot, with room enough for every answer and the policy that is the end record alone.
    pub fn of(snapshot: &Snapshot) -> Question {
        let mut lent = unused();
        tables::fill(snapshot, &mut lent);
        let room = writer::write(snapshot).len() + 3;
        Question {
            counts: tables::counts(snapshot),
            lent,
            prefix: 0,
            out: (0..room).map(|place| before(place) as u8).collect(),
            early: (0..AREA + 1).map(|place| before(place) as u16).collect(),
            late: (0..AREA + 2).map(|place| before(place + 100) as u16).collect(),
            policy: vec![6, 0, 0, 0, 0],
        }
    }

    fn numbers(&self) -> [u32; 3] {
        [self.counts.routers, self.counts.prefixes, self.counts.routes]
    }

    /// Wants the same number and bytes from writing; the refusal, if it is one.
    pub fn ask_write(&self, what: &str) -> Option<No> {
        let (mut wanted, mut given) = (self.clone(), self.clone());
        let answer = tables::write(self.counts, &wanted.lent, &mut wanted.out);
        let number = calls::write(self.numbers(), &given.lent, &mut given.out);
        assert_eq!(number, answer.unwrap_or_else(|no| 1_000_000 + no as usize), "{what}: writing");
        self.compare(what, answer.err(), &wanted, &given)
    }

    /// The same of a forecast and its rows.
    pub fn ask_forecast(&self, what: &str) -> Option<No> {
        let (mut wanted, mut given) = (self.clone(), self.clone());
        let answer = tables::forecast(self.counts, &wanted.lent, self.prefix, &mut wanted.early, &mut wanted.late);
        let number = calls::forecast(self.numbers(), &given.lent, self.prefix, &mut given.early, &mut given.late);
        let wanted_number = answer.unwrap_or_else(|no| 100 + no as usize);
        assert_eq!(number as usize, wanted_number, "{what}: forecast of prefix {}", self.prefix);
        self.compare(what, answer.err(), &wanted, &given)
    }

    /// The same of a policy and all tables.
    pub fn ask_policy(&self, what: &str) -> Option<No> {
        let (mut wanted, mut given) = (self.clone(), self.clone());
        let answer = tables::policy(&self.policy, self.counts, &mut wanted.lent);
        let number = calls::policy(&self.policy, self.numbers(), &mut given.lent);
        assert_eq!(number, answer.err().map_or(0, |no| no as u32), "{what}: policy");
        self.compare(what, answer.err(), &wanted, &given)
    }

    fn compare(&self, what: &str, refusal: Option<No>, wanted: &Question, given: &Question) -> Option<No> {
        assert!(given == wanted, "{what}: other contents of what was lent");
        assert!(refusal.is_none() || given == self, "{what}: a refusal has changed what was lent");
        refusal
    }
}

/// Wants the same number and the same tables from reading; the refusal, if it is one.
pub fn ask_read(what: &str, bytes: &[u8], lent: &Lent) -> Option<No> {
    let (mut wanted, mut given) = (lent.clone(), lent.clone());
    let refusal = tables::read(bytes, &mut wanted).err();
    let number = calls::read(bytes, &mut given);
    assert_eq!(number, refusal.map_or(0, |no| no as u32), "{what}: reading");
    assert!(given == wanted, "{what}: other tables");
    assert!(refusal.is_none() || given == *lent, "{what}: a refusal has changed the tables");
    refusal
}
