//! One snapshot with the tables of both sides, plain and proved: first the same answers, then runs to be timed.

use crate::clock::Run;
use crate::proved;
use plain::{forecast, policy, read, write, Counts, Lent, LONGEST};
use std::hint::black_box;

/// What tables hold before they are first read into, so that a row too many is seen.
const BEFORE: u32 = 0xeeee_eeee;

pub struct Sides {
    input: Vec<u8>,
    counts: Counts,
    plain: Lent,
    proved: Lent,
}

impl Sides {
    /// Reads the snapshot on both sides, and compares the tables and everything that is made from them.
    pub fn new(input: Vec<u8>) -> Result<Sides, String> {
        let (mut plain, mut proved) = (Lent::filled(BEFORE), Lent::filled(BEFORE));
        let counts = read(&input, &mut plain.tables()).map_err(|refusal| format!("plain refuses: {refusal:?}"))?;
        same(proved::read(&input, &mut proved) == 0 && plain.0 == proved.0, "reading")?;
        let mut sides = Sides { input, counts, plain, proved };
        sides.compare_writing()?;
        (0..=counts.prefixes).try_for_each(|prefix| sides.compare_forecast(prefix))?;
        Ok(sides)
    }

    pub fn prefixes(&self) -> usize {
        self.counts.prefixes
    }

    /// The bytes and their number; in an output one byte too short, the refusal.
    fn compare_writing(&mut self) -> Result<(), String> {
        self.compare_written(LONGEST)?;
        self.compare_written(self.input.len() - 1)
    }

    fn compare_written(&mut self, room: usize) -> Result<(), String> {
        let (mut plain, mut proved) = (vec![0; room], vec![0; room]);
        let written = write(self.counts, &self.plain.tables(), &mut plain);
        let wanted = written.unwrap_or_else(|(number, _)| 1_000_000 + number as usize);
        let given = proved::write(self.counts, &mut self.proved, &mut proved);
        same(given == wanted && proved == plain, "writing")?;
        same(written.is_err() || proved[..wanted] == self.input, "writing back what was read")
    }

    /// Numbers and all entries of the answers; at the number of prefixes itself, the refusal.
    fn compare_forecast(&mut self, prefix: usize) -> Result<(), String> {
        let (mut plain, mut proved) = (([7; 64], [7; 64]), ([7; 64], [7; 64]));
        let outlook = forecast(self.counts, &self.plain.tables(), prefix, &mut plain.0, &mut plain.1);
        let wanted = outlook.map_or_else(|(number, _)| 100 + number, |outlook| outlook.open);
        let given = proved::forecast(self.counts, &mut self.proved, prefix, &mut proved.0, &mut proved.1);
        same(given == wanted && proved == plain, "forecasting")
    }

    /// The three columns that are rewritten; and without the policy's last byte, the refusal.
    fn compare_applied(&mut self, input: &[u8]) -> Result<(), String> {
        let answer = policy(input, self.counts, &mut self.plain.tables());
        let wanted = answer.err().map_or(0, |(number, _)| number);
        let given = proved::policy(input, self.counts, &mut self.proved);
        same(given == wanted && self.plain.0 == self.proved.0, "applying a policy")
    }

    /// A policy is applied again and again: the tables are rewritten to what they are already, in the same steps.
    pub fn applying<'a>(&'a mut self, input: &'a [u8]) -> Result<[Run<'a>; 2], String> {
        self.compare_applied(&input[..input.len() - 1])?;
        self.compare_applied(input)?;
        let Sides { counts, plain, proved, .. } = self;
        let counts = *counts;
        let plain = move || {
            let _ = black_box(policy(black_box(input), counts, &mut plain.tables()));
        };
        let proved = move || {
            let _ = black_box(proved::policy(black_box(input), counts, proved));
        };
        Ok([Box::new(plain), Box::new(proved)])
    }

    pub fn reading(&mut self) -> [Run<'_>; 2] {
        let Sides { input, plain, proved, .. } = self;
        let input: &[u8] = input;
        let plain = move || {
            let _ = black_box(read(black_box(input), &mut plain.tables()));
        };
        let proved = move || {
            let _ = black_box(proved::read(black_box(input), proved));
        };
        [Box::new(plain), Box::new(proved)]
    }

    pub fn writing(&mut self) -> [Run<'_>; 2] {
        let Sides { counts, plain, proved, .. } = self;
        let counts = *counts;
        let (mut plain_out, mut proved_out) = (vec![0; LONGEST], vec![0; LONGEST]);
        let plain = move || {
            let _ = black_box(write(black_box(counts), &plain.tables(), &mut plain_out));
        };
        let proved = move || {
            let _ = black_box(proved::write(black_box(counts), proved, &mut proved_out));
        };
        [Box::new(plain), Box::new(proved)]
    }

    /// All prefixes, each by a call of its own.
    pub fn forecasting(&mut self) -> [Run<'_>; 2] {
        let Sides { counts, plain, proved, .. } = self;
        let counts = *counts;
        let (mut early, mut late) = ([0; 64], [0; 64]);
        let plain = move || {
            for prefix in 0..counts.prefixes {
                let _ = black_box(forecast(black_box(counts), &plain.tables(), prefix, &mut early, &mut late));
            }
        };
        let proved = move || {
            for prefix in 0..counts.prefixes {
                let _ = black_box(proved::forecast(black_box(counts), proved, prefix, &mut early, &mut late));
            }
        };
        [Box::new(plain), Box::new(proved)]
    }
}

fn same(same: bool, what: &str) -> Result<(), String> {
    if same {
        Ok(())
    } else {
        Err(format!("{what} gives something else on the two sides"))
    }
}
