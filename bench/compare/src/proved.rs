//! The proved calls, lent the same tables as the plain ones.

use plain::{Counts, Lent};

fn numbers(counts: Counts) -> [u32; 3] {
    [counts.routers, counts.prefixes, counts.routes].map(|count| count as u32)
}

/// 0, or the refusal's number.
pub fn read(input: &[u8], lent: &mut Lent) -> u32 {
    calls::read(input, &mut lent.0)
}

/// The number of bytes written, or 1,000,000 plus the refusal's number.
pub fn write(counts: Counts, lent: &mut Lent, out: &mut [u8]) -> usize {
    calls::write(numbers(counts), &lent.0, out)
}

/// 0, or the refusal's number.
pub fn policy(input: &[u8], counts: Counts, lent: &mut Lent) -> u32 {
    calls::policy(input, numbers(counts), &mut lent.0)
}

/// The number of routers that differ, or 100 plus the refusal's number.
pub fn forecast(counts: Counts, lent: &mut Lent, prefix: usize, early: &mut [u16], late: &mut [u16]) -> u32 {
    calls::forecast(numbers(counts), &lent.0, prefix as u32, early, late)
}
