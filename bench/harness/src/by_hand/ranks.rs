//! The ranks of the median and of percentiles.

use super::faults::{Fault, Refusal};

/// The rank of the median among n elements: half of n, rounded up.
pub fn median(n: u32) -> Result<u32, Fault> {
    if n == 0 {
        return Err(Fault::of_run(Refusal::RankOutOfBounds, 0));
    }
    Ok(n.div_ceil(2))
}

/// The rank of the percentile p among n elements: p hundredths of n, rounded down, but at least 1.
pub fn percentile(p: u8, n: u32) -> Result<u32, Fault> {
    if n == 0 || !(1..=99).contains(&p) {
        return Err(Fault::of_run(Refusal::RankOutOfBounds, 0));
    }
    let share = u64::from(p) * u64::from(n) / 100;
    Ok((share as u32).max(1))
}
