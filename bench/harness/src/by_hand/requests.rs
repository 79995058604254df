//! Requests: a rank and the sheets of both seats of a pair.

use super::delays;
use super::faults::{Fault, Refusal};
use super::pair::{self, Finished};
use super::referee::{Referee, STOCK};
use super::window::Side;
use crate::types::Delay;

/// How many delays at most either sheet has in a request of so many bytes: ahead of them stand a rank and a header.
pub fn most_delays(length: usize) -> usize {
    length.saturating_sub(4 + 6) / 4
}

/// Where the first sheet ends: where it states, or with the bytes.
fn stated_end(sheets: &[u8]) -> usize {
    let [_, a, b, c, d, ..] = sheets else {
        return sheets.len();
    };
    let stated = u32::from_be_bytes([*a, *b, *c, *d]) as usize + 5;
    stated.min(sheets.len())
}

/// Reads a side's sheet, and answers its list.
fn read_for<'a>(side: Side, sheet: &[u8], list: &'a mut [Delay]) -> Result<&'a [Delay], Fault> {
    match delays::read(sheet, list) {
        Ok(count) => Ok(&list[..count]),
        Err(refusal) => Err(Fault::of_sheet(refusal, side as u32)),
    }
}

/// Answers a request: reads A's sheet and then B's into the two lists, and plays the run of a pair.
pub fn answer(bytes: &[u8], a: &mut [Delay], b: &mut [Delay]) -> Result<Finished, Fault> {
    let [k, l, m, n, sheets @ ..] = bytes else {
        return Err(Fault::of_run(Refusal::RankOutOfBounds, 0));
    };
    let rank = u32::from_be_bytes([*k, *l, *m, *n]);
    let (sheet_a, sheet_b) = sheets.split_at(stated_end(sheets));
    let a = read_for(Side::A, sheet_a, a)?;
    let b = read_for(Side::B, sheet_b, b)?;
    pair::find_rank(a, b, rank, &mut Referee::new(STOCK))
}
