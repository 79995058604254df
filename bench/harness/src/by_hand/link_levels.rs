//! Sheets of link levels.

use super::faults::Refusal;
use super::{header, parts};
use crate::types::LinkLevel;

/// The kind of these sheets.
const KIND: u8 = 2;

/// Reads a sheet into a list, and answers how many elements it has. A refused sheet leaves the list as it was, so the order is
/// checked before anything is written. Link levels stand in the order of their bytes as one number, of which the level, with its
/// sign, is the upper half.
pub fn read(bytes: &[u8], list: &mut [LinkLevel]) -> Result<usize, Refusal> {
    let parts = header::parts(bytes, KIND)?;
    if let Some(number) = parts::first_fall(parts, i64::from_be_bytes) {
        return Err(Refusal::OutOfOrder(number));
    }
    let list = list.get_mut(..parts.len()).ok_or(Refusal::SliceTooShort)?;
    parts::fill(parts, list, decode);
    Ok(parts.len())
}

/// The link level with these bytes.
fn decode([a, b, c, d, link @ ..]: [u8; 8]) -> LinkLevel {
    LinkLevel {
        level: i32::from_be_bytes([a, b, c, d]),
        link: u32::from_be_bytes(link),
    }
}
