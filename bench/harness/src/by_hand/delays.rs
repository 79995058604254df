//! Sheets of delays.

use super::faults::Refusal;
use super::{header, parts};
use crate::types::Delay;

/// The kind of these sheets.
const KIND: u8 = 1;

/// Reads a sheet into a list, and answers how many elements it has. A refused sheet leaves the list as it was, so the order is
/// checked before anything is written.
pub fn read(bytes: &[u8], list: &mut [Delay]) -> Result<usize, Refusal> {
    let parts = header::parts(bytes, KIND)?;
    if let Some(number) = parts::first_fall(parts, u32::from_be_bytes) {
        return Err(Refusal::OutOfOrder(number));
    }
    let list = list.get_mut(..parts.len()).ok_or(Refusal::SliceTooShort)?;
    parts::fill(parts, list, |part| Delay {
        micros: u32::from_be_bytes(part),
    });
    Ok(parts.len())
}
