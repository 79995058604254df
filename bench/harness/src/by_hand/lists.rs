//! What a seat checks of its own list whenever it is asked, in either protocol.

use super::faults::{Fault, Refusal};
use crate::types::Delay;

/// A list has at most so many elements.
pub const LONGEST_LIST: usize = 65_536;

/// Checks that a seat's list is in order and not too long.
pub fn check(list: &[Delay], seat: u32) -> Result<(), Fault> {
    if !list.is_sorted() {
        return Err(Fault::of_seat(Refusal::OutOfOrder(first_fall(list)), seat));
    }
    if list.len() > LONGEST_LIST {
        return Err(Fault::of_seat(Refusal::ListTooLong, seat));
    }
    Ok(())
}

/// The number of the first element that is before its predecessor, of a list that falls somewhere.
fn first_fall(list: &[Delay]) -> u64 {
    list.windows(2)
        .take_while(|pair| pair[0] <= pair[1])
        .count() as u64
        + 2
}

/// A list's length as it is declared: itself, or the largest number that fits, which is too long in any case.
pub fn declared(list: &[Delay]) -> u32 {
    u32::try_from(list.len()).unwrap_or(u32::MAX)
}
