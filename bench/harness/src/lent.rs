//! Lists that are lent to a call, with all the memory about them.

use crate::sheets::Element;

/// So many elements stand before a lent list, and after it.
const MARGIN: usize = 8;

/// A list with a margin before and after it, all of it filled with a pattern.
pub struct Lent<T> {
    memory: Vec<T>,
    room: usize,
}

impl<T: Element> Lent<T> {
    /// A list with so much room.
    pub fn new(room: usize) -> Lent<T> {
        let pattern = |i: usize| T::at((i as u64).wrapping_mul(0x9e37_79b9_0000_0001));
        Lent {
            memory: (0..room + 2 * MARGIN).map(pattern).collect(),
            room,
        }
    }

    /// The list without its margins.
    pub fn list(&mut self) -> &mut [T] {
        &mut self.memory[MARGIN..][..self.room]
    }

    /// Nothing if the memory of both is the same, else what differs first.
    pub fn compare(&self, here: &Lent<T>, what: &str) -> Result<(), String> {
        let mut both = self.memory.iter().zip(&here.memory);
        let Some(at) = both.position(|(hand, here)| hand != here) else {
            return Ok(());
        };
        let (hand, unit) = (&self.memory[at], &here.memory[at]);
        let index = at as i64 - MARGIN as i64;
        Err(format!("{what}[{index}]: by hand {hand:?}, here {unit:?}"))
    }
}
