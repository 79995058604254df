//! The functions of either implementation: those of `rankunit.h`, and the one that measures a group.

use crate::types::{Delay, LinkLevel, Outcome, Rank, Reading};

/// One implementation's functions. Each does what `rankunit.h` says, so that the safe calls below are safe.
pub struct Calls {
    pub read_delays: unsafe extern "C" fn(*const u8, usize, *mut Delay, usize) -> Reading,
    pub read_link_levels: unsafe extern "C" fn(*const u8, usize, *mut LinkLevel, usize) -> Reading,
    pub most_delays: unsafe extern "C" fn(usize) -> usize,
    pub answer_request:
        unsafe extern "C" fn(*const u8, usize, *mut Delay, usize, *mut Delay, usize) -> Outcome,
    pub median_rank: unsafe extern "C" fn(u32) -> Rank,
    pub percentile_rank: unsafe extern "C" fn(u8, u32) -> Rank,
    pub measure_group: unsafe extern "C" fn(*const Delay, usize, u32, u32) -> Outcome,
}

impl Calls {
    /// Reads a sheet of delays.
    pub fn read_delays(&self, bytes: &[u8], list: &mut [Delay]) -> Reading {
        unsafe { (self.read_delays)(bytes.as_ptr(), bytes.len(), list.as_mut_ptr(), list.len()) }
    }

    /// Reads a sheet of link levels.
    pub fn read_link_levels(&self, bytes: &[u8], list: &mut [LinkLevel]) -> Reading {
        unsafe {
            (self.read_link_levels)(bytes.as_ptr(), bytes.len(), list.as_mut_ptr(), list.len())
        }
    }

    /// The most delays of a sheet in a request of so many bytes.
    pub fn most_delays(&self, length: usize) -> usize {
        unsafe { (self.most_delays)(length) }
    }

    /// Answers a request.
    pub fn answer_request(&self, bytes: &[u8], a: &mut [Delay], b: &mut [Delay]) -> Outcome {
        unsafe {
            (self.answer_request)(
                bytes.as_ptr(),
                bytes.len(),
                a.as_mut_ptr(),
                a.len(),
                b.as_mut_ptr(),
                b.len(),
            )
        }
    }

    /// The rank of the median among n elements.
    pub fn median_rank(&self, n: u32) -> Rank {
        unsafe { (self.median_rank)(n) }
    }

    /// The rank of the percentile p among n elements.
    pub fn percentile_rank(&self, p: u8, n: u32) -> Rank {
        unsafe { (self.percentile_rank)(p, n) }
    }

    /// Plays the run of a group, of which each seat has an equal part of the delays.
    pub fn measure_group(&self, delays: &[Delay], seats: u32, rank: u32) -> Outcome {
        unsafe { (self.measure_group)(delays.as_ptr(), delays.len(), seats, rank) }
    }
}
