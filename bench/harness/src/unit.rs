//! The functions of the unit's library.

use crate::calls::Calls;
use crate::types::{Delay, LinkLevel, Outcome, Rank, Reading};

/// The unit.
pub const UNIT: Calls = Calls {
    read_delays: rankunit_read_delays,
    read_link_levels: rankunit_read_link_levels,
    most_delays: rankunit_most_delays,
    answer_request: rankunit_answer_request,
    median_rank: rankunit_median_rank,
    percentile_rank: rankunit_percentile_rank,
    measure_group: rankunit_measure_group,
};

unsafe extern "C" {
    fn rankunit_read_delays(
        bytes: *const u8,
        length: usize,
        list: *mut Delay,
        room: usize,
    ) -> Reading;

    fn rankunit_read_link_levels(
        bytes: *const u8,
        length: usize,
        list: *mut LinkLevel,
        room: usize,
    ) -> Reading;

    fn rankunit_most_delays(length: usize) -> usize;

    fn rankunit_answer_request(
        bytes: *const u8,
        length: usize,
        a: *mut Delay,
        room_a: usize,
        b: *mut Delay,
        room_b: usize,
    ) -> Outcome;

    fn rankunit_median_rank(n: u32) -> Rank;

    fn rankunit_percentile_rank(p: u8, n: u32) -> Rank;

    fn rankunit_measure_group(
        delays: *const Delay,
        length: usize,
        seats: u32,
        rank: u32,
    ) -> Outcome;
}
