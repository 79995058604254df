//! The implementation by hand behind the same C functions as the unit's, so that both are called, and counted, alike.

use crate::by_hand::faults::{Fault, Refusal};
use crate::by_hand::referee::{Referee, STOCK};
use crate::by_hand::{delays, group, link_levels, ranks, requests};
use crate::calls::Calls;
use crate::types::{Delay, LinkLevel, Outcome, Rank, Reading};
use std::slice::{from_raw_parts, from_raw_parts_mut};

/// What is written by hand.
pub const HAND: Calls = Calls {
    read_delays: hand_read_delays,
    read_link_levels: hand_read_link_levels,
    most_delays: hand_most_delays,
    answer_request: hand_answer_request,
    median_rank: hand_median_rank,
    percentile_rank: hand_percentile_rank,
    measure_group: hand_measure_group,
};

/// What a sheet came to.
fn reading(read: Result<usize, Refusal>) -> Reading {
    match read {
        Ok(count) => Reading {
            refusal: 0,
            count: count as u32,
            spot: 0,
        },
        Err(refusal) => Reading {
            refusal: refusal.number(),
            count: 0,
            spot: refusal.spot(),
        },
    }
}

/// What a run came to that found the element.
fn found(result: Delay, count: u32, verdicts: u32) -> Outcome {
    Outcome {
        refusal: 0,
        layer: 0,
        seat: 0,
        result: result.micros,
        count,
        verdicts,
        spot: 0,
    }
}

/// What a run came to that was refused.
fn refused(fault: Fault) -> Outcome {
    Outcome {
        refusal: fault.refusal.number(),
        layer: fault.layer as u32,
        seat: fault.seat,
        result: 0,
        count: 0,
        verdicts: 0,
        spot: fault.refusal.spot(),
    }
}

/// What a call for a rank came to.
fn rank(answer: Result<u32, Fault>) -> Rank {
    match answer {
        Ok(rank) => Rank { refusal: 0, rank },
        Err(fault) => Rank {
            refusal: fault.refusal.number(),
            rank: 0,
        },
    }
}

/// Reads a sheet of delays.
///
/// # Safety
///
/// As in `rankunit.h`, also of the others here: a pointer with a number after it points at so many bytes or elements.
#[inline(never)]
#[unsafe(no_mangle)]
unsafe extern "C" fn hand_read_delays(
    bytes: *const u8,
    length: usize,
    list: *mut Delay,
    room: usize,
) -> Reading {
    let (bytes, list) = unsafe {
        (
            from_raw_parts(bytes, length),
            from_raw_parts_mut(list, room),
        )
    };
    reading(delays::read(bytes, list))
}

/// Reads a sheet of link levels.
#[inline(never)]
#[unsafe(no_mangle)]
unsafe extern "C" fn hand_read_link_levels(
    bytes: *const u8,
    length: usize,
    list: *mut LinkLevel,
    room: usize,
) -> Reading {
    let (bytes, list) = unsafe {
        (
            from_raw_parts(bytes, length),
            from_raw_parts_mut(list, room),
        )
    };
    reading(link_levels::read(bytes, list))
}

/// The most delays of a sheet in a request.
#[inline(never)]
#[unsafe(no_mangle)]
unsafe extern "C" fn hand_most_delays(length: usize) -> usize {
    requests::most_delays(length)
}

/// Answers a request.
#[inline(never)]
#[unsafe(no_mangle)]
unsafe extern "C" fn hand_answer_request(
    bytes: *const u8,
    length: usize,
    a: *mut Delay,
    room_a: usize,
    b: *mut Delay,
    room_b: usize,
) -> Outcome {
    let bytes = unsafe { from_raw_parts(bytes, length) };
    let (a, b) = unsafe { (from_raw_parts_mut(a, room_a), from_raw_parts_mut(b, room_b)) };
    match requests::answer(bytes, a, b) {
        Ok(finished) => found(finished.result, finished.count, finished.verdicts),
        Err(fault) => refused(fault),
    }
}

/// The rank of the median.
#[inline(never)]
#[unsafe(no_mangle)]
unsafe extern "C" fn hand_median_rank(n: u32) -> Rank {
    rank(ranks::median(n))
}

/// The rank of a percentile.
#[inline(never)]
#[unsafe(no_mangle)]
unsafe extern "C" fn hand_percentile_rank(p: u8, n: u32) -> Rank {
    rank(ranks::percentile(p, n))
}

/// Plays the run of a group of equal parts.
#[inline(never)]
#[unsafe(no_mangle)]
unsafe extern "C" fn hand_measure_group(
    delays: *const Delay,
    length: usize,
    seats: u32,
    rank: u32,
) -> Outcome {
    let delays = unsafe { from_raw_parts(delays, length) };
    match group::find_rank_of_parts(delays, seats, rank, &mut Referee::new(STOCK)) {
        Ok(finished) => found(finished.result, finished.count, 0),
        Err(fault) => refused(fault),
    }
}
