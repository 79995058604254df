//! Compares both implementations on random inputs: what they answer, and the memory that they were lent.

use crate::calls::Calls;
use crate::hand::HAND;
use crate::inputs;
use crate::lent::Lent;
use crate::random::Random;
use crate::sheets::Element;
use crate::tally::Tally;
use crate::types::Reading;
use crate::unit::UNIT;
use std::fmt::Debug;

/// So many inputs are given to each function.
const INPUTS: u32 = 100_000;

/// Compares both on one input; answers the number of the refusal, or 0 for none, or what differs.
type Trial = fn(&mut Random) -> Result<u32, String>;

/// A function that is compared: its name, what it has done where it is not refused, and how it is tried.
struct Function {
    name: &'static str,
    done: &'static str,
    trial: Trial,
}

/// All functions.
const FUNCTIONS: [Function; 7] = [
    Function {
        name: "read_delays",
        done: "read",
        trial: |random| try_reading(random, Calls::read_delays),
    },
    Function {
        name: "read_link_levels",
        done: "read",
        trial: |random| try_reading(random, Calls::read_link_levels),
    },
    Function {
        name: "most_delays",
        done: "answered",
        trial: try_most_delays,
    },
    Function {
        name: "answer_request",
        done: "found",
        trial: try_request,
    },
    Function {
        name: "median_rank",
        done: "answered",
        trial: try_median,
    },
    Function {
        name: "percentile_rank",
        done: "answered",
        trial: try_percentile,
    },
    Function {
        name: "measure_group",
        done: "found",
        trial: try_group,
    },
];

/// Nothing if both are the same, else what differs.
fn same<A: PartialEq + Debug>(what: &str, hand: A, unit: A) -> Result<(), String> {
    if hand == unit {
        return Ok(());
    }
    Err(format!("{what}: by hand {hand:?}, here {unit:?}"))
}

/// Nothing if bytes that were only lent for reading are as they were.
fn kept<A: PartialEq>(what: &str, before: &[A], after: &[A]) -> Result<(), String> {
    if before == after {
        return Ok(());
    }
    Err(format!("{what} were written to"))
}

/// Reads a sheet.
fn try_reading<T: Element>(
    random: &mut Random,
    read: fn(&Calls, &[u8], &mut [T]) -> Reading,
) -> Result<u32, String> {
    let input = inputs::sheet::<T>(random);
    let before = input.bytes.clone();
    let (mut of_hand, mut of_unit) = (Lent::new(input.room), Lent::new(input.room));
    let hand = read(&HAND, &input.bytes, of_hand.list());
    let unit = read(&UNIT, &input.bytes, of_unit.list());
    same("answer", hand, unit)?;
    of_hand.compare(&of_unit, "list")?;
    kept("the sheet's bytes", &before, &input.bytes)?;
    Ok(hand.refusal)
}

/// Asks for the most delays in a request.
fn try_most_delays(random: &mut Random) -> Result<u32, String> {
    let length = inputs::number(random) as usize;
    same("answer", HAND.most_delays(length), UNIT.most_delays(length))?;
    Ok(0)
}

/// Answers a request.
fn try_request(random: &mut Random) -> Result<u32, String> {
    let input = inputs::request(random);
    let before = input.bytes.clone();
    let (mut hand_a, mut hand_b) = (Lent::new(input.room_a), Lent::new(input.room_b));
    let (mut unit_a, mut unit_b) = (Lent::new(input.room_a), Lent::new(input.room_b));
    let hand = HAND.answer_request(&input.bytes, hand_a.list(), hand_b.list());
    let unit = UNIT.answer_request(&input.bytes, unit_a.list(), unit_b.list());
    same("answer", hand, unit)?;
    hand_a.compare(&unit_a, "a")?;
    hand_b.compare(&unit_b, "b")?;
    kept("the request's bytes", &before, &input.bytes)?;
    Ok(hand.refusal)
}

/// Asks for the rank of the median.
fn try_median(random: &mut Random) -> Result<u32, String> {
    let n = inputs::number(random) as u32;
    let hand = HAND.median_rank(n);
    same("answer", hand, UNIT.median_rank(n))?;
    Ok(hand.refusal)
}

/// Asks for the rank of a percentile.
fn try_percentile(random: &mut Random) -> Result<u32, String> {
    let (p, n) = (inputs::percentile(random), inputs::number(random) as u32);
    let hand = HAND.percentile_rank(p, n);
    same("answer", hand, UNIT.percentile_rank(p, n))?;
    Ok(hand.refusal)
}

/// Plays the run of a group.
fn try_group(random: &mut Random) -> Result<u32, String> {
    let input = inputs::group(random);
    let before = input.delays.clone();
    let hand = HAND.measure_group(&input.delays, input.seats, input.rank);
    let unit = UNIT.measure_group(&input.delays, input.seats, input.rank);
    same("answer", hand, unit)?;
    kept("the delays", &before, &input.delays)?;
    Ok(hand.refusal)
}

/// Compares a function on all its inputs, and answers the line to print, or the first input on which both differ.
fn compare_function(function: &Function, random: &mut Random) -> Result<String, String> {
    let mut tally = Tally::new(function.name, function.done);
    for input in 1..=INPUTS {
        match (function.trial)(random) {
            Ok(refusal) => tally.add(refusal),
            Err(difference) => {
                return Err(format!("{}, input {input}: {difference}", function.name));
            }
        }
    }
    Ok(tally.to_string())
}

/// Compares all functions, and answers the lines to print, or the first difference.
pub fn compare() -> Result<Vec<String>, String> {
    let random = &mut Random::new(1);
    FUNCTIONS
        .iter()
        .map(|function| compare_function(function, random))
        .collect()
}
