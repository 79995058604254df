//! Cases of which each is played once, so that valgrind counts the instructions of its function.

use crate::calls::Calls;
use crate::random::Random;
use crate::sheets::{self, Element};
use crate::types::{Delay, LinkLevel};

/// What a case's function is given: lists of so many elements.
pub enum Input {
    Delays(usize),
    FallingDelays(usize),
    LinkLevels(usize),
    Request(usize),
    SampleRequest,
    Group { seats: usize, each: usize },
    SampleGroup,
}

/// All cases by their names, in the order of the table.
pub const CASES: [(&str, Input); 12] = [
    ("delays-65536", Input::Delays(65_536)),
    ("delays-4096", Input::Delays(4_096)),
    ("falling-65536", Input::FallingDelays(65_536)),
    ("levels-65536", Input::LinkLevels(65_536)),
    ("levels-4096", Input::LinkLevels(4_096)),
    ("request-65536", Input::Request(65_536)),
    ("request-4096", Input::Request(4_096)),
    ("request-3", Input::SampleRequest),
    ("group-16x65536", Input::group(16, 65_536)),
    ("group-16x4096", Input::group(16, 4_096)),
    ("group-16x1", Input::group(16, 1)),
    ("group-2x3", Input::SampleGroup),
];

impl Input {
    /// A group of so many seats, each with a list of so many delays.
    const fn group(seats: usize, each: usize) -> Input {
        Input::Group { seats, each }
    }

    /// The function that is given this and counted, by its name in either implementation.
    pub fn function(&self) -> &'static str {
        match self {
            Input::Delays(_) | Input::FallingDelays(_) => "read_delays",
            Input::LinkLevels(_) => "read_link_levels",
            Input::Request(_) | Input::SampleRequest => "answer_request",
            Input::Group { .. } | Input::SampleGroup => "measure_group",
        }
    }

    /// What it is, in words.
    pub fn what(&self) -> String {
        match self {
            Input::Delays(n) => format!("a sheet of {n} delays"),
            Input::FallingDelays(n) => format!("a sheet of {n} delays that falls in the middle"),
            Input::LinkLevels(n) => format!("a sheet of {n} link levels"),
            Input::Request(n) => format!("a request: the median of two lists of {n}"),
            Input::SampleRequest => String::from("a request: the rank 4 of two lists of 3"),
            Input::Group { seats, each } => {
                format!("a group: the median of {seats} lists of {each}")
            }
            Input::SampleGroup => String::from("a group: the median of 2 lists of 3"),
        }
    }
}

/// The request of two lists of three.
const SAMPLE: &[u8] = include_bytes!("../../../samples/pair.request");

/// The places of a list in order, spread over all places of a type.
fn places<T: Element>(random: &mut Random, length: usize) -> Vec<u64> {
    let mut places: Vec<u64> = (0..length).map(|_| random.number() & T::HIGHEST).collect();
    places.sort_unstable();
    places
}

/// A list of delays in order.
fn delays(random: &mut Random, length: usize) -> Vec<Delay> {
    sheets::list(&places::<Delay>(random, length))
}

/// A list of delays of which the one in the middle is before its predecessor, and no other.
fn falling(random: &mut Random, length: usize) -> Vec<Delay> {
    let mut list = delays(random, length);
    list[..length / 2].rotate_left(1);
    list
}

/// A request for the median of two lists.
fn median_request(random: &mut Random, length: usize) -> Vec<u8> {
    let a = sheets::sheet(&delays(random, length));
    let b = sheets::sheet(&delays(random, length));
    sheets::request(length as u32, &a, &b)
}

/// Reads a sheet of delays.
fn read_delays(calls: &Calls, list: &[Delay]) -> String {
    let mut read = vec![Delay { micros: 0 }; list.len()];
    format!("{:?}", calls.read_delays(&sheets::sheet(list), &mut read))
}

/// Reads a sheet of link levels.
fn read_link_levels(calls: &Calls, random: &mut Random, length: usize) -> String {
    let list: Vec<LinkLevel> = sheets::list(&places::<LinkLevel>(random, length));
    let mut read = vec![LinkLevel::at(0); length];
    format!(
        "{:?}",
        calls.read_link_levels(&sheets::sheet(&list), &mut read)
    )
}

/// Answers a request.
fn answer_request(calls: &Calls, bytes: &[u8]) -> String {
    let room = calls.most_delays(bytes.len());
    let (mut a, mut b) = (
        vec![Delay { micros: 0 }; room],
        vec![Delay { micros: 0 }; room],
    );
    format!("{:?}", calls.answer_request(bytes, &mut a, &mut b))
}

/// Plays the run of a group for the median.
fn measure_group(calls: &Calls, seats: usize, delays: &[Delay]) -> String {
    let median = delays.len().div_ceil(2) as u32;
    format!("{:?}", calls.measure_group(delays, seats as u32, median))
}

/// Has an implementation play with an input once, and answers what it came to.
pub fn play(input: &Input, calls: &Calls) -> String {
    let random = &mut Random::new(1);
    match *input {
        Input::Delays(length) => read_delays(calls, &delays(random, length)),
        Input::FallingDelays(length) => read_delays(calls, &falling(random, length)),
        Input::LinkLevels(length) => read_link_levels(calls, random, length),
        Input::Request(length) => answer_request(calls, &median_request(random, length)),
        Input::SampleRequest => answer_request(calls, SAMPLE),
        Input::Group { seats, each } => {
            let lists: Vec<_> = (0..seats).map(|_| delays(random, each)).collect();
            measure_group(calls, seats, &lists.concat())
        }
        Input::SampleGroup => {
            let delays = [12, 40, 55, 20, 31, 70].map(|micros| Delay { micros });
            measure_group(calls, 2, &delays)
        }
    }
}
