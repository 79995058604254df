//! The run of a group.

use super::faults::{Fault, Refusal};
use super::lists::{self, LONGEST_LIST};
use super::range::{Counts, Known, Range};
use super::referee::{Referee, Sums, Verdict};
use crate::types::Delay;

/// A group has at most so many seats.
pub const MOST_SEATS: usize = 16;

/// The places of delays.
const PLACES: Range = Range {
    from: 0,
    to: u32::MAX as u64,
};

/// What a finished run hands out: the element of the rank, and how many verdicts were made.
pub struct Finished {
    pub result: Delay,
    pub count: u32,
}

/// What a run keeps of a seat.
#[derive(Clone, Copy)]
struct Seat {
    known: Known,
    given: Option<Counts>,
}

impl Seat {
    /// A seat before any round.
    fn new(declared: u32) -> Seat {
        let known = Known {
            declared,
            low: 0,
            high: 0,
        };
        Seat { known, given: None }
    }

    /// After a verdict what the seat gave has shown more of it.
    fn advance(&mut self, verdict: Verdict) {
        let Some(counts) = self.given.take() else {
            return;
        };
        match verdict {
            Verdict::Lower => self.known.high = self.known.declared - counts.below,
            Verdict::Higher => self.known.low = self.known.declared - counts.above,
            Verdict::Done => {}
        }
    }
}

/// A run: its rank, the range that it was opened with and what is left of it, the number of verdicts, and its seats.
struct Run {
    rank: u32,
    limits: Range,
    range: Range,
    made: u32,
    seats: [Seat; MOST_SEATS],
    seated: usize,
    total: u32,
}

impl Run {
    /// Opens a run for a rank of lists, one a seat, of the declared lengths.
    fn open(
        lengths: impl ExactSizeIterator<Item = u32>,
        limits: Range,
        rank: u32,
    ) -> Result<Run, Fault> {
        let seated = lengths.len();
        if !(2..=MOST_SEATS).contains(&seated) {
            return Err(Fault::of_run(Refusal::SeatsOutOfBounds, 0));
        }
        let mut seats = [Seat::new(0); MOST_SEATS];
        let mut total = 0;
        for (seat, declared) in seats.iter_mut().zip(lengths) {
            if declared > LONGEST_LIST as u32 {
                return Err(Fault::of_run(Refusal::ListTooLong, 0));
            }
            *seat = Seat::new(declared);
            total += declared;
        }
        if limits.from > limits.to || limits.to > PLACES.to {
            return Err(Fault::of_run(Refusal::RangeNotPlaces, 0));
        }
        if rank == 0 || rank > total {
            return Err(Fault::of_run(Refusal::RankOutOfBounds, 0));
        }
        Ok(Run {
            rank,
            limits,
            range: limits,
            made: 0,
            seats,
            seated,
            total,
        })
    }

    /// Takes what a seat, numbered from 1, reports at the target.
    fn report(&mut self, number: u32, counts: Counts) -> Result<(), Fault> {
        let seats = &mut self.seats[..self.seated];
        let seat = match seats.get_mut((number as usize).wrapping_sub(1)) {
            Some(seat) if seat.given.is_none() => seat,
            _ => return Err(Fault::of_run(Refusal::NotItsTurn, number)),
        };
        if !self.range.keeps_rules(seat.known, counts) {
            return Err(Fault::of_run(Refusal::Impossible, number));
        }
        seat.given = Some(counts);
        Ok(())
    }

    /// The sums of what the seats have given, if all have.
    fn sums(&self) -> Option<Sums> {
        let mut sums = Sums {
            below: 0,
            above: 0,
            k: self.rank,
            n: self.total,
        };
        for seat in &self.seats[..self.seated] {
            let counts = seat.given?;
            sums.below += counts.below;
            sums.above += counts.above;
        }
        Some(sums)
    }

    /// Has the referee weigh the sums, and goes on by its verdict.
    fn step(&mut self, referee: &mut Referee) -> Result<Verdict, Fault> {
        let sums = self
            .sums()
            .ok_or(Fault::of_run(Refusal::ReportMissing, 0))?;
        let verdict = referee.weigh(&sums)?;
        for seat in &mut self.seats[..self.seated] {
            seat.advance(verdict);
        }
        self.range.narrow(verdict);
        self.made += 1;
        Ok(verdict)
    }

    /// Hands out the element at the target, which is a place of delays.
    fn finish(self) -> Finished {
        Finished {
            result: Delay {
                micros: self.range.target() as u32,
            },
            count: self.made,
        }
    }
}

/// The place of a delay.
fn place(delay: &Delay) -> u64 {
    u64::from(delay.micros)
}

/// Checks that every element of a list in order is in the range; its ends show that.
fn check_within(list: &[Delay], limits: Range, number: u32) -> Result<(), Fault> {
    let (Some(first), Some(last)) = (list.first(), list.last()) else {
        return Ok(());
    };
    let spot = if place(first) < limits.from {
        1
    } else if place(last) > limits.to {
        list.partition_point(|delay| place(delay) <= limits.to) as u64 + 1
    } else {
        return Ok(());
    };
    Err(Fault::of_seat(Refusal::OutsideRange(spot), number))
}

/// The counts of a seat's list at the target of a run.
fn honest_report(list: &[Delay], run: &Run, number: u32) -> Result<Counts, Fault> {
    lists::check(list, number)?;
    check_within(list, run.limits, number)?;
    let target = run.range.target();
    let below = list.partition_point(|delay| place(delay) < target);
    let not_above = list.partition_point(|delay| place(delay) <= target);
    Ok(Counts {
        below: below as u32,
        above: (list.len() - not_above) as u32,
    })
}

/// Finds the element of a rank of lists of delays, one a seat, over all their places.
pub fn find_rank(lists: &[&[Delay]], rank: u32, referee: &mut Referee) -> Result<Finished, Fault> {
    let lengths = lists.iter().map(|list| lists::declared(list));
    let mut run = Run::open(lengths, PLACES, rank)?;
    loop {
        for (number, list) in (1..).zip(lists) {
            run.report(number, honest_report(list, &run, number)?)?;
        }
        if let Verdict::Done = run.step(referee)? {
            return Ok(run.finish());
        }
    }
}

/// Finds it of as many equal parts of the delays as there are seats.
pub fn find_rank_of_parts(
    delays: &[Delay],
    seats: u32,
    rank: u32,
    referee: &mut Referee,
) -> Result<Finished, Fault> {
    let each = delays.len().checked_div(seats as usize).unwrap_or(0);
    let mut parts = [&delays[..0]; MOST_SEATS];
    let Some(lists) = parts.get_mut(..seats as usize) else {
        return Err(Fault::of_run(Refusal::SeatsOutOfBounds, 0));
    };
    for (seat, list) in lists.iter_mut().enumerate() {
        *list = &delays[seat * each..][..each];
    }
    find_rank(lists, rank, referee)
}
