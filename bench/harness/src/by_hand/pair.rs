//! The run of a pair.

use super::entry::{Entry, Kind};
use super::faults::{Fault, Refusal};
use super::lists::{self, LONGEST_LIST};
use super::referee::Referee;
use super::window::{Bounds, Side, Window};
use crate::types::Delay;

/// What a finished run hands out: the element of the rank, how many verdicts were made, and these, the first in the lowest bit.
pub struct Finished {
    pub result: Delay,
    pub count: u32,
    pub verdicts: u32,
}

/// What a run keeps of a seat.
struct Seat {
    declared: u32,
    bounds: Bounds,
    given: Option<Entry>,
}

impl Seat {
    /// A seat before any report.
    fn new(declared: u32) -> Seat {
        let bounds = Bounds {
            low: Entry::Below,
            high: Entry::Above,
        };
        Seat {
            declared,
            bounds,
            given: None,
        }
    }

    /// After a verdict what the seat has reported is one of its bounds: the low one if its window moves up.
    fn advance(&mut self, moves_up: bool, entry: Entry) {
        if moves_up {
            self.bounds.low = entry;
        } else {
            self.bounds.high = entry;
        }
        self.given = None;
    }
}

/// A run: its window, the verdicts made, and both seats.
struct Run {
    window: Window,
    made: u32,
    verdicts: u32,
    a: Seat,
    b: Seat,
}

impl Run {
    /// Opens a run for a rank of two lists of the declared lengths.
    fn open(a: u32, b: u32, rank: u32) -> Result<Run, Fault> {
        if a > LONGEST_LIST as u32 || b > LONGEST_LIST as u32 {
            return Err(Fault::of_run(Refusal::ListTooLong, 0));
        }
        if rank == 0 || rank > a + b {
            return Err(Fault::of_run(Refusal::RankOutOfBounds, 0));
        }
        Ok(Run {
            window: Window::whole(rank),
            made: 0,
            verdicts: 0,
            a: Seat::new(a),
            b: Seat::new(b),
        })
    }

    /// Takes what a side reports at the place that it is asked for.
    fn report(&mut self, side: Side, entry: Entry) -> Result<(), Fault> {
        let seat = match side {
            Side::A => &mut self.a,
            Side::B => &mut self.b,
        };
        if seat.given.is_some() {
            return Err(Fault::of_run(Refusal::NotItsTurn, side as u32));
        }
        if !self.window.passes(side, seat.declared, seat.bounds, entry) {
            return Err(Fault::of_run(Refusal::Impossible, side as u32));
        }
        seat.given = Some(entry);
        Ok(())
    }

    /// What both seats have reported.
    fn reports(&self) -> Result<(Entry, Entry), Fault> {
        match (self.a.given, self.b.given) {
            (Some(a), Some(b)) => Ok((a, b)),
            _ => Err(Fault::of_run(Refusal::ReportMissing, 0)),
        }
    }

    /// Asks the referee which report is before the other, and goes on by its verdict.
    fn step(&mut self, referee: &mut Referee) -> Result<(), Fault> {
        let (a, b) = self.reports()?;
        let before = referee.first(a, b)?;
        self.verdicts |= u32::from(before) << self.made;
        self.made += 1;
        self.window.halve(before);
        self.a.advance(before, a);
        self.b.advance(!before, b);
        Ok(())
    }

    /// Asks the referee for the lesser of both reports, which is the result and never a mark.
    fn finish(self, referee: &mut Referee) -> Result<Finished, Fault> {
        let (a, b) = self.reports()?;
        let result = match referee.lesser(a, b)? {
            Entry::Element(delay) => delay,
            Entry::Below | Entry::Above => Delay { micros: 0 },
        };
        Ok(Finished {
            result,
            count: self.made,
            verdicts: self.verdicts,
        })
    }
}

/// The entry at the place that a window asks a side for, in the row of its list.
fn honest_report(list: &[Delay], window: &Window, side: Side) -> Result<Entry, Fault> {
    lists::check(list, side as u32)?;
    let place = window.place_asked(side);
    Ok(match window.kind_at(side, list.len() as u32, place) {
        Kind::Below => Entry::Below,
        Kind::Element => Entry::Element(list[(place - window.belows(side) - 1) as usize]),
        Kind::Above => Entry::Above,
    })
}

/// Lets both seats report, A first.
fn report_both(run: &mut Run, a: &[Delay], b: &[Delay]) -> Result<(), Fault> {
    run.report(Side::A, honest_report(a, &run.window, Side::A)?)?;
    run.report(Side::B, honest_report(b, &run.window, Side::B)?)
}

/// Finds the element of a rank of two lists.
pub fn find_rank(
    a: &[Delay],
    b: &[Delay],
    rank: u32,
    referee: &mut Referee,
) -> Result<Finished, Fault> {
    let mut run = Run::open(lists::declared(a), lists::declared(b), rank)?;
    while run.window.size() > 1 {
        report_both(&mut run, a, b)?;
        run.step(referee)?;
    }
    report_both(&mut run, a, b)?;
    run.finish(referee)
}
