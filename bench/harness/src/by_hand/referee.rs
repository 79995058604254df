//! The referee: it answers questions as long as it has some left.

use super::entry::Entry;
use super::faults::{Fault, Refusal};

/// More questions than any run needs.
pub const STOCK: u64 = 64;

/// Where the element of the rank is, seen from the place asked about.
#[derive(Clone, Copy)]
pub enum Verdict {
    Lower,
    Higher,
    Done,
}

/// The counts of all seats of a group added up, with the rank k and the number n of all elements.
pub struct Sums {
    pub below: u32,
    pub above: u32,
    pub k: u32,
    pub n: u32,
}

/// A referee that counts its stock down.
pub struct Referee {
    stock: u64,
}

impl Referee {
    /// A referee with so many questions.
    pub fn new(stock: u64) -> Referee {
        Referee { stock }
    }

    /// Takes one question from the stock.
    fn spend(&mut self) -> Result<(), Fault> {
        if self.stock == 0 {
            return Err(Fault::of_run(Refusal::StockEmpty, 0));
        }
        self.stock -= 1;
        Ok(())
    }

    /// Whether A's entry is before B's.
    pub fn first(&mut self, a: Entry, b: Entry) -> Result<bool, Fault> {
        self.spend()?;
        Ok(a < b)
    }

    /// A's entry if it is before B's, else B's.
    pub fn lesser(&mut self, a: Entry, b: Entry) -> Result<Entry, Fault> {
        self.spend()?;
        Ok(a.min(b))
    }

    /// Lower if the sum below is at least k; else higher if the sum above and k together pass n; else done.
    pub fn weigh(&mut self, sums: &Sums) -> Result<Verdict, Fault> {
        self.spend()?;
        Ok(if sums.below >= sums.k {
            Verdict::Lower
        } else if u64::from(sums.above) + u64::from(sums.k) > u64::from(sums.n) {
            Verdict::Higher
        } else {
            Verdict::Done
        })
    }
}
