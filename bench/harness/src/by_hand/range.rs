//! The places that a group still looks at.

use super::referee::Verdict;

/// What a seat of a group reports: how many of its places are below the target, and how many above it.
#[derive(Clone, Copy)]
pub struct Counts {
    pub below: u32,
    pub above: u32,
}

/// What is known of a seat: its declared length, how many of its places are below the range, and how many above it.
#[derive(Clone, Copy)]
pub struct Known {
    pub declared: u32,
    pub low: u32,
    pub high: u32,
}

/// A range of places with both ends.
#[derive(Clone, Copy)]
pub struct Range {
    pub from: u64,
    pub to: u64,
}

impl Range {
    /// The target: the middle, rounded up.
    pub fn target(&self) -> u64 {
        self.from + (self.to - self.from).div_ceil(2)
    }

    /// Leaves what a verdict on the target leaves, and at least a place.
    pub fn narrow(&mut self, verdict: Verdict) {
        let target = self.target();
        match verdict {
            Verdict::Lower => self.to = target.saturating_sub(1).max(self.from),
            Verdict::Higher => self.from = target.saturating_add(1).min(self.to),
            Verdict::Done => {}
        }
    }

    /// Whether a seat can have these counts at the target: the five rules.
    pub fn keeps_rules(&self, known: Known, counts: Counts) -> bool {
        let target = self.target();
        u64::from(counts.below) + u64::from(counts.above) <= u64::from(known.declared)
            && counts.below >= known.low
            && counts.above >= known.high
            && (target != self.from || counts.below == known.low)
            && (target != self.to || counts.above == known.high)
    }
}
