//! Where two rows are still looked at.

use super::entry::{Entry, Kind};

/// One of the two seats of a pair.
#[derive(Clone, Copy, PartialEq, Eq)]
pub enum Side {
    A = 1,
    B = 2,
}

/// The two entries that bound what a seat can report: the one at the window's offset, and the one at its end.
#[derive(Clone, Copy)]
pub struct Bounds {
    pub low: Entry,
    pub high: Entry,
}

/// In each row, past its offset, `size` places, which is a power of two.
#[derive(Clone, Copy)]
pub struct Window {
    rank: u32,
    row: u32,
    a: u32,
    b: u32,
    size: u32,
}

impl Window {
    /// The whole of both rows for a rank. Their length is the smallest power of two that is at least the rank.
    pub fn whole(rank: u32) -> Window {
        let row = rank.next_power_of_two();
        Window {
            rank,
            row,
            a: 0,
            b: 0,
            size: row,
        }
    }

    /// How many places of each row are left.
    pub fn size(&self) -> u32 {
        self.size
    }

    /// How many places of a side's row are left behind.
    fn offset(&self, side: Side) -> u32 {
        match side {
            Side::A => self.a,
            Side::B => self.b,
        }
    }

    /// The place that a side is asked for, counted from 1.
    pub fn place_asked(&self, side: Side) -> u32 {
        self.offset(side) + (self.size / 2).max(1)
    }

    /// How many belows a side's row begins with.
    pub fn belows(&self, side: Side) -> u32 {
        match side {
            Side::A => self.row - self.rank,
            Side::B => 0,
        }
    }

    /// What the row of every list of the declared length has at a place.
    pub fn kind_at(&self, side: Side, declared: u32, place: u32) -> Kind {
        let belows = self.belows(side);
        if place <= belows {
            Kind::Below
        } else if place - belows <= self.rank.min(declared) {
            Kind::Element
        } else {
            Kind::Above
        }
    }

    /// Whether a side can report an entry at the place that it is asked for, within the bounds of its earlier reports. At size 1
    /// the place was asked before, unless it is the last of the row, and the entry has to be the same again.
    pub fn passes(&self, side: Side, declared: u32, bounds: Bounds, entry: Entry) -> bool {
        let place = self.place_asked(side);
        let asked_before = self.size == 1 && place < self.row;
        entry.kind() == self.kind_at(side, declared, place)
            && bounds.low <= entry
            && entry <= bounds.high
            && (!asked_before || bounds.high <= entry)
    }

    /// Leaves the upper half of A's row and the lower one of B's if A's entry was before B's, else the other way round.
    pub fn halve(&mut self, before: bool) {
        let half = self.size / 2;
        if before {
            self.a += half;
        } else {
            self.b += half;
        }
        self.size = half;
    }
}
