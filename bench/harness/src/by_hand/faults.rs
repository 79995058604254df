//! Refusals by their numbers, and faults: who refused, for which seat.

/// Why a call is refused. Where the condition is about one element, the refusal has its number, counted from 1.
#[derive(Clone, Copy)]
pub enum Refusal {
    SheetTooShort,
    VersionUnknown,
    CountDiffers,
    KindNotWanted,
    BodyNotAList,
    OutOfOrder(u64),
    SliceTooShort,
    SeatsOutOfBounds,
    ListTooLong,
    RangeNotPlaces,
    RankOutOfBounds,
    OutsideRange(u64),
    NotItsTurn,
    Impossible,
    ReportMissing,
    StockEmpty,
}

impl Refusal {
    /// The number of the condition.
    pub fn number(self) -> u32 {
        match self {
            Refusal::SheetTooShort => 1,
            Refusal::VersionUnknown => 2,
            Refusal::CountDiffers => 3,
            Refusal::KindNotWanted => 4,
            Refusal::BodyNotAList => 5,
            Refusal::OutOfOrder(_) => 6,
            Refusal::SliceTooShort => 7,
            Refusal::SeatsOutOfBounds => 8,
            Refusal::ListTooLong => 9,
            Refusal::RangeNotPlaces => 10,
            Refusal::RankOutOfBounds => 11,
            Refusal::OutsideRange(_) => 12,
            Refusal::NotItsTurn => 13,
            Refusal::Impossible => 14,
            Refusal::ReportMissing => 15,
            Refusal::StockEmpty => 16,
        }
    }

    /// The number of the element that the condition is about, or 0.
    pub fn spot(self) -> u64 {
        match self {
            Refusal::OutOfOrder(spot) | Refusal::OutsideRange(spot) => spot,
            _ => 0,
        }
    }
}

/// The part that refused.
#[derive(Clone, Copy)]
pub enum Layer {
    Sheet = 1,
    Seat = 2,
    Run = 3,
}

/// A refusal with the layer that refused and the number of the seat that the call was made for; 0 is no seat.
#[derive(Clone, Copy)]
pub struct Fault {
    pub refusal: Refusal,
    pub layer: Layer,
    pub seat: u32,
}

impl Fault {
    /// What a sheet is refused with, read for a seat.
    pub fn of_sheet(refusal: Refusal, seat: u32) -> Fault {
        let layer = Layer::Sheet;
        Fault {
            refusal,
            layer,
            seat,
        }
    }

    /// What a seat's own call refuses with.
    pub fn of_seat(refusal: Refusal, seat: u32) -> Fault {
        let layer = Layer::Seat;
        Fault {
            refusal,
            layer,
            seat,
        }
    }

    /// What a run refuses with, for a seat or for none.
    pub fn of_run(refusal: Refusal, seat: u32) -> Fault {
        let layer = Layer::Run;
        Fault {
            refusal,
            layer,
            seat,
        }
    }
}
