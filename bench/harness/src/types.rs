//! The structs of `rankunit.h`.

/// A delay in microseconds.
#[repr(C)]
#[derive(Clone, Copy, Debug, PartialEq, Eq, PartialOrd, Ord)]
pub struct Delay {
    pub micros: u32,
}

/// The level of a link in hundredths of dBm, with the link's number; by level, then by link.
#[repr(C)]
#[derive(Clone, Copy, Debug, PartialEq, Eq, PartialOrd, Ord)]
pub struct LinkLevel {
    pub level: i32,
    pub link: u32,
}

/// What a sheet comes to.
#[repr(C)]
#[derive(Clone, Copy, Debug, PartialEq, Eq)]
pub struct Reading {
    pub refusal: u32,
    pub count: u32,
    pub spot: u64,
}

/// What a request comes to, or the run of a group.
#[repr(C)]
#[derive(Clone, Copy, Debug, PartialEq, Eq)]
pub struct Outcome {
    pub refusal: u32,
    pub layer: u32,
    pub seat: u32,
    pub result: u32,
    pub count: u32,
    pub verdicts: u32,
    pub spot: u64,
}

/// What a call for a rank comes to.
#[repr(C)]
#[derive(Clone, Copy, Debug, PartialEq, Eq)]
pub struct Rank {
    pub refusal: u32,
    pub rank: u32,
}
