//! The unit by hand: written from the documents in plain Rust, by the same protocols, with the same checks in the same order.
#![forbid(unsafe_code)]

pub mod delays;
pub mod entry;
pub mod faults;
pub mod group;
pub mod header;
pub mod link_levels;
pub mod lists;
pub mod pair;
mod parts;
pub mod range;
pub mod ranks;
pub mod referee;
pub mod requests;
pub mod window;
