//! Sheets and requests as bytes.

use crate::types::{Delay, LinkLevel};
use std::fmt::Debug;

/// What lists on sheets are made of.
pub trait Element: Copy + PartialEq + Debug {
    /// The byte that names the kind of these sheets.
    const KIND: u8;

    /// The highest place of an element; the lowest is 0.
    const HIGHEST: u64;

    /// The element at a place. They stand in the order of their places.
    fn at(place: u64) -> Self;

    /// Writes the element behind some bytes.
    fn write(self, bytes: &mut Vec<u8>);
}

impl Element for Delay {
    const KIND: u8 = 1;

    const HIGHEST: u64 = u32::MAX as u64;

    fn at(place: u64) -> Delay {
        let micros = place as u32;
        Delay { micros }
    }

    fn write(self, bytes: &mut Vec<u8>) {
        bytes.extend(self.micros.to_be_bytes());
    }
}

impl Element for LinkLevel {
    const KIND: u8 = 2;

    const HIGHEST: u64 = u64::MAX;

    fn at(place: u64) -> LinkLevel {
        LinkLevel {
            level: (place >> 32) as i32 ^ i32::MIN,
            link: place as u32,
        }
    }

    fn write(self, bytes: &mut Vec<u8>) {
        bytes.extend(self.level.to_be_bytes());
        bytes.extend(self.link.to_be_bytes());
    }
}

/// The elements at some places.
pub fn list<T: Element>(places: &[u64]) -> Vec<T> {
    places.iter().map(|place| T::at(*place)).collect()
}

/// A sheet with a list, whether or not it is in order.
pub fn sheet<T: Element>(list: &[T]) -> Vec<u8> {
    let mut bytes = vec![1, 0, 0, 0, 0, T::KIND];
    for element in list {
        element.write(&mut bytes);
    }
    set_count(&mut bytes);
    bytes
}

/// Sets the count of a sheet to the number of bytes after it.
pub fn set_count(bytes: &mut [u8]) {
    write_count(bytes, bytes.len().saturating_sub(5) as u32);
}

/// Sets the count of a sheet to a number, where it has bytes for a count.
pub fn write_count(bytes: &mut [u8], count: u32) {
    if let Some(place) = bytes.get_mut(1..5) {
        place.copy_from_slice(&count.to_be_bytes());
    }
}

/// A request for a rank of the lists of two sheets.
pub fn request(rank: u32, a: &[u8], b: &[u8]) -> Vec<u8> {
    [&rank.to_be_bytes(), a, b].concat()
}
