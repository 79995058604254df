//! What a row holds at a place.

use crate::types::Delay;

/// An element, or a mark that is below or above every element.
#[derive(Clone, Copy, PartialEq, Eq, PartialOrd, Ord)]
pub enum Entry {
    Below,
    Element(Delay),
    Above,
}

/// What an entry is, apart from which element it is.
#[derive(Clone, Copy, PartialEq, Eq)]
pub enum Kind {
    Below,
    Element,
    Above,
}

impl Entry {
    /// What this entry is.
    pub fn kind(self) -> Kind {
        match self {
            Entry::Below => Kind::Below,
            Entry::Element(_) => Kind::Element,
            Entry::Above => Kind::Above,
        }
    }
}
