//! Refusals. Document 01: "A refusal gives number and place".

use std::fmt;

/// A refusal: one of the numbers of document 01, and its place in the file.
#[derive(Clone, Copy, Debug, PartialEq, Eq)]
pub struct Refusal {
    /// The number, 1 to 23.
    pub number: u8,
    /// The place, a byte offset from the start of the file.
    pub place: usize,
}

impl Refusal {
    /// The refusal of this number at this place.
    pub fn at(number: u8, place: usize) -> Refusal {
        Refusal { number, place }
    }

    /// "A number for which no place is named has place 0".
    pub fn without_place(number: u8) -> Refusal {
        Refusal { number, place: 0 }
    }
}

impl fmt::Display for Refusal {
    /// "`refused NUMBER at PLACE`".
    fn fmt(&self, f: &mut fmt::Formatter<'_>) -> fmt::Result {
        write!(f, "refused {} at {}", self.number, self.place)
    }
}
