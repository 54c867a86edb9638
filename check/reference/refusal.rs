//! Why a job is not opened.

use std::fmt;

/// Why a job is refused, and at which byte of its text.
#[derive(Debug, Clone, Copy, PartialEq, Eq)]
pub enum Refusal {
    /// The text cannot be read: the first byte that cannot stand where it stands, or the text's length.
    Unreadable { place: usize },
    /// A limit is passed: the first token beyond one, or 0 for the text's length and the numbers given with it.
    BeyondLimit { place: usize },
}

impl fmt::Display for Refusal {
    fn fmt(&self, out: &mut fmt::Formatter) -> fmt::Result {
        let (number, place) = match self {
            Refusal::Unreadable { place } => (1, place),
            Refusal::BeyondLimit { place } => (2, place),
        };
        write!(out, "refused {number} at {place}")
    }
}
