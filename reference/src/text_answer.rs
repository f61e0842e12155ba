//! What a text call answers: the bytes written, or one numbered refusal, its
//! place, and why in words. The words are for counting and are never compared.

use crate::answer::{Place, Refusal};

/// What [`crate::converter::convert`] and [`crate::printer::print`] give back.
pub type Written = Result<Vec<u8>, Refused>;

#[derive(Clone, Copy, Debug, PartialEq, Eq)]
pub struct Refused {
    pub number: u8,
    pub place: Place,
    pub why: &'static str,
}

/// A text and a manifest have at most so many bytes.
pub const LONGEST: usize = 65_535;

/// 24, "the text is outside the notation or 01's limits".
pub fn outside(place: usize, why: &'static str) -> Refused {
    refused(24, place, why)
}

/// 25, "a constant stands past line 255".
pub fn past_line_255(place: usize) -> Refused {
    refused(25, place, "a constant past line 255")
}

/// 26, what the printer alone refuses.
pub fn unprintable(place: usize, why: &'static str) -> Refused {
    refused(26, place, why)
}

/// Places are at most 65,535, the place of the end of the longest text.
fn refused(number: u8, place: usize, why: &'static str) -> Refused {
    Refused {
        number,
        place: Place::try_from(place).unwrap_or(Place::MAX),
        why,
    }
}

/// Refusals 1 to 5, which a compile gives too.
impl From<Refusal> for Refused {
    fn from(refusal: Refusal) -> Refused {
        refused(refusal.reason as u8, usize::from(refusal.place), "")
    }
}
