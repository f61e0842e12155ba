//! "Why does this line count?" (document 02). Every expected value follows from
//! its words and our readings, quoted where a named question is made or beside
//! the test.

mod limits;
mod lines;
mod named;
mod oracle;
mod random;

use crate::answer::Refusal;
use crate::why::{Part, Why};
use crate::why_named::Asking;

/// The place of the field with the mark "told".
#[track_caller]
fn place_told(asking: &Asking) -> u16 {
    let place = asking.manifest.build().place("told");
    assert_ne!(place, u16::MAX, "no field has the mark");
    place
}

/// That part, at the constant with the mark "told".
#[track_caller]
fn tells(asking: Asking, part: Part) {
    let place = place_told(&asking);
    assert_eq!(asking.case().answer(), Why::Among { part, place });
}

#[track_caller]
fn lacks(asking: Asking) {
    assert_eq!(asking.case().answer(), Why::NotAmong);
}

#[track_caller]
fn refuses(asking: Asking, number: u8, place: u16) {
    match asking.case().answer() {
        Why::Refused(Refusal { reason, place: at }) => assert_eq!((reason as u8, at), (number, place)),
        other => panic!("{other:?}"),
    }
}
