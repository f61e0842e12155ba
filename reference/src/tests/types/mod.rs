//! "Our own type list" (document 02). Every expected value follows from its
//! words and our readings, quoted beside the test or where a named case is made.

mod calls;
mod lines;
mod list;
mod named;
mod random;

use crate::any_case::AnyCase;

/// The line of the answer.
#[track_caller]
fn answer_to(case: &AnyCase) -> String {
    case.answer().expect("the bytes lent obey document 01").line()
}

#[track_caller]
fn refuses(case: &AnyCase, number: u8, place: usize) {
    assert_eq!(answer_to(case), format!("refused {number} {place}"));
}
