//! The text notation (document 02, "Manifests as people write them"). Every
//! expected value follows from the notation's page and our readings.

mod binding;
mod forms;
mod limits;
mod order;
mod printing;
mod random;
mod tokens;
mod unprintable;

use crate::assemble::*;
use crate::text_case::TextCase;

/// What the converter writes, or the number, place and reason it refuses with.
fn converted(text: impl AsRef<[u8]>) -> Result<Vec<u8>, (u8, usize, &'static str)> {
    let answer = TextCase::converting(text.as_ref()).answer();
    answer.map_err(|refused| (refused.number, usize::from(refused.place), refused.why))
}

/// The text becomes the manifest of these items.
#[track_caller]
fn becomes(text: impl AsRef<[u8]>, items: Vec<Field>) {
    let shown = String::from_utf8_lossy(text.as_ref()).into_owned();
    assert_eq!(converted(text), Ok(Manifest::new(items).build().bytes), "{shown}");
}

/// The value of `$x = ` and this text is this expression.
#[track_caller]
fn is_value(text: &str, value: Field) {
    becomes(format!("$x = {text}"), vec![assign("x", value)]);
}

/// The text of both parts is refused where the second begins.
#[track_caller]
fn refuses(number: u8, before: impl AsRef<[u8]>, rest: impl AsRef<[u8]>) {
    let text = [before.as_ref(), rest.as_ref()].concat();
    let shown = String::from_utf8_lossy(&text).into_owned();
    match converted(&text) {
        Ok(_) => panic!("accepted: {shown}"),
        Err((got, place, _)) => assert_eq!((got, place), (number, before.as_ref().len()), "{shown}"),
    }
}

/// 24 where the second part begins.
#[track_caller]
fn outside(before: impl AsRef<[u8]>, rest: impl AsRef<[u8]>) {
    refuses(24, before, rest);
}

/// 24 where the second part begins, for that reason.
#[track_caller]
fn outside_for(why: &str, before: impl AsRef<[u8]>, rest: impl AsRef<[u8]>) {
    let text = [before.as_ref(), rest.as_ref()].concat();
    let shown = String::from_utf8_lossy(&text).into_owned();
    match converted(&text) {
        Ok(_) => panic!("accepted: {shown}"),
        Err(refused) => assert_eq!(refused, (24, before.as_ref().len(), why), "{shown}"),
    }
}
