//! Lines of questions and of answers.

use super::*;
use crate::answer::Reason;
use crate::why_case::{why_line, WhyCase};
use crate::why_generate::why_cases;
use crate::why_named::part_title;

#[test]
fn line_of_a_question() {
    let mut case = part_title().case();
    case.manifest = vec![1, 0, 0];
    assert_eq!(
        case.line(),
        "why 6465736b 6b696f736b 66726f6e74 7072696365 7 65536 010000"
    );
    case.title.clear();
    case.manifest.clear();
    assert_eq!(case.line(), "why 6465736b 6b696f736b - 7072696365 7 65536 -");
    for wrong in [
        "",
        "why",
        "why - - - - 7 65536",
        "why - - - - 7 65536 - -",
        "how - - - - 7 65536 -",
        "why - - - - 256 65536 -",
        "why - - - - 7 x -",
        "why - - - 0 7 65536 -",
        "why -  - - - 7 65536 -",
    ] {
        assert!(WhyCase::from_line(wrong).is_err(), "{wrong}");
    }
}

#[test]
fn line_there_and_back() {
    for case in why_cases(4, 300) {
        assert_eq!(WhyCase::from_line(&case.line()), Ok(case));
    }
}

/// "title expression, path, trail, marks its expression read, value (the rest)"
/// have the numbers 1 to 5.
#[test]
fn line_of_an_answer() {
    let parts = [Part::Title, Part::Path, Part::Trail, Part::Marks, Part::Value];
    for (at, part) in parts.into_iter().enumerate() {
        let line = why_line(&Why::Among { part, place: 65 });
        assert_eq!(line, format!("among {} 65", at + 1));
    }
    assert_eq!(why_line(&Why::NotAmong), "not among");
    assert_eq!(why_line(&Why::Refused(Reason::NoAttribute.at(0))), "refused 27 0");
    assert_eq!(why_line(&Why::Refused(Reason::Kind.at(12))), "refused 15 12");
}
