//! Lines with a list before them.

use super::*;
use crate::case::Case;
use crate::text_case::TextCase;
use crate::types_generate::types_cases;
use crate::types_modes::answered;
use crate::why_case::WhyCase;

#[test]
fn lines_of_each_sort() {
    let line = "types 02000161 6465736b 65535 65535 65536 010000";
    let case = Case::from_line(line).expect("a case");
    assert_eq!(case.types, Some(vec![2, 0, 1, b'a']));
    assert_eq!(case.line(), line);
    let line = "types - convert 65535 65536 2478";
    let case = TextCase::from_line(line).expect("a text case");
    assert_eq!(case.types, Some(vec![]));
    assert_eq!(case.line(), line);
    let line = "types 02000161 why - 61 62 63 7 65536 010000";
    let case = WhyCase::from_line(line).expect("a why case");
    assert_eq!(case.types, Some(vec![2, 0, 1, b'a']));
    assert_eq!(case.line(), line);
}

/// "Not lending a list is another call": no word before the line.
#[test]
fn no_list() {
    let case = Case::from_line("- 3 4 5 -").expect("a case");
    assert_eq!(
        (case.types.is_none(), case.line()),
        (true, "- 3 4 5 -".to_string())
    );
    assert!(answered("- 3 4 65536 010000").is_err());
    assert_eq!(
        answered("types - - 3 4 65536 010000"),
        Ok("refused 28 0".to_string())
    );
    assert_eq!(
        answered("types 02000161 - 3 4 65536 010000"),
        Ok("ok 0 -".to_string())
    );
}

#[test]
fn wrong_lines() {
    for wrong in [
        "types",
        "types ",
        "types -",
        "types 02",
        "types 0 - 3 4 5 -",
        "types xx - 3 4 5 -",
        "types  - 3 4 5 -",
        "types - - 3 4 5",
        "types - types - - 3 4 5 -",
        "types - convert 3 4",
        "types - why - - - - 7 65536",
        "type - - 3 4 5 -",
    ] {
        assert!(AnyCase::from_line(wrong).is_err(), "{wrong}");
    }
}

#[test]
fn there_and_back() {
    for case in types_cases(4, 300) {
        assert_eq!(AnyCase::from_line(&case.line()), Ok(case));
    }
}
