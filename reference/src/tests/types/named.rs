//! The named cases.

use super::*;
use crate::types::{names_of, Fault};
use crate::types_named::{all_types_named, types_named};
use crate::walk;
use std::collections::BTreeSet;

/// 28 of the named case, at that offset of its list.
#[track_caller]
fn breaks(name: &str, place: usize) {
    refuses(&types_named(name).expect("a named case"), 28, place);
}

/// The only field of that tag is refused with that number.
#[track_caller]
fn refused_at(name: &str, number: u8, tag: u8) {
    let case = types_named(name).expect("a named case");
    let fields = walk::fields(case.bytes());
    let mut of_tag = fields.iter().filter(|field| field.tag == tag);
    let field = of_tag.next().expect("such a field");
    assert!(of_tag.next().is_none());
    refuses(&case, number, field.place);
}

#[track_caller]
fn accepted(name: &str) {
    let case = types_named(name).expect("a named case");
    assert_eq!(
        case.answer().expect("clean").number(),
        0,
        "{name}: {}",
        answer_to(&case)
    );
}

/// A field "kiosk" takes 8 bytes.
#[test]
fn lists() {
    for name in [
        "list-empty",
        "list-one-byte",
        "list-two-bytes",
        "list-in-a-table",
        "list-past-end-first",
        "list-no-letter-first",
    ] {
        breaks(name, 0);
    }
    for name in [
        "list-one-byte-behind",
        "list-two-bytes-behind",
        "list-other-tag",
        "list-tag-of-a-table",
        "list-past-end",
        "list-past-end-high-byte",
        "list-no-letter",
        "list-33-letters",
        "list-256-letters",
        "list-upper-case",
        "list-digit",
        "list-underscore",
        "list-below-a",
        "list-above-z",
        "list-byte-255",
        "list-equal",
        "list-falling",
        "list-prefix-behind",
    ] {
        breaks(name, 8);
    }
}

/// A field "gate" takes 7 bytes, and each of the long lists 6 but for the kiosk.
#[test]
fn longer_lists() {
    for name in ["list-cut-by-one", "list-cut-by-two", "list-two-faults"] {
        breaks(name, 7);
    }
    for name in ["list-65-names", "list-65th-faulty"] {
        breaks(name, 8 + 63 * 6);
    }
    for name in [
        "list-32-letters",
        "list-prefix-first",
        "list-1-name",
        "list-64-names",
    ] {
        accepted(name);
    }
}

#[test]
fn types() {
    for name in [
        "the-eight",
        "none-in-the-table",
        "listed-type",
        "kiosk-defined",
        "kiosk-class",
        "keyword-listed",
        "prefix-defined",
        "extension-defined",
        "read-listed",
    ] {
        accepted(name);
    }
    for name in ["listed-defined", "listed-defined-no-step", "listed-defined-later"] {
        refused_at(name, 8, 0x32);
    }
    refused_at("listed-defined-class", 8, 0x34);
    for name in [
        "none-in-the-table-25",
        "kiosk-defined-and-25",
        "eight-lacking",
        "prefix-of-listed",
        "extension-of-listed",
    ] {
        refused_at(name, 9, 0x25);
    }
    refused_at("27-of-listed", 9, 0x27);
    refused_at("read-listed-absent", 19, 0x18);
    refused_at("read-lacking", 9, 0x18);
    refused_at("read-kiosk-defined", 19, 0x18);
}

#[test]
fn calls() {
    for name in [
        "convert-the-eight",
        "convert-listed",
        "convert-kiosk-alone",
        "convert-neither",
        "convert-read",
        "convert-defined",
        "convert-empty",
        "print-the-eight",
        "print-listed",
        "print-27-kiosk",
        "why-the-eight",
        "why-listed",
    ] {
        accepted(name);
    }
    refused_at("print-25-lacking", 26, 0x25);
    refused_at("print-27-listed", 26, 0x27);
    refused_at("print-keyword-listed", 26, 0x25);
    refused_at("why-eight-lacking", 9, 0x25);
    for name in ["why-kiosk-defined", "why-none-in-the-table"] {
        refuses(&types_named(name).expect("a named case"), 27, 0);
    }
    let case = types_named("print-label-first").expect("a named case");
    let second = walk::fields(case.bytes())
        .into_iter()
        .filter(|field| field.tag == 0x10);
    refuses(
        &case,
        26,
        second.map(|field| field.place).nth(1).expect("a constant"),
    );
}

#[test]
fn order() {
    refuses(&types_named("28-after-1").expect("a named case"), 1, 0);
    breaks("28-before-2", 0);
    for name in ["28-before-3", "28-before-24", "28-before-26", "28-before-27"] {
        breaks(name, 8);
    }
    // Each would be refused with that number if its list were sound.
    for (name, number) in [
        ("28-before-2", 2),
        ("28-before-3", 3),
        ("28-before-24", 24),
        ("28-before-26", 26),
        ("28-before-27", 27),
    ] {
        let case = types_named(name).expect("a named case");
        let sound = case.with_types(Some(crate::types::list_of(&["booth"])));
        assert_eq!(sound.answer().expect("clean").number(), number, "{name}");
    }
}

/// Every rule is broken by some named case; no name stands twice.
#[test]
fn every_rule() {
    let mut faults = BTreeSet::new();
    let mut names = BTreeSet::new();
    for (name, make) in all_types_named() {
        assert!(names.insert(name), "{name}");
        if let Some(Err(faulty)) = make().types().map(names_of) {
            faults.insert(faulty.fault);
        }
    }
    assert_eq!(faults.len(), Fault::ALL.len());
}
