//! The rules of a list: "1 to 64 fields 02, each 1 to 32 lower-case letters,
//! strictly rising".

use crate::random::Random;
use crate::types::{list_of, list_of_eight, names_of, Fault, Types, EIGHT};
use crate::types_faults::faulty_list;
use crate::types_named::many;
use crate::types_words::{any_word, Word, Words};
use std::collections::BTreeSet;

/// "28, the list breaks one of these rules, at its first faulty field".
#[track_caller]
fn faulty(list: &[u8], place: u16, fault: Fault) {
    let found = names_of(list).expect_err("a fault");
    assert_eq!((found.place, found.fault), (place, fault));
}

#[track_caller]
fn sound(list: &[u8], count: usize) {
    assert_eq!(names_of(list).expect("a sound list").len(), count);
}

/// The list of one field "a", then these bytes; those behind it begin at 4.
fn behind(bytes: &[u8]) -> Vec<u8> {
    [&[2, 0, 1, b'a'], bytes].concat()
}

/// "An empty list is 28 at 0."
#[test]
fn no_field() {
    faulty(&[], 0, Fault::Empty);
}

/// "fewer than three bytes", whatever they are.
#[test]
fn cut_short() {
    for left in [&[2][..], &[2, 0], &[0], &[1, 0], &[b'z', b'z']] {
        faulty(left, 0, Fault::CutShort);
        faulty(&behind(left), 4, Fault::CutShort);
    }
}

/// "another tag", also that of a table around the list: it is "not inside a 01".
#[test]
fn tags() {
    for tag in (0..=255).filter(|tag| *tag != 2) {
        faulty(&[tag, 0, 1, b'a'], 0, Fault::OtherTag);
        faulty(&behind(&[tag, 0, 1, b'b']), 4, Fault::OtherTag);
    }
    faulty(&[1, 0, 4, 2, 0, 1, b'a'], 0, Fault::OtherTag);
}

/// "a length past the end", at the field that has it.
#[test]
fn lengths_past_the_end() {
    sound(&[2, 0, 2, b'a', b'b'], 1);
    faulty(&[2, 0, 3, b'a', b'b'], 0, Fault::PastEnd);
    faulty(&[2, 0, 1], 0, Fault::PastEnd);
    faulty(&[2, 1, 1, b'a'], 0, Fault::PastEnd);
    faulty(&[2, 255, 255, b'a'], 0, Fault::PastEnd);
    faulty(&behind(&[2, 0, 2, b'b']), 4, Fault::PastEnd);
    // A first length that swallows the second field shows other bytes in it.
    faulty(&[2, 0, 5, b'a', 2, 0, 1, b'b'], 0, Fault::OtherByte);
}

/// "0 or over 32 letters". Lengths have the high byte first.
#[test]
fn letters() {
    faulty(&[2, 0, 0], 0, Fault::NoLetter);
    faulty(&behind(&[2, 0, 0]), 4, Fault::NoLetter);
    faulty(&[2, 0, 0, 2, 0, 1, b'a'], 0, Fault::NoLetter);
    for length in [1, 31, 32] {
        sound(&list_of(&["b".repeat(length)]), 1);
    }
    for length in [33, 34, 64, 255, 256, 257, 288, 65_535] {
        faulty(&list_of(&["b".repeat(length)]), 0, Fault::TooLong);
    }
}

/// "another byte than a to z", wherever in the name.
#[test]
fn bytes() {
    for byte in 0..=255u8 {
        for at in 0..3 {
            let mut name = *b"lmn";
            name[at] = byte;
            let list = [&[2, 0, 1, b'a', 2, 0, 3], &name[..]].concat();
            match byte {
                b'a'..=b'z' => sound(&list, 2),
                _ => faulty(&list, 4, Fault::OtherByte),
            }
        }
    }
}

/// "strictly rising", "a prefix first" as in document 01; "not above the one
/// before it (the later is at fault)".
#[test]
fn order() {
    sound(&list_of(&["a", "aa", "ab", "b"]), 4);
    sound(&list_of(&["kios", "kiosk", "kiosks"]), 3);
    faulty(&list_of(&["b", "b"]), 4, Fault::NotRising);
    faulty(&list_of(&["b", "a"]), 4, Fault::NotRising);
    faulty(&list_of(&["ab", "a"]), 5, Fault::NotRising);
    faulty(&list_of(&["b", "ab"]), 4, Fault::NotRising);
    faulty(&list_of(&["a", "b", "a"]), 8, Fault::NotRising);
    // Only neighbours are compared, so that the third is the first at fault.
    faulty(&list_of(&["a", "c", "b", "a"]), 8, Fault::NotRising);
}

/// "1 to 64 fields", "a 65th included", at the 65th: kiosk takes 8 bytes and
/// each of the others 6.
#[test]
fn count() {
    sound(&list_of(&["a"]), 1);
    sound(&many(63), 63);
    sound(&many(64), 64);
    let place = 8 + 63 * 6;
    faulty(&many(65), place, Fault::TooMany);
    faulty(&many(66), place, Fault::TooMany);
    // What else is wrong there or behind it changes no place.
    let cut = [many(64), vec![2]].concat();
    faulty(&cut, place, Fault::CutShort);
    let two = [many(65), vec![0]].concat();
    faulty(&two, place, Fault::TooMany);
}

/// The longest list: 64 names of 32 letters.
#[test]
fn longest() {
    let name = |at: usize| format!("{}{}", "n".repeat(30), &many_letters(at));
    let names: Vec<String> = (0..65).map(name).collect();
    let list = list_of(&names);
    sound(&list[..64 * 35], 64);
    faulty(&list, 64 * 35, Fault::TooMany);
}

/// Two letters that rise with the number.
fn many_letters(at: usize) -> String {
    let letter = |at: usize| char::from(b'a' + at as u8);
    [letter(at / 26), letter(at % 26)].iter().collect()
}

/// Of two faults the first by offset counts, whatever its rule.
#[test]
fn first_by_offset() {
    faulty(&list_of(&["gate", "Kiosk", "a", ""]), 7, Fault::OtherByte);
    faulty(&list_of(&["gate", "a", "Kiosk"]), 7, Fault::NotRising);
    faulty(&list_of(&["", "Kiosk"]), 0, Fault::NoLetter);
    faulty(&[list_of(&["b", "a"]), vec![7, 7]].concat(), 4, Fault::NotRising);
}

/// "A type is built in precisely if the list holds it": no prefix and no
/// extension of one.
#[test]
fn holding() {
    let list = list_of(&["booth", "kios"]);
    let types = Types::of(Some(&list)).expect("a sound list");
    for (name, is_held) in [
        ("booth", true),
        ("kios", true),
        ("boot", false),
        ("booths", false),
        ("kiosk", false),
        ("", false),
        ("BOOTH", false),
    ] {
        assert_eq!(types.holds(name.as_bytes()), is_held, "{name}");
    }
}

/// "Not lending a list is another call and means the eight."
#[test]
fn the_eight() {
    let list = list_of_eight();
    for types in [Types::of(None), Types::of(Some(&list))] {
        let types = types.expect("a sound list");
        assert!(EIGHT.iter().all(|name| types.holds(name)));
        for other in ["", "kios", "kiosks", "walls", "booth"] {
            assert!(!types.holds(other.as_bytes()));
        }
    }
}

/// Whether the bytes are a sound list, told from its letters: lengths are at most
/// 32 and no letters, so that the runs of letters must be the names.
fn is_sound(list: &[u8]) -> bool {
    let runs = list.split(|byte| !byte.is_ascii_lowercase());
    let names: Vec<&[u8]> = runs.filter(|run| !run.is_empty()).collect();
    let rises = names.windows(2).all(|pair| pair[0] < pair[1]);
    let fit = names.iter().all(|name| name.len() <= 32);
    (1..=64).contains(&names.len()) && rises && fit && list_of(&names) == list
}

/// The first faulty field begins where the longest sound part of the list ends.
#[test]
fn first_fault_of_random_lists() {
    let mut faults = BTreeSet::new();
    for at in 0..3000 {
        let random = &mut Random::new(8, at);
        let mut names = Words::new();
        for _ in 0..random.pick(&[1, 2, 5, 64]) {
            names.insert(any_word(random));
        }
        let names: Vec<Word> = names.into_iter().collect();
        assert!(is_sound(&list_of(&names)));
        let list = faulty_list(random, &names);
        let found = names_of(&list).expect_err("a fault");
        let sound_part = (1..=list.len()).rev().find(|length| is_sound(&list[..*length]));
        assert_eq!(usize::from(found.place), sound_part.unwrap_or(0), "{list:?}");
        faults.insert(found.fault);
    }
    assert_eq!(faults.len(), Fault::ALL.len());
}
