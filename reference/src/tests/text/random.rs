//! Random cases, and texts that are no texts at all.

use super::*;
use crate::random::Random;
use crate::text_case::Call;
use crate::text_generate::text_cases;
use crate::text_modes::tally;
use crate::text_named::{text_named, TEXT_NAMED};

/// Among the random cases every answer occurs, for every reason.
#[test]
fn every_answer_occurs() {
    let tally = tally(3, 12_000);
    let converting = [
        "a byte that begins no token",
        "a field deeper than 32",
        "a letter behind digits",
        "a manifest over 65,535 bytes",
        "a manifest over the output",
        "a number outside 64 bits",
        "a string never closed",
        "a string over 255 bytes",
        "a text over 65,535 bytes",
        "a token that may not stand there",
        "a variable over 255 bytes",
        "a variable with a keyword",
        "a variable without a name",
        "a word over 255 bytes",
        "a wrong escape",
        "a zero before other digits",
        "an operator that pushes its left below 32",
        "the 1,025th string",
        "the 33rd open bracket",
        "the text ends too early",
    ];
    let printing = [
        "a 25 of no built-in type",
        "a 27 of a built-in type",
        "a keyword for a name",
        "a label below the one before",
        "a text over 65,535 bytes",
        "a text over the output",
        "an empty name",
        "other bytes in a name",
    ];
    let times = |call: &'static str, number: u8, why: &'static str| {
        tally.get(&(call, number, why)).copied().unwrap_or(0)
    };
    for why in converting {
        assert!(times("convert", 24, why) >= 3, "{why}");
    }
    for why in printing {
        assert!(times("print", 26, why) >= 3, "{why}");
    }
    assert!(times("convert", 25, "a constant past line 255") >= 100);
    assert!(times("convert", 1, "") >= 10 && times("print", 1, "") >= 10);
    for number in 2..=5 {
        assert!(times("print", number, "") >= 3, "{number}");
    }
    assert!(times("convert", 0, "") > 3000 && times("print", 0, "") > 2000);
}

/// A place of a converter's refusal is in the text or at its end, and what is
/// accepted fits.
#[test]
fn answers_fit() {
    for case in text_cases(11, 3000) {
        match case.answer() {
            Ok(bytes) => assert!(bytes.len() <= case.output.min(65_535)),
            Err(refused) => assert!(usize::from(refused.place) <= case.bytes.len()),
        }
    }
}

/// Any bytes, to either call.
#[test]
fn any_bytes() {
    for at in 0..4000 {
        let random = &mut Random::new(5, at);
        let length = random.below(60);
        let bytes: Vec<u8> = match at % 2 {
            0 => (0..length).map(|_| random.below(256) as u8).collect(),
            _ => (0..length)
                .map(|_| random.pick(b"$xa: {}()[]=>,!?+-/'\"\\n01\n#if "))
                .collect(),
        };
        for call in [Call::Convert, Call::Print] {
            let _ = TextCase::of(call, bytes.clone()).answer();
        }
    }
}

/// The longest text of one thing over and over: refused at the first that is
/// one too many, or at the end.
#[test]
fn longest_texts_of_one_thing() {
    for (unit, place) in [
        ("(", 0),
        ("{", 0),
        ("!", 0),
        ("'", 0),
        ("$", 0),
        // One assignment; behind thirty equalities the next one pushes.
        ("$x=", 3 + 3 * 30 + 2),
        ("\n", 65_535),
        ("#", 65_535),
        ("0", 0),
        ("a", 0),
        ("a ", 2),
        ("a{", 3),
        ("if ", 3),
        ("\\", 0),
    ] {
        let mut text = unit.repeat(65_535 / unit.len() + 1);
        text.truncate(65_535);
        match converted(&text) {
            Ok(bytes) => assert!(bytes == [1, 0, 0] && place == 65_535, "{unit:?}"),
            Err((number, got, _)) => assert_eq!((number, got), (24, place), "{unit:?}"),
        }
    }
    let after = |unit: &str| {
        let text = format!("$x = {}", unit.repeat(65_000 / unit.len()));
        converted(text).map_err(|(number, place, _)| (number, place))
    };
    assert_eq!(after("("), Err((24, 5 + 32)));
    // The thirty-first sign has depth 32, the thirty-second 33.
    assert_eq!(after("!"), Err((24, 5 + 31)));
    assert_eq!(after("a["), Err((24, 5 + 2 * 31)));
    // Each name is two deeper; the sixteenth has 32, and its `?` pushes it.
    assert_eq!(after("a?{a=>"), Err((24, 5 + 6 * 15 + 1)));
    assert_eq!(after("1+"), Err((24, 5 + 2 * 30 + 1)));
}

/// The named inputs are as large as they are meant to be, and their answers are
/// what their names say.
#[test]
fn named_inputs() {
    for (name, _) in TEXT_NAMED {
        let case = text_named(name).unwrap();
        let given = case.bytes.len();
        let written = case.answer();
        match name {
            "convert-gym-chain" | "print-gym-chain" => assert!((2000..3000).contains(&given)),
            "convert-refused-late" => assert_eq!(written.map_err(|refused| refused.number), Err(24)),
            "print-refused-late" => assert_eq!(written.map_err(|refused| refused.number), Err(26)),
            _ => {
                let least = match case.call {
                    Call::Convert => 64_000,
                    Call::Print => 40_000,
                };
                assert!(given > least && written.is_ok(), "{name}: {given}");
            }
        }
    }
}
