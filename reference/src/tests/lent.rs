//! Catalog and printer: readings 24 to 26, refusals 1, 2 and 23, the bytes
//! lent, and the batch lines.

use super::*;
use crate::case::{answer_line, from_hex, to_hex};
use crate::compile::compile;
use crate::special::{all_named, named};

/// R24: "41, 42, 43 and 44 are whole fields (tag, length, body). 44's body is
/// one byte." Table: a 0, b 1, t 2, wall 3.
#[test]
fn r24_attribute_fields() {
    let attributes = vec![given("a", boolean(9, true)), given("b", text(255, "b"))];
    let manifest = items(vec![built_in("wall", text(8, "t"), attributes)]);
    let (answer, bytes) = Case::of(manifest.build().bytes).compile().expect("clean");
    let set = |labels: &[(usize, u8)]| {
        let mut bytes = [0u8; 32];
        for (at, byte) in labels {
            bytes[*at] = *byte;
        }
        bytes
    };
    // Label 8 is bit 0 of byte 1, 9 is bit 1 of it, 255 is bit 7 of byte 31.
    let mut expected = vec![0x40, 0, 119, 0, 3, 0, 2];
    expected.extend(set(&[(1, 0b01)]));
    expected.extend([0x41, 0, 38, 0, 0]);
    expected.extend(set(&[(1, 0b11)]));
    expected.extend([0x44, 0, 1, 1]);
    expected.extend([0x41, 0, 39, 0, 1]);
    expected.extend(set(&[(1, 0b01), (31, 0x80)]));
    expected.extend([0x43, 0, 2, 0, 1]);
    assert_eq!(bytes, expected);
    assert_eq!(
        answer,
        Answer::Catalog {
            length: 122,
            steps: 1
        }
    );
}

/// Negative integers are two's complement, high byte first.
#[test]
fn r24_negative_integer() {
    let (_, bytes) = Case::of(items(vec![show(int(1, -2))]).build().bytes)
        .compile()
        .expect("clean");
    assert_eq!(
        bytes[76..],
        [0x42, 0, 8, 255, 255, 255, 255, 255, 255, 255, 254][..]
    );
}

/// R25 and "leaving a stale entry": after a refusal the whole output is zero,
/// after an acceptance what is past the catalog; the memory always, in its
/// whole length.
#[test]
fn r25_bytes_lent() {
    let refused = items(vec![show(int(1, 1)), assign("y", var("unset"))])
        .build()
        .bytes;
    let accepted = items(vec![show(int(1, 1))]).build().bytes;
    for output in [0, 1, 86, 87, 88, 65_535, 65_536, 80_000] {
        for memory in [0, 1, 65_535, 65_536, 65_537, 100_000] {
            for manifest in [&refused, &accepted, &Vec::new()] {
                let mut out = vec![0xEE; output];
                let mut work = vec![0xDD; memory];
                let answer = compile(manifest, b"desk", 9, &mut out, &mut work);
                assert!(work.iter().all(|byte| *byte == 0));
                let length = match answer {
                    Answer::Catalog { length, .. } => usize::from(length),
                    Answer::Refused { .. } => 0,
                };
                assert!(out[length..].iter().all(|byte| *byte == 0));
                let succeeds = memory >= 65_536 && output >= 87 && *manifest == accepted;
                assert_eq!(length, if succeeds { 87 } else { 0 });
            }
        }
    }
}

fn lent(manifest: &[u8], output: usize, memory: usize) -> Answer {
    let case = Case {
        output,
        memory,
        ..Case::of(manifest.to_vec())
    };
    case.compile().expect("clean").0
}

/// 1 at 0, before 2 and all else; memory of 65,536 bytes and more is enough.
#[test]
fn refusal_1() {
    let manifest = items(vec![]).build().bytes;
    for memory in [0, 1, 65_535] {
        assert_eq!(
            lent(&manifest, 10, memory),
            Answer::Refused { number: 1, place: 0 }
        );
        assert_eq!(lent(&[], 10, memory), Answer::Refused { number: 1, place: 0 });
    }
    for memory in [65_536, 65_537, 200_000] {
        assert_eq!(
            lent(&manifest, 10, memory),
            Answer::Catalog { length: 0, steps: 0 }
        );
    }
}

/// 2 at 0: no bytes, or 65,536; 65,535 are allowed.
#[test]
fn refusal_2() {
    assert_eq!(lent(&[], 10, 65_536), Answer::Refused { number: 2, place: 0 });
    assert_eq!(
        lent(&vec![0xFF; 65_536], 10, 65_536),
        Answer::Refused { number: 2, place: 0 }
    );
    assert_eq!(
        lent(&vec![0xFF; 65_535], 10, 65_536),
        Answer::Refused { number: 3, place: 0 }
    );
    assert_eq!(lent(&[1], 10, 65_536), Answer::Refused { number: 3, place: 0 });
    let largest = named("time-largest-accepted").expect("there is one");
    assert_eq!(largest.manifest.len(), 65_535);
    assert!(matches!(
        largest.compile().expect("clean").0,
        Answer::Catalog { .. }
    ));
}

/// 23: "passes the output's end or 65,535 bytes in all". 1,680 entries of 39
/// bytes are 65,520; one more passes 65,535 however long the output is.
#[test]
fn refusal_23() {
    let entries = |count: usize| {
        let entry = |at: usize| {
            let kind = if at % 2 == 0 { "gate" } else { "wall" };
            let field = built_in(kind, text(1, format!("r{:03}", at / 2)), vec![]);
            if at + 1 == count {
                field.at("last")
            } else {
                field
            }
        };
        items((0..count).map(entry).collect())
    };
    let fits = entries(1680).build();
    assert_eq!(
        lent(&fits.bytes, 70_000, 65_536),
        Answer::Catalog {
            length: 65_520,
            steps: 1680
        }
    );
    assert_eq!(
        lent(&fits.bytes, 65_520, 65_536),
        Answer::Catalog {
            length: 65_520,
            steps: 1680
        }
    );
    let place = fits.place("last");
    assert_eq!(
        lent(&fits.bytes, 65_519, 65_536),
        Answer::Refused { number: 23, place }
    );
    let more = entries(1681).build();
    let place = more.place("last");
    assert_eq!(
        lent(&more.bytes, 70_000, 65_536),
        Answer::Refused { number: 23, place }
    );
}

/// 65,535 bytes exactly: 1,677 entries of 39 are 65,403, and 132 more are an
/// integer's 48 and two strings' 42 each.
#[test]
fn refusal_23_at_65_535_exactly() {
    let mut list: Vec<Field> = (0..1676)
        .map(|at| {
            built_in(
                if at % 2 == 0 { "gate" } else { "wall" },
                text(1, format!("r{:03}", at / 2)),
                vec![],
            )
        })
        .collect();
    let last = vec![
        given("a", int(1, 1)),
        given("b", text(1, "r000")),
        given("c", text(1, "r000")),
    ];
    list.push(built_in("plan", text(1, "r000"), last).at("last"));
    let built = items(list).build();
    assert_eq!(
        lent(&built.bytes, 65_535, 65_536),
        Answer::Catalog {
            length: 65_535,
            steps: 1677
        }
    );
    assert_eq!(
        lent(&built.bytes, 99_999, 65_536),
        Answer::Catalog {
            length: 65_535,
            steps: 1677
        }
    );
    let place = built.place("last");
    assert_eq!(
        lent(&built.bytes, 65_534, 65_536),
        Answer::Refused { number: 23, place }
    );
}

/// An entry may by itself be longer than 65,535 bytes if an attribute is named
/// twice: 21 comes first.
#[test]
fn an_entry_past_65_535_bytes() {
    let attributes: Vec<Field> = (0..1500)
        .map(|at| {
            let field = given(format!("a{:03}", at % 900), int(1, 1));
            if at == 900 {
                field.at("second")
            } else {
                field
            }
        })
        .collect();
    refuse(
        items(vec![built_in("wall", text(1, "w"), attributes)]),
        21,
        "second",
    );
}

/// R26: the printer's lines.
#[test]
fn r26_lines() {
    let attributes = vec![
        given("least", int(1, i64::MIN)),
        given("zero", int(2, 0)),
        given("empty", text(3, "")),
        given("yes", boolean(4, true)),
        given("no", boolean(5, false)),
        given("", text(6, "two words")),
    ];
    let manifest = items(vec![
        built_in("wall", text(0, ""), attributes),
        built_in("gate", text(255, "g"), vec![]),
    ]);
    let expected = "wall  least -9223372036854775808 2 0,1\n\
                    wall  zero 0 2 0,2\n\
                    wall  empty  2 0,3\n\
                    wall  yes true 2 0,4\n\
                    wall  no false 2 0,5\n\
                    wall   two words 2 0,6\n\
                    gate g - - 1 255\n\
                    steps 2\n";
    assert_eq!(printed("desk", &manifest), expected);
}

/// R26: "strings are written as they are", also bytes that are no text.
#[test]
fn r26_bytes_as_they_are() {
    let manifest = items(vec![built_in("wall", text(1, b"\xFF\n\0"), vec![])])
        .build()
        .bytes;
    let mut input = b"desk\n".to_vec();
    input.extend(manifest);
    assert_eq!(schedule(&input), b"wall \xFF\n\0 - - 1 1\nsteps 1\n");
}

/// R26: "The device is all before the first line feed"; "without a line feed
/// the manifest is empty". "A refusal prints only "refused", number, "at",
/// place."
#[test]
fn r26_input() {
    assert_eq!(schedule(b""), b"refused 2 at 0\n");
    assert_eq!(schedule(b"desk"), b"refused 2 at 0\n");
    assert_eq!(schedule(b"desk\n"), b"refused 2 at 0\n");
    assert_eq!(schedule(b"desk\n\x01\0\0"), b"steps 0\n");
    assert_eq!(schedule(b"\n\x01\0\0"), b"steps 0\n");
    assert_eq!(schedule(b"\n\n\x01\0\0"), b"refused 3 at 0\n");
    let refused = items(vec![include("c").at("29")]);
    assert_eq!(
        printed("desk", &refused),
        format!("refused 9 at {}\n", refused.build().place("29"))
    );
}

/// The printer's limits: 65,535 steps pass, and 65,535 bytes of catalog.
#[test]
fn r26_limits() {
    let steps = named("time-steps").expect("there is one");
    let mut input = b"desk\n".to_vec();
    input.extend(&steps.manifest);
    assert_eq!(schedule(&input), b"steps 65535\n");
    assert_eq!(
        steps.compile().expect("clean").0,
        Answer::Catalog {
            length: 0,
            steps: 65_535
        }
    );
    let one_less = Case {
        limit: 65_534,
        ..steps
    };
    assert!(matches!(
        one_less.compile().expect("clean").0,
        Answer::Refused { number: 6, .. }
    ));
}

/// The batch format, there and back.
#[test]
fn batch_lines() {
    let case = Case {
        types: None,
        device: Vec::new(),
        limit: 3,
        output: 4,
        memory: 5,
        manifest: vec![0, 255, 16],
    };
    assert_eq!(case.line(), "- 3 4 5 00ff10");
    assert_eq!(Case::from_line("- 3 4 5 00ff10"), Ok(case));
    assert_eq!(from_hex("-"), Ok(vec![]));
    assert_eq!(from_hex("0aFF"), Ok(vec![10, 255]));
    assert_eq!(to_hex(&[]), "-");
    for wrong in [
        "",
        "- 3 4 5",
        "- 3 4 5 0",
        "- 65536 4 5 00",
        "- 3 x 5 00",
        "- 3 4 5 0g",
        "-  3 4 5 00",
    ] {
        assert!(Case::from_line(wrong).is_err(), "{wrong}");
    }
    assert_eq!(
        answer_line(&Answer::Refused { number: 3, place: 9 }, &[]),
        "refused 3 9"
    );
    assert_eq!(
        answer_line(&Answer::Catalog { length: 0, steps: 2 }, &[]),
        "ok 2 -"
    );
}

/// The named inputs that aren't for timing give the answers document 01 gives.
#[test]
fn named_inputs() {
    let number = |name: &str| match named(name).expect("there is one").compile().expect("clean").0 {
        Answer::Catalog { .. } => 0,
        Answer::Refused { number, .. } => number,
    };
    let expected = [
        ("schedule", 0),
        ("schedule-peak-true", 0),
        ("schedule-limit-4", 0),
        ("schedule-limit-3", 6),
        ("minus-7-by-2", 0),
        ("7-by-minus-2", 0),
        ("least-by-minus-1", 16),
        ("0-by-0", 17),
        ("largest-plus-1", 16),
        ("false-and", 0),
        ("branch-built-in", 0),
        ("branch-include", 0),
        ("depth-32", 0),
        ("depth-33", 4),
        ("level-16", 0),
        ("level-17", 7),
        ("inherit-each-other", 7),
        ("inherit-each-other-17-steps", 6),
        ("inherit-each-other-18-steps", 7),
        ("cells-512", 0),
        ("cells-513", 22),
        ("no-item", 0),
        ("time-refused-late-3", 3),
        ("time-refused-late-5", 5),
        ("time-refused-late-8", 8),
        ("time-refused-late-13", 13),
        ("time-largest-accepted", 0),
    ];
    for (name, refusal) in expected {
        assert_eq!(number(name), refusal, "{name}");
    }
    for (name, make) in all_named() {
        assert!(make().manifest.len() <= 65_535, "{name}");
    }
}
