//! Which of several faults is given, and refusals 1 and 25.

use super::*;
use crate::text_case::written_line;

/// 25 where the second part begins.
#[track_caller]
fn late(before: impl AsRef<[u8]>, rest: impl AsRef<[u8]>) {
    refuses(25, before, rest);
}

fn lines(count: usize) -> String {
    "\n".repeat(count)
}

/// Line 255 has the last label.
#[test]
fn lines_255_and_256() {
    becomes(lines(255) + "$x = 1", vec![assign("x", int(255, 1))]);
    late(lines(256) + "$x = ", "1");
    late(lines(1000) + "$x = ", "1");
}

/// "25 at the first byte of the first constant on line 256 or later", of every
/// kind and at every place of a constant.
#[test]
fn late_constants() {
    for constant in ["-7", "0", "'a'", "\"a\"", "gold", "true", "false"] {
        late(lines(256) + "$x = ", constant);
        late(lines(256) + "case $y { ", format!("{constant}: {{ }} }}"));
        late(lines(256) + "$x = $y ? { ", format!("{constant} => $z }}"));
        late(lines(256) + "define u ($y = ", format!("{constant}) {{ }}"));
        late(lines(256) + "kiosk { ", format!("{constant}: }}"));
        late(lines(256) + "kiosk { $y: a => ", format!("{constant} }}"));
        late(lines(256) + "$x = a[", format!("{constant}][b]"));
    }
    // The first one past the line, not the first one.
    late(format!("$x = 1 +{}2 + ", lines(255)) + "\n", "3 + 4");
}

/// "names and devices have no label", nor has `default`.
#[test]
fn no_constants() {
    let items = [
        "node 'a', b { }",
        "include a",
        "$x = $y",
        "$x = $::a::y",
        "class a ($x) inherits b { }",
        "define u { }",
        "kiosk { $y: a => $z }",
        "node default { }",
        "case $y { default: { } }",
        "$x = $y ? { default => $z }",
        "$x = a[$y][b]",
        "class { a: }",
    ];
    for item in items {
        assert!(converted(lines(300) + item).is_ok(), "{item}");
    }
}

/// Its first byte counts: a string may go on past line 255.
#[test]
fn string_across_line_255() {
    becomes(
        lines(255) + "$x = 'a\n\nb'",
        vec![assign("x", text(255, "a\n\nb"))],
    );
    late(lines(254) + "$x = 'a\n\nb' $y = ", "1");
    late(format!("#{}\n$x = ", "\n#".repeat(255)), "1");
}

/// 24 comes before 25, wherever it stands.
#[test]
fn outside_before_late() {
    outside(lines(256) + "$x = 1 ", "A");
    outside(lines(256) + "$x = 1 $y = ", "");
    outside(lines(256) + "$x = 1 $y = ", "007");
    outside(lines(256) + "$x = 'a' $y = !", "}");
}

/// 25 comes before the 24 of a manifest that is too long or does not fit.
#[test]
fn late_before_long() {
    let late_and_long = format!("{}{}$a=1", "$a=1 ".repeat(3900), lines(256));
    refuses(25, &late_and_long[..late_and_long.len() - 1], "1");
    let mut case = TextCase::converting(lines(256) + "$x = 1");
    case.output = 0;
    assert_eq!(written_line(&case.answer()), "refused 25 261");
    case.bytes.truncate(255);
    assert_eq!(written_line(&case.answer()), "refused 24 0");
}

/// The text's length comes before all that it holds.
#[test]
fn length_before_faults() {
    let long = format!("A{}", " ".repeat(65_535));
    assert_eq!(converted(long), Err((24, 0, "a text over 65,535 bytes")));
    let long = format!("$x = A{}", " ".repeat(65_535));
    assert_eq!(converted(long), Err((24, 0, "a text over 65,535 bytes")));
}

/// 1 comes before everything, in both calls.
#[test]
fn memory_first() {
    for bytes in [b"$x = 1".to_vec(), b"A".to_vec(), vec![b' '; 65_536], vec![]] {
        for mut case in [
            TextCase::converting(bytes.clone()),
            TextCase::printing(bytes.clone()),
        ] {
            case.output = 0;
            case.memory = 65_535;
            assert_eq!(written_line(&case.answer()), "refused 1 0");
        }
    }
    let mut case = TextCase::converting("");
    for memory in [65_536, 65_537, 100_000] {
        case.memory = memory;
        assert_eq!(written_line(&case.answer()), "ok 010000");
    }
}

/// "reading from the left": the first token at fault, whatever its fault.
#[test]
fn first_token_at_fault() {
    // Misplaced, then malformed, and the other way round.
    outside("$x = ", ") 007 A");
    outside("$x = ", "007 ) A");
    // Malformed as the very next token of what is still right.
    outside("$x = 1 ", "'open");
    outside("unless ", "$1 { }");
    outside("kiosk { a: b => 1 ", "12a }");
    // A limit, then a malformed token right behind.
    outside(format!("$x = {}", "!".repeat(31)), "1 A");
    outside(format!("$x = {}", "(".repeat(32)), "(A");
    outside(format!("$x = 1{} ", " + 1".repeat(30)), "+ A");
    // A malformed token before the limit is reached.
    outside(format!("$x = {}", "!".repeat(30)), "A!!1");
}

/// The 1,025th string is at fault at its token, not at what follows it.
#[test]
fn string_before_what_follows() {
    let strings: String = (0..1024).map(|at| format!("include c{at} ")).collect();
    outside(strings.clone() + "include ", "x A");
    outside(strings.clone(), "x 'open");
    outside(strings.clone() + "$c1 = ", "x[A");
    outside(strings.clone() + "$c1 = $c2 ", "A");
    outside(strings + "c1 { c2: ", "x A");
}

/// Lines in and answers out.
#[test]
fn lines_of_cases() {
    let case = TextCase::from_line("convert 100 65536 2478203d2037").unwrap();
    assert_eq!(case.bytes, b"$x = 7");
    assert_eq!((case.output, case.memory), (100, 65_536));
    let written = "ok 0100040200017821000e0000100009000000000000000007";
    assert_eq!(written_line(&case.answer()), written);
    assert_eq!(TextCase::from_line(&case.line()), Ok(case));
    let case = TextCase::from_line("print 0 65536 010000").unwrap();
    assert_eq!(written_line(&case.answer()), "ok -");
    assert_eq!(case.line(), "print 0 65536 010000");
    let empty = TextCase::from_line("convert 3 65536 -").unwrap();
    assert_eq!(written_line(&empty.answer()), "ok 010000");
    for wrong in [
        "",
        "convert 1 1",
        "compile 1 1 -",
        "convert 1 1 0",
        "convert x 1 -",
        "convert 1 1 - -",
    ] {
        assert!(TextCase::from_line(wrong).is_err(), "{wrong}");
    }
}
