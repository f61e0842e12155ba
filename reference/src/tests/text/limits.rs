//! Each limit, on both sides.

use super::*;

const DEEP: &str = "a field deeper than 32";
const PUSHED: &str = "an operator that pushes its left below 32";
const BRACKET: &str = "the 33rd open bracket";

#[track_caller]
fn accepts(text: impl AsRef<[u8]>) {
    let shown = String::from_utf8_lossy(text.as_ref()).into_owned();
    assert!(converted(text).is_ok(), "{shown}");
}

/// "at most 32 are open at one time, the 33rd is 24 at it".
#[test]
fn brackets_32_and_33() {
    let around = |count: usize| format!("{}1{}", "(".repeat(count), ")".repeat(count));
    is_value(&around(32), int(0, 1));
    outside_for(BRACKET, format!("$x = {}", "(".repeat(32)), "(1");
    // Closed ones are no longer open.
    is_value(
        &format!("{} + {}", around(32), around(32)),
        binary(ADD, int(0, 1), int(0, 1)),
    );
    // One more is open around the second.
    let before = format!("$x = ({} + {}", around(31), "(".repeat(31));
    outside_for(BRACKET, before, "(1");
}

/// Those around an attribute read or a selector stay open inside it; those of
/// devices and parameters do not count.
#[test]
fn brackets_that_count() {
    let half = "(".repeat(16);
    outside_for(BRACKET, format!("$x = {half}a[{half}"), "(1");
    outside_for(BRACKET, format!("$x = {half}1 ? {{ 1 => {half}"), "(1");
    accepts(format!("$x = {half}a[{half}1{0}][b]{0}", ")".repeat(16)));
    accepts(format!(
        "node ('a') {{ $x = {half}{half}1{0}{0} }}",
        ")".repeat(16)
    ));
    accepts(format!(
        "define u ($y) {{ $x = {half}{half}1{0}{0} }}",
        ")".repeat(16)
    ));
}

/// The value of an assignment has depth 2; with 30 signs its operand has 32.
#[test]
fn depth_by_not() {
    let nots = |count: usize| format!("$x = {}", "!".repeat(count));
    for operand in ["true", "7", "'a'", "a", "$y", "$::y", "$::a::y", "(1)"] {
        accepts(nots(30) + operand);
    }
    for operand in ["true", "-7", "'a'", "a", "$y", "$::y", "$::a::y", "a[1][b]", "!1"] {
        outside_for(DEEP, nots(31), operand);
    }
    // A bracket brings no field: what stands in it does.
    outside_for(DEEP, nots(31) + "((", "1))");
}

/// An operator pushes what stands left of it one deeper: 30 of them.
#[test]
fn depth_by_operators() {
    for (sign, right) in [("+", "1"), ("/", "2"), ("and", "$y"), ("?", "{ 1 => 2 }")] {
        let chain = |count: usize| format!("$x = $y{}", format!(" {sign} {right}").repeat(count));
        // The patterns of the innermost selector are one deeper than what it
        // selects on.
        let most = if sign == "?" { 29 } else { 30 };
        accepts(chain(most));
        outside_for(PUSHED, chain(most) + " ", format!("{sign} {right}"));
    }
    // One left side of height two: an operation in brackets.
    let chain = |count: usize| format!("$x = (1 - 2){}", " + 1".repeat(count));
    accepts(chain(29));
    outside_for(PUSHED, chain(29) + " ", "+ 1");
}

/// What stands left is what the operator takes: with `/` only the last operand,
/// with `==` the whole sum.
#[test]
fn depth_pushed_by_level() {
    let sum = format!("$x = 1{}", " + 1".repeat(30));
    // 1 + ... + 1 has its first operand at 32, its last one at 3.
    accepts(format!("{sum} / 2"));
    outside_for(PUSHED, sum.clone() + " ", "== 2");
    outside_for(PUSHED, sum.clone() + " ", "- 2");
    outside_for(PUSHED, sum + " ", "? { 1 => 2 }");
}

/// Right operands are one deeper, too.
#[test]
fn depth_by_right_operands() {
    let nested = |count: usize| format!("$x = {}", "1 + (".repeat(count));
    // 29 brackets, then a sum at depth 31, whose operands have 32.
    accepts(format!("{}1 + 2{}", nested(29), ")".repeat(29)));
    // Now the operand itself has 32, and the sign pushes it.
    outside_for(PUSHED, nested(30) + "1 ", "+ 2");
    accepts(format!("{}1{}", nested(30), ")".repeat(30)));
    // The right operand of a sum at depth 31 has 32.
    outside_for(DEEP, nested(29) + "1 + !", "2");
    let nots = format!("$x = {}", "!".repeat(29));
    accepts(nots.clone() + "(1 + 2)");
    outside_for(PUSHED, format!("$x = {}(1 ", "!".repeat(30)), "+ 2)");
}

/// A selector's patterns and chosen expressions are two deeper than it is.
#[test]
fn depth_by_arms() {
    let nested = |count: usize| format!("$x = {}", "$y ? { 1 => ".repeat(count));
    accepts(format!("{}2{}", nested(15), "}".repeat(15)));
    outside_for(PUSHED, nested(15) + "$z ", "? { 1 => 2 }");
    outside_for(DEEP, nested(15) + "!", "2");
    // At 31 it may select, but has no room for a pattern.
    let nots = format!("$x = {}($y ? {{ ", "!".repeat(29));
    outside_for(DEEP, nots.clone(), "1 => 2 })");
    outside_for(DEEP, nots, "default => 2 })");
    let nots = format!("$x = {}($y ? {{ ", "!".repeat(28));
    accepts(nots.clone() + "1 => 2 })");
    outside_for(DEEP, nots + "1 => !", "2 })");
}

#[test]
fn depth_by_reads() {
    let nested = |count: usize| format!("$x = {}", "a[".repeat(count));
    accepts(format!("{}1{}", nested(30), "][b]".repeat(30)));
    outside_for(DEEP, nested(31), "1");
}

/// An if has its condition and blocks one deeper, statements two.
#[test]
fn depth_by_if() {
    for opening in ["if $y { ", "if $y { } else { "] {
        let nested = |count: usize| opening.repeat(count);
        // The sixteenth has depth 31.
        accepts(nested(16) + &"} ".repeat(16));
        for statement in [
            "$x = 1",
            "include a",
            "if $y { }",
            "case 1 { }",
            "kiosk { 1: }",
            "class { a: }",
        ] {
            outside_for(DEEP, nested(16), statement);
        }
        accepts(format!("{}include a {}", nested(15), "} ".repeat(15)));
        outside_for(DEEP, format!("{}$x = !", nested(15)), "1");
    }
}

/// A case has branches one deeper, patterns and blocks two, statements three.
#[test]
fn depth_by_case() {
    let nested = |count: usize| "case $y { 1: { ".repeat(count);
    // Ten around it: depth 31.
    accepts(format!("{}case $y {{ }} {}", nested(10), "} } ".repeat(10)));
    outside_for(DEEP, nested(10) + "case $y { ", "1: { }");
    outside_for(DEEP, nested(10) + "case $y { ", "default: { }");
    accepts(format!("{}$x = 1 {}", nested(10), "} } ".repeat(10)));
    outside_for(DEEP, nested(10) + "case !", "1 { }");
}

/// Statements at depth 32: one case and fourteen ifs around them.
#[test]
fn statements_at_depth_32() {
    let before = format!("case $y {{ 1: {{ {}", "if $y { ".repeat(14));
    let behind = "} ".repeat(16);
    for statement in ["include a ", "class { a: } "] {
        accepts(format!("{before}{statement}{behind}"));
    }
    outside_for(DEEP, format!("{before}$x = "), "1");
    outside_for(DEEP, format!("{before}if "), "$y { }");
    outside_for(DEEP, format!("{before}case "), "$y { }");
    outside_for(DEEP, format!("{before}kiosk {{ "), "'a': }");
    outside_for(DEEP, format!("{before}class {{ a: "), "b => 1 }");
}

/// An attribute is one deeper than its statement, its value two.
#[test]
fn depth_by_attributes() {
    let before = "if $y { ".repeat(15);
    outside_for(DEEP, format!("{before}kiosk {{ 'a': b => "), "1 }");
    outside_for(DEEP, format!("{before}class {{ a: b => "), "1 }");
    accepts(format!("{before}kiosk {{ 'a': }} {}", "} ".repeat(15)));
}

/// In a node's block statements have depth 3.
#[test]
fn depth_in_items() {
    for item in ["node default { ", "define u { ", "class a { "] {
        accepts(format!("{item}$x = {}1 }}", "!".repeat(28)));
        outside_for(DEEP, format!("{item}$x = {}", "!".repeat(29)), "1 }");
    }
}

/// "a word ... at most 255 bytes".
#[test]
fn words_of_255_bytes() {
    let word = |length: usize| "w".repeat(length);
    let forms: [fn(String) -> String; 6] = [
        |word| format!("{word} {{ a: }}"),
        |word| format!("include {word}"),
        |word| format!("$x = {word}"),
        |word| format!("node {word} {{ }}"),
        |word| format!("kiosk {{ a: {word} => 1 }}"),
        |word| format!("class a inherits {word} {{ }}"),
    ];
    for form in forms {
        accepts(form(word(255)));
        let text = form(word(256));
        let at = text.find("www").unwrap();
        outside_for("a word over 255 bytes", &text[..at], &text[at..]);
    }
}

/// Each name of a variable has up to 255 bytes; the fault is at the `$`.
#[test]
fn variables_of_255_bytes() {
    let (long, longer) = ("v".repeat(255), "v".repeat(256));
    for spelled in [
        format!("${long}"),
        format!("$::{long}"),
        format!("$::{long}::{long}"),
    ] {
        accepts(format!("$x = {spelled}"));
    }
    for spelled in [
        format!("${longer}"),
        format!("$::{longer}"),
        format!("$::{longer}::x"),
        format!("$::a::{longer}"),
    ] {
        outside_for("a variable over 255 bytes", "$x = ", spelled);
    }
    outside_for("a variable over 255 bytes", "", format!("${longer} = 1"));
}

/// A string has up to 255 bytes once its escapes are replaced.
#[test]
fn strings_of_255_bytes() {
    let quoted = |inside: String| format!("$x = '{inside}'");
    accepts(quoted("s".repeat(255)));
    accepts(quoted("\\n".repeat(255)));
    outside_for(
        "a string over 255 bytes",
        "$x = ",
        format!("'{}'", "s".repeat(256)),
    );
    outside_for(
        "a string over 255 bytes",
        "$x = ",
        format!("\"{}s\"", "\\\\".repeat(255)),
    );
    outside_for(
        "a string over 255 bytes",
        "node 'a', ",
        format!("'{}' {{ }}", "s".repeat(256)),
    );
}

/// "the 1,025th different string", at the token that brings it.
#[test]
fn strings_1024_and_1025() {
    let includes = |count: usize| (0..count).map(|at| format!("include c{at} ")).collect::<String>();
    let why = "the 1,025th string";
    accepts(includes(1024));
    outside_for(why, includes(1024) + "include ", "other");
    // Those it has may come again, in every place.
    accepts(includes(1024) + "$c7 = $::c8::c9 + 'c1' node c2 { } c3 { c4: c5 => c6[c7][c8] }");
    for (before, rest) in [
        ("", "$x = 1"),
        ("", "x { c1: }"),
        ("$c1 = ", "x"),
        ("$c1 = ", "'x'"),
        ("$c1 = ", "$x"),
        ("$c1 = ", "$::x"),
        ("$c1 = ", "$::c1::x"),
        ("$c1 = ", "$::x::c1"),
        ("$c1 = ", "x[c1][c2]"),
        ("$c1 = c1[c2][", "x]"),
        ("$c1 = c1 ? { ", "x => 1 }"),
        ("node ", "'x' { }"),
        ("c1 { c1: ", "x => 1 }"),
        ("class { ", "x: }"),
        ("class ", "x { }"),
        ("class c1 inherits ", "x { }"),
        ("define ", "x { }"),
        ("define c1 (", "$x) { }"),
    ] {
        outside_for(why, includes(1024) + before, rest);
    }
    // A built-in type is a name of the table, too.
    outside_for(why, includes(1024), "kiosk { c1: }");
    // A class variable may bring two.
    outside_for(why, includes(1023) + "$c1 = ", "$::x::y");
    accepts(includes(1022) + "$c1 = $::x::y");
}

/// "A text is 0 to 65,535 bytes."
#[test]
fn text_of_65535_bytes() {
    let padded = |length: usize| "$x = 1".to_string() + &" ".repeat(length - 6);
    becomes(padded(65_535), vec![assign("x", int(0, 1))]);
    assert_eq!(
        converted(padded(65_536)),
        Err((24, 0, "a text over 65,535 bytes"))
    );
    // The end's place is the largest there is.
    let unfinished = padded(65_534) + "+";
    outside_for("the text ends too early", unfinished, "");
}

/// "Last 24 at 0: the tree is over 65,535 bytes".
#[test]
fn manifest_of_65535_bytes() {
    // 3 and 4 for the table with "a", 17 for an assignment of a number: 3,853
    // make 65,501; the last one takes 11, and its string 3 in the table.
    let text = |string: usize| format!("{}$a='{}'", "$a=1 ".repeat(3853), "z".repeat(string));
    let bytes = converted(text(13)).unwrap();
    assert_eq!(bytes.len(), 65_535);
    assert_eq!(converted(text(14)), Err((24, 0, "a manifest over 65,535 bytes")));
}

/// "or does not fit the output": the manifest of `$x = 1` has 24 bytes.
#[test]
fn output_lent() {
    let mut case = TextCase::converting("$x = 1");
    for (output, fits) in [(24, true), (23, false), (0, false), (70_000, true)] {
        case.output = output;
        match case.answer() {
            Ok(bytes) => assert!(fits && bytes.len() == 24),
            Err(refused) => assert!(!fits && (refused.number, refused.place) == (24, 0)),
        }
    }
    let mut empty = TextCase::converting("");
    empty.output = 3;
    assert_eq!(empty.answer(), Ok(vec![1, 0, 0]));
    empty.output = 2;
    assert_eq!(empty.answer().map_err(|refused| refused.number), Err(24));
    // However much is lent, a manifest has 65,535 bytes at most.
    let mut long = TextCase::converting("$a=1 ".repeat(3900));
    long.output = 70_000;
    assert_eq!(
        long.answer().map_err(|refused| (refused.number, refused.place)),
        Err((24, 0))
    );
}
