//! Text, lines and tokens.

use super::*;

const KEYWORDS: [&str; 13] = [
    "and", "case", "class", "default", "define", "else", "false", "if", "include", "inherits", "node", "or",
    "true",
];

/// "An empty text is `01 00 00`."
#[test]
fn empty_text() {
    assert_eq!(converted(""), Ok(vec![1, 0, 0]));
}

/// The bytes by hand: table of one string, then 21 with a 10.
#[test]
fn bytes_of_an_assignment() {
    let expected = [
        0x01, 0, 4, 0x02, 0, 1, b'x', // the table
        0x21, 0, 14, 0, 0, // name 0
        0x10, 0, 9, 0, 0, 0, 0, 0, 0, 0, 0, 7, // label 0, 7
    ];
    assert_eq!(converted("$x = 7"), Ok(expected.to_vec()));
}

/// "White space is 20, 09, 0D, 0A", and nothing else is.
#[test]
fn white_space() {
    assert_eq!(converted(" \t\r\n\r\n  "), Ok(vec![1, 0, 0]));
    becomes("\t$x\r=\t7 \r", vec![assign("x", int(0, 7))]);
    for byte in [0x00, 0x0B, 0x0C, 0x1F, 0x7F, 0x85, 0xA0] {
        outside_for("a byte that begins no token", " ", [byte]);
    }
}

/// "it is needed only where two tokens would run together".
#[test]
fn space_only_where_needed() {
    becomes("$x=7$y='a'$z=b", {
        vec![
            assign("x", int(0, 7)),
            assign("y", text(0, "a")),
            assign("z", text(0, "b")),
        ]
    });
    becomes("if$x{}else{include a}", {
        vec![if_else(var("x"), vec![], vec![include("a")])]
    });
    becomes("kiosk{a:b=>1,c=>d}", {
        let attributes = vec![given("b", int(0, 1)), given("c", text(0, "d"))];
        vec![built_in("kiosk", text(0, "a"), attributes)]
    });
    // One word, so a name, and the text ends behind it.
    outside_for("the text ends too early", "includea", "");
}

/// "`#` begins a comment up to the line's end, outside strings": 0A ends the
/// line, 0D does not.
#[test]
fn comments() {
    becomes("# 'one\n$x = 7 # } two\n# three", vec![assign("x", int(1, 7))]);
    becomes("$x = 7# no space needed", vec![assign("x", int(0, 7))]);
    assert_eq!(converted("# a\r$x = 7"), Ok(vec![1, 0, 0]));
    assert_eq!(converted(b"#\xff\x00'\"\\"), Ok(vec![1, 0, 0]));
    becomes("$x = 'a # b'", vec![assign("x", text(0, "a # b"))]);
}

/// "The line of a byte is the number of bytes 0A before it, in comments and
/// strings too."
#[test]
fn lines() {
    becomes("\n\n$x\n=\n7", vec![assign("x", int(4, 7))]);
    becomes("\r\n\r\n$x = 7", vec![assign("x", int(2, 7))]);
    becomes("# a\n# b\n$x = 7", vec![assign("x", int(2, 7))]);
    becomes("$x = 'a\nb\nc' $y = 7", {
        vec![assign("x", text(0, "a\nb\nc")), assign("y", int(2, 7))]
    });
    // An escape is no byte 0A.
    becomes("$x = 'a\\nb' $y = 7", {
        vec![assign("x", text(0, "a\nb")), assign("y", int(0, 7))]
    });
}

/// "The label of a constant is the line of its first byte", each kind by
/// itself, several on one line.
#[test]
fn labels() {
    is_value("1 +\n2 + 3 -\n-4", {
        let sum = binary(ADD, binary(ADD, int(0, 1), int(1, 2)), int(1, 3));
        binary(SUBTRACT, sum, int(2, -4))
    });
    is_value("\ngold == \n'gold' == \n\ntrue", {
        binary(
            EQUAL,
            binary(EQUAL, text(1, "gold"), text(2, "gold")),
            boolean(4, true),
        )
    });
}

/// "At each byte the longest token is taken": words that begin like keywords.
#[test]
fn words_that_begin_like_keywords() {
    for word in ["iffy", "trues", "default_", "and1", "nodes", "in", "o", "or_"] {
        is_value(word, text(0, word));
    }
}

/// A keyword is no name; only `true` and `false` are values.
#[test]
fn keywords_are_no_names() {
    for word in KEYWORDS {
        outside("include ", word);
        outside("kiosk { a: ", format!("{word} => 1 }}"));
        outside("class { ", format!("{word}: }}"));
        outside("$y = ", format!("${word}"));
        match word {
            "true" | "false" => is_value(word, boolean(0, word == "true")),
            _ => outside("$x = ", word),
        }
    }
}

/// `unless` and `elsif` are names, as types and as strings.
#[test]
fn unless_is_a_name() {
    outside("unless ", "$x { }");
    outside("if $x { } elsif ", "$y { }");
    becomes(
        "unless { elsif: }",
        vec![defined("unless", text(0, "elsif"), vec![])],
    );
}

/// "A letter is a to z everywhere": others begin no token.
#[test]
fn capital_letters() {
    outside_for("a byte that begins no token", "", "A");
    outside_for("a byte that begins no token", "$x = ", "Kiosk['a'][b]");
    outside_for("a byte that begins no token", "foo", "Bar { a: }");
    outside_for("a byte that begins no token", "$x = foo", "Bar");
    outside_for("a byte that begins no token", "$foo", "Bar = 1");
    outside_for("a byte that begins no token", "$x = 12", "A");
    outside_for("a byte that begins no token", "$x = -7", "A");
    outside_for("a byte that begins no token", "", "_x = 1");
    outside_for("a byte that begins no token", "$x = ", "\u{e9}");
}

/// Bytes that are no sign of the notation.
#[test]
fn other_signs() {
    for sign in ["<", ";", "*", "%", "&", "|", "^", "~", ".", "@", "`", "\\"] {
        outside_for("a byte that begins no token", "$x = 1 ", format!("{sign} 2"));
    }
}

/// The three kinds of variables, each one token.
#[test]
fn variables() {
    is_value("$y", var("y"));
    is_value("$::y", top_var("y"));
    is_value("$::a::y", class_var("a", "y"));
    is_value("$y_9z", var("y_9z"));
}

/// "`$`, `$:` or `$::` without a name behind it": malformed at the `$`.
#[test]
fn variables_without_a_name() {
    for wrong in [
        "$", "$ y", "$1", "$_y", "$Y", "$:", "$:y", "$::", "$:: y", "$::1", "$::Y", "$$y",
    ] {
        outside_for("a variable without a name", "$x = ", wrong);
    }
}

/// "`::` behind `$::a` belongs to it".
#[test]
fn class_variables_without_a_name() {
    for wrong in [
        "$::a::",
        "$::a::1",
        "$::a:: y",
        "$::a::Y",
        "$::a:::y",
        "$::a::::y",
    ] {
        outside_for("a variable without a name", "$x = ", wrong);
    }
}

#[test]
fn variables_with_a_keyword() {
    for wrong in [
        "$if",
        "$default",
        "$true",
        "$::node",
        "$::if::y",
        "$::a::if",
        "$::and::or",
    ] {
        outside_for("a variable with a keyword", "$x = ", wrong);
    }
    is_value("$iff", var("iff"));
    is_value("$::iff::node1", class_var("iff", "node1"));
}

/// "behind `$a` and `$::a::x` it does not": the colons stand alone.
#[test]
fn colons_behind_variables() {
    outside("$x = $a", "::y");
    outside("$x = $::a::y", "::z");
    // A title's colon may stand there, the second one not.
    outside("kiosk { $a:", ":y => 1 }");
    outside("kiosk { $::a::y:", ":z => 1 }");
    becomes("kiosk { $::a: y => $::b }", {
        vec![built_in("kiosk", top_var("a"), vec![given("y", top_var("b"))])]
    });
    becomes("kiosk { $::a::y:z=>$b }", {
        vec![built_in("kiosk", class_var("a", "y"), vec![given("z", var("b"))])]
    });
}

/// "decimal digits, no zero in front of others"; "`-0` is 0".
#[test]
fn numbers() {
    for (spelled, number) in [
        ("0", 0),
        ("-0", 0),
        ("7", 7),
        ("-7", -7),
        ("10", 10),
        ("1000", 1000),
    ] {
        is_value(spelled, int(0, number));
    }
    for wrong in ["007", "00", "01", "-007", "-00"] {
        outside_for("a zero before other digits", "$x = ", wrong);
    }
}

/// "A letter or underscore right behind digits makes the number malformed."
#[test]
fn letters_behind_digits() {
    for wrong in ["12a", "1_000", "0x1f", "7e3", "-7a", "9and", "0_"] {
        outside_for("a letter behind digits", "$x = ", wrong);
    }
    // Signs and spaces are no part of it.
    is_value("7+$y", binary(ADD, int(0, 7), var("y")));
}

/// "A number is from -9223372036854775808 to 9223372036854775807."
#[test]
fn numbers_of_64_bits() {
    is_value("9223372036854775807", int(0, i64::MAX));
    is_value("-9223372036854775808", int(0, i64::MIN));
    for wrong in [
        "9223372036854775808",
        "-9223372036854775809",
        "18446744073709551616",
        "18446744073709551617",
        "99999999999999999999999999999999999999999999",
    ] {
        outside_for("a number outside 64 bits", "$x = ", wrong);
    }
}

/// "elsewhere `-` is the operator": behind each operand.
#[test]
fn minus_behind_an_operand() {
    let difference = |left: Field| binary(SUBTRACT, left, int(0, 7));
    for spelled in ["1 -7", "1-7", "1 - 7", "1- 7"] {
        is_value(spelled, difference(int(0, 1)));
    }
    is_value("gold -7", difference(text(0, "gold")));
    is_value("'gold'-7", difference(text(0, "gold")));
    is_value("$y-7", difference(var("y")));
    is_value("$::y -7", difference(top_var("y")));
    is_value("$::a::y -7", difference(class_var("a", "y")));
    is_value("true -7", difference(boolean(0, true)));
    is_value("false-7", difference(boolean(0, false)));
    is_value("(1)-7", difference(int(0, 1)));
    is_value("a[b][c]-7", difference(attribute_of("a", "c", text(0, "b"))));
}

/// "where an operand, pattern or default may begin" the `-` belongs to the
/// digits.
#[test]
fn minus_before_an_operand() {
    is_value("1 - -7", binary(SUBTRACT, int(0, 1), int(0, -7)));
    is_value("1--7", binary(SUBTRACT, int(0, 1), int(0, -7)));
    is_value("(-7)", int(0, -7));
    is_value("!-7", not(int(0, -7)));
    is_value("a[-7][b]", attribute_of("a", "b", int(0, -7)));
    is_value("1 and -7", binary(AND, int(0, 1), int(0, -7)));
    is_value("-7 ? { -7 => -8, -9 => -1 }", {
        select(
            int(0, -7),
            vec![(int(0, -7), int(0, -8)), (int(0, -9), int(0, -1))],
        )
    });
    becomes("case -7 { -7: { } -8: { } }", {
        vec![case(int(0, -7), vec![(int(0, -7), vec![]), (int(0, -8), vec![])])]
    });
    becomes("define u ($y = -7) { }", {
        vec![type_definition(
            "u",
            vec![parameter("y", Some(int(0, -7)))],
            vec![],
        )]
    });
    becomes("if -7 { } kiosk { -7: a => -7 }", {
        vec![
            if_else(int(0, -7), vec![], vec![]),
            built_in("kiosk", int(0, -7), vec![given("a", int(0, -7))]),
        ]
    });
}

/// "`- 7` and `+7` are outside the notation."
#[test]
fn signs_that_are_no_number() {
    outside("$x = ", "- 7");
    outside("$x = ", "+7");
    outside("$x = ", "--7");
    outside("$x = ", "-$y");
    outside("$x = ", "-");
    outside("$x = 1 + ", "+ 2");
    // An operator here: the number behind it is too large by itself.
    outside_for("a number outside 64 bits", "$x = 1 -", "9223372036854775808");
    outside_for("a zero before other digits", "$x = 1 -", "07");
    is_value(
        "1 - -9223372036854775808",
        binary(SUBTRACT, int(0, 1), int(0, i64::MIN)),
    );
}

/// "every byte for itself, except the closing quote and the backslash": 254
/// bytes, in either kind of quotes.
#[test]
fn every_byte_in_a_string() {
    for quote in [b'\'', b'"'] {
        let bytes: Vec<u8> = (0..=255)
            .filter(|byte| *byte != quote && *byte != b'\\')
            .collect();
        let spelled = [b"$x = ", &[quote][..], &bytes, &[quote]].concat();
        becomes(spelled, vec![assign("x", text(0, bytes))]);
    }
}

/// "`\\ \' \" \n` (0A) are the escapes", with one meaning in both quotes.
#[test]
fn escapes() {
    is_value(r#"'a\\b\'c\"d\ne'"#, text(0, "a\\b'c\"d\ne"));
    is_value(r#""a\\b\'c\"d\ne""#, text(0, "a\\b'c\"d\ne"));
    is_value(r#"'a"b'"#, text(0, "a\"b"));
    is_value(r#""a'b""#, text(0, "a'b"));
    is_value("''", text(0, ""));
    is_value("\"\"", text(0, ""));
    is_value(r"'\\'", text(0, "\\"));
    is_value(r"'$x ${y}'", text(0, "$x ${y}"));
}

/// "any other is a fault", at the string's first byte.
#[test]
fn wrong_escapes() {
    for wrong in [r"'\t'", r"'a\x'", r"'\ '", r#""\$x""#, r"'\N'", "'\\\n'", r"'\0'"] {
        outside_for("a wrong escape", "$x = ", wrong);
    }
}

#[test]
fn strings_never_closed() {
    for wrong in [
        "'",
        "\"",
        "'abc",
        "'abc\"",
        "\"abc'",
        r"'abc\'",
        r"'abc\",
        "'a\n\nb # \"\" ",
    ] {
        outside_for("a string never closed", "$x = ", wrong);
    }
}

/// Either quote or none: one tree.
#[test]
fn spelled_in_three_ways() {
    for spelled in ["'md5'", "\"md5\"", "md5"] {
        is_value(spelled, text(0, "md5"));
    }
    // What is no name is quoted.
    is_value("'if'", text(0, "if"));
    is_value("'7'", text(0, "7"));
    outside("$x = ", "if");
}

/// "`==>` is `==` and `>`, `=>` is never `=` and `>`; `!=`, `>=`, `<` are no
/// signs."
#[test]
fn signs_that_run_together() {
    outside("$x = 1 ==", "> 2");
    outside("$x = 1 ==", "= 2");
    outside("$x = 1 =", "/ 2");
    outside("$x ", "=> 1");
    outside("$x ", "== 1");
    outside("$x = 1 ", "=> 2");
    outside("$x = 1 ", "!= 2");
    outside("$x = 1 >", "= 2");
    outside("kiosk { a: b ", "= 1 }");
    outside("kiosk { a: b ", "= > 1 }");
    outside("$x = ", "=> 1");
    is_value("1==2", binary(EQUAL, int(0, 1), int(0, 2)));
    is_value("1=-2", binary(EQUAL, int(0, 1), int(0, -2)));
    is_value("1>!$y", binary(GREATER, int(0, 1), not(var("y"))));
}

/// "The text's end counts as a token: its place is the text's length."
#[test]
fn end_of_the_text() {
    for text in [
        "$x",
        "$x =",
        "$x = ",
        "$x = 1 +",
        "$x = (1",
        "$x = # c",
        "if",
        "if $x",
        "if $x {",
        "case 1 {",
        "case 1 { 1",
        "kiosk",
        "kiosk { a",
        "kiosk { a:",
        "kiosk { a: b",
        "kiosk { a: b => 1,",
        "include",
        "class",
        "class a",
        "class a inherits",
        "class {",
        "class { a",
        "define",
        "define u",
        "define u (",
        "define u ($y",
        "node",
        "node 'a'",
        "node 'a',",
        "node (",
        "node ('a'",
        "$x = a[",
        "$x = a[1]",
        "$x = a[1][",
        "$x = a[1][b",
        "$x = 1 ?",
        "$x = 1 ? {",
        "$x = 1 ? { 2",
        "$x = !",
        "if $x { } else",
        "$x = (1\n\n",
        "node default",
    ] {
        outside_for("the text ends too early", text, "");
    }
}
