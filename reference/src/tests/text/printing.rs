//! "How a manifest is printed".

use super::*;
use crate::text_trips;

/// What the printer writes for a manifest of these items.
fn text_of(items: Vec<Field>) -> String {
    let manifest = Manifest::new(items).build().bytes;
    let written = TextCase::printing(manifest).answer().expect("it prints");
    String::from_utf8_lossy(&written).into_owned()
}

/// The items are printed so; and converting that gives them again, since the
/// assembler makes a table without unused strings.
#[track_caller]
fn prints(items: Vec<Field>, expected: &str) {
    assert_eq!(text_of(items.clone()), expected);
    becomes(expected, items);
}

/// `$x = ` and this expression, all labels 0.
#[track_caller]
fn prints_value(value: Field, expected: &str) {
    prints(vec![assign("x", value)], &format!("$x = {expected}\n"));
}

/// "a manifest without items is printed as the empty text", also with strings.
#[test]
fn no_items() {
    prints(vec![], "");
    let with_strings = Manifest::new(vec![]).with("a").with("B").build().bytes;
    assert_eq!(TextCase::printing(with_strings).answer(), Ok(vec![]));
}

/// The example of the page.
#[test]
fn layout_of_the_page() {
    let given_text = "$fee = 40
node 'desk' { if $peak { $fee = 55 }
  kiosk { 'front':
    price => $fee, screens => 2 } }";
    let printed_text = "$fee = 40
node 'desk' { if $peak { $fee = 55 }
  kiosk { 'front': price => $fee,
    screens => 2 } }
";
    let items = vec![
        assign("fee", int(0, 40)),
        node(
            &["desk"],
            vec![
                if_else(var("peak"), vec![assign("fee", int(1, 55))], vec![]),
                built_in(
                    "kiosk",
                    text(2, "front"),
                    vec![given("price", var("fee")), given("screens", int(3, 2))],
                ),
            ],
        ),
    ];
    becomes(given_text, items.clone());
    prints(items, printed_text);
}

/// Each statement, all on one line.
#[test]
fn statements() {
    prints(vec![assign("x", int(0, 7))], "$x = 7\n");
    prints(vec![include("a"), include("b")], "include a include b\n");
    prints(vec![class_with("a", vec![])], "class { a: }\n");
    prints(
        vec![class_with("a", vec![given("b", var("y")), given("c", int(0, 1))])],
        "class { a: b => $y, c => 1 }\n",
    );
    prints(vec![built_in("kiosk", text(0, "a"), vec![])], "kiosk { 'a': }\n");
    prints(
        vec![defined(
            "u",
            var("y"),
            vec![given("b", var("y")), given("c", var("z"))],
        )],
        "u { $y: b => $y, c => $z }\n",
    );
}

/// "`else` only where the second block holds a statement".
#[test]
fn conditions() {
    prints(vec![if_else(var("y"), vec![], vec![])], "if $y { }\n");
    prints(
        vec![if_else(var("y"), vec![include("a")], vec![])],
        "if $y { include a }\n",
    );
    prints(
        vec![if_else(var("y"), vec![], vec![include("a"), include("b")])],
        "if $y { } else { include a include b }\n",
    );
    prints(vec![case(var("y"), vec![])], "case $y { }\n");
    prints(
        vec![case(
            var("y"),
            vec![(int(0, -1), vec![include("a")]), (default(), vec![])],
        )],
        "case $y { -1: { include a } default: { } }\n",
    );
}

/// Devices are quoted, without brackets; "without brackets where there is no
/// parameter".
#[test]
fn nodes_and_definitions() {
    prints(vec![node(&["a"], vec![])], "node 'a' { }\n");
    prints(
        vec![node(&["b", "", "a"], vec![include("c")])],
        "node 'b', '', 'a' { include c }\n",
    );
    prints(vec![node_default(vec![])], "node default { }\n");
    prints(vec![type_definition("u", vec![], vec![])], "define u { }\n");
    prints(
        vec![type_definition(
            "u",
            vec![parameter("y", None)],
            vec![include("a")],
        )],
        "define u ($y) { include a }\n",
    );
    let both = vec![parameter("x", None), parameter("y", Some(int(0, 7)))];
    prints(
        vec![class_definition("a", Some(parent("b")), both, vec![])],
        "class a ($x, $y = 7) inherits b { }\n",
    );
    prints(
        vec![class_definition("a", Some(parent("b")), vec![], vec![])],
        "class a inherits b { }\n",
    );
}

#[test]
fn operands() {
    prints_value(var("y"), "$y");
    prints_value(top_var("y"), "$::y");
    prints_value(class_var("a", "y"), "$::a::y");
    prints_value(boolean(0, true), "true");
    prints_value(boolean(0, false), "false");
    prints_value(
        attribute_of("gate", "from", text(0, "north")),
        "gate['north'][from]",
    );
    prints_value(not(var("y")), "!$y");
    prints_value(not(not(int(0, -7))), "!!-7");
}

#[test]
fn numbers() {
    for (number, expected) in [
        (0, "0"),
        (-7, "-7"),
        (i64::MAX, "9223372036854775807"),
        (i64::MIN, "-9223372036854775808"),
    ] {
        prints_value(int(0, number), expected);
    }
    prints_value(binary(SUBTRACT, int(0, -1), int(0, -7)), "-1 - -7");
    prints_value(attribute_of("a", "b", int(0, -7)), "a[-7][b]");
}

/// "with `\\`, `\'` and `\n` for a backslash, a single quote and a line feed,
/// and every other byte for itself"; a string is never bare.
#[test]
fn strings() {
    prints_value(text(0, "gold"), "'gold'");
    prints_value(text(0, ""), "''");
    prints_value(text(0, "a\\b'c\"d\ne\tf\rg"), "'a\\\\b\\'c\"d\\ne\tf\rg'");
    let bytes: Vec<u8> = (0..=255).filter(|byte| *byte != b'a').collect();
    let manifest = Manifest::new(vec![assign("x", text(0, &bytes))]).build().bytes;
    let written = TextCase::printing(manifest.clone()).answer().unwrap();
    // 255 bytes, three of them escaped, between `$x = '` and a quote.
    assert_eq!(written.len(), 6 + 258 + 2);
    assert_eq!(converted(written), Ok(manifest));
    prints(vec![node(&["it's\n"], vec![])], "node 'it\\'s\\n' { }\n");
}

/// Every operation as the left and as the right side of every other: brackets
/// around the left one where it binds looser, around the right one where it
/// does not bind tighter.
#[test]
fn brackets_around_operations() {
    let operators = [
        ("+", ADD, 6),
        ("-", SUBTRACT, 6),
        ("/", DIVIDE, 7),
        (">", GREATER, 4),
        ("==", EQUAL, 5),
        ("and", AND, 2),
        ("or", OR, 1),
    ];
    for (sign, byte, level) in operators {
        for (inner_sign, inner_byte, inner) in operators {
            let operation = || binary(inner_byte, var("a"), var("b"));
            let bare = format!("$a {inner_sign} $b");
            let left = match inner < level {
                true => format!("({bare})"),
                false => bare.clone(),
            };
            prints_value(binary(byte, operation(), var("c")), &format!("{left} {sign} $c"));
            let right = match inner <= level {
                true => format!("({bare})"),
                false => bare,
            };
            prints_value(binary(byte, var("c"), operation()), &format!("$c {sign} {right}"));
        }
    }
}

fn chosen(scrutinee: Field) -> Field {
    select(scrutinee, vec![(int(0, 1), var("z"))])
}

/// A selector binds looser than all but `and` and `or`.
#[test]
fn brackets_around_selectors() {
    for (sign, byte, looser) in [
        ("+", ADD, true),
        ("-", SUBTRACT, true),
        ("/", DIVIDE, true),
        (">", GREATER, true),
        ("==", EQUAL, true),
        ("and", AND, false),
        ("or", OR, false),
    ] {
        let selector = match looser {
            true => "($y ? { 1 => $z })",
            false => "$y ? { 1 => $z }",
        };
        prints_value(
            binary(byte, chosen(var("y")), var("c")),
            &format!("{selector} {sign} $c"),
        );
        prints_value(
            binary(byte, var("c"), chosen(var("y"))),
            &format!("$c {sign} {selector}"),
        );
        let operation = match looser {
            true => format!("$a {sign} $b"),
            false => format!("($a {sign} $b)"),
        };
        prints_value(
            chosen(binary(byte, var("a"), var("b"))),
            &format!("{operation} ? {{ 1 => $z }}"),
        );
    }
    prints_value(chosen(chosen(var("y"))), "$y ? { 1 => $z } ? { 1 => $z }");
}

/// No brackets in an arm, a title, or an attribute's value.
#[test]
fn no_brackets_where_nothing_groups() {
    let either = || binary(OR, var("a"), var("b"));
    prints_value(
        select(var("y"), vec![(default(), either())]),
        "$y ? { default => $a or $b }",
    );
    prints_value(attribute_of("u", "c", either()), "u[$a or $b][c]");
    prints(
        vec![built_in("kiosk", either(), vec![given("c", either())])],
        "kiosk { $a or $b: c => $a or $b }\n",
    );
    prints(vec![if_else(either(), vec![], vec![])], "if $a or $b { }\n");
}

#[test]
fn brackets_behind_not() {
    prints_value(not(binary(DIVIDE, var("a"), var("b"))), "!($a / $b)");
    prints_value(not(chosen(var("y"))), "!($y ? { 1 => $z })");
    prints_value(chosen(not(var("y"))), "!$y ? { 1 => $z }");
    prints_value(binary(DIVIDE, not(var("a")), not(var("b"))), "!$a / !$b");
    prints_value(not(attribute_of("u", "c", var("a"))), "!u[$a][c]");
}

/// "Before the first token stand the line feeds that its line asks for."
#[test]
fn first_line() {
    prints(vec![assign("x", int(2, 7))], "\n\n$x = 7\n");
    // The item begins on the line of its first constant, however deep.
    prints(
        vec![node_default(vec![if_else(
            var("y"),
            vec![assign("x", int(1, 7))],
            vec![],
        )])],
        "\nnode default { if $y { $x = 7 } }\n",
    );
    let last = text_of(vec![assign("x", int(255, 7))]);
    assert_eq!(last, "\n".repeat(255) + "$x = 7\n");
}

/// What holds no constant stays on the line.
#[test]
fn things_without_constants() {
    prints(
        vec![
            assign("x", int(1, 7)),
            include("a"),
            node_default(vec![]),
            assign("y", var("x")),
            assign("z", int(3, 8)),
            include("b"),
        ],
        "\n$x = 7 include a node default { } $y = $x\n\n$z = 8 include b\n",
    );
}

/// A statement in a block begins its line, indented by what is open.
#[test]
fn statements_on_lines() {
    prints(
        vec![
            node(
                &["a"],
                vec![
                    assign("x", int(0, 1)),
                    assign("y", int(1, 2)),
                    if_else(
                        var("x"),
                        vec![assign("z", int(3, 3)), include("b"), assign("z", int(4, 4))],
                        vec![assign("z", int(5, 5))],
                    ),
                ],
            ),
            assign("w", int(6, 6)),
        ],
        "node 'a' { $x = 1
  $y = 2

  if $x { $z = 3 include b
    $z = 4 } else {
    $z = 5 } }
$w = 6
",
    );
}

/// Attributes, and a constant in the middle of one.
#[test]
fn attributes_on_lines() {
    let attributes = vec![
        given("a", var("y")),
        given("b", binary(ADD, var("y"), int(1, 1))),
        given("c", var("y")),
        given("d", binary(ADD, int(2, 2), int(4, 4))),
    ];
    prints(
        vec![built_in("kiosk", text(0, "t"), attributes)],
        "kiosk { 't': a => $y,
  b => $y + 1, c => $y,
  d => 2 +

  4 }
",
    );
}

/// Arms of a selector and branches of a case begin lines, by their pattern or,
/// behind `default`, by the first constant that is chosen.
#[test]
fn arms_and_branches_on_lines() {
    prints(
        vec![assign(
            "x",
            select(
                int(0, 1),
                vec![
                    (int(1, 2), int(1, 3)),
                    (int(2, 4), int(3, 5)),
                    (default(), int(4, 6)),
                    (default(), var("y")),
                ],
            ),
        )],
        "$x = 1 ? {
  2 => 3,
  4 =>
  5,
  default => 6, default => $y }
",
    );
    prints(
        vec![case(
            var("y"),
            vec![
                (int(1, 1), vec![include("a")]),
                (default(), vec![include("b"), assign("x", int(2, 2))]),
                (text(2, "c"), vec![assign("x", int(3, 3))]),
            ],
        )],
        "
case $y { 1: { include a }
  default: { include b $x = 2 } 'c': {
    $x = 3 } }
",
    );
}

/// Parameters begin lines inside their bracket.
#[test]
fn parameters_on_lines() {
    let parameters = vec![
        parameter("a", None),
        parameter("b", Some(int(1, 1))),
        parameter("c", None),
        parameter("d", Some(int(2, 2))),
    ];
    prints(
        vec![class_definition(
            "k",
            Some(parent("l")),
            parameters,
            vec![assign("x", int(2, 3)), assign("y", int(3, 4))],
        )],
        "
class k ($a, $b = 1, $c,
  $d = 2) inherits l { $x = 3
  $y = 4 }
",
    );
}

/// A constant on a later line inside brackets is indented by each of them:
/// brace, square bracket, round bracket.
#[test]
fn constants_inside_brackets() {
    let product = binary(DIVIDE, int(0, 8), binary(SUBTRACT, int(1, 4), int(2, 2)));
    prints(
        vec![built_in("kiosk", attribute_of("u", "b", product), vec![])],
        "kiosk { u[8 / (
      4 -
      2)][b]: }
",
    );
    prints(
        vec![assign("x", binary(AND, int(0, 1), not(int(1, 2))))],
        "$x = 1 and !\n2\n",
    );
    prints(
        vec![assign(
            "x",
            attribute_of("u", "b", binary(ADD, var("y"), int(0, 1))),
        )],
        "$x = u[$y + 1][b]\n",
    );
}

/// Labels that are equal need no line of their own.
#[test]
fn equal_labels() {
    prints(
        vec![
            assign("x", int(1, 1)),
            assign("y", int(1, 2)),
            assign("z", int(1, 3)),
        ],
        "\n$x = 1 $y = 2 $z = 3\n",
    );
}

/// 65,535 bytes of text and one more; what fits the output and what does not.
#[test]
fn length_of_the_text() {
    // `include `, a name of 255 bytes and a space or line feed: 264 bytes, and
    // 248 of them are 65,472. The last one has 63.
    let manifest = |last: usize| {
        let mut items: Vec<Field> = (0..248).map(|_| include("n".repeat(255))).collect();
        items.push(include("m".repeat(last)));
        TextCase::printing(Manifest::new(items).build().bytes)
    };
    let answer = |case: TextCase| {
        let written = case.answer();
        written
            .map(|text| text.len())
            .map_err(|refused| (refused.number, refused.place, refused.why))
    };
    assert_eq!(answer(manifest(54)), Ok(65_535));
    assert_eq!(answer(manifest(55)), Err((26, 0, "a text over 65,535 bytes")));
    let lent = |case: TextCase, output: usize| TextCase { output, ..case };
    assert_eq!(
        answer(lent(manifest(55), 70_000)),
        Err((26, 0, "a text over 65,535 bytes"))
    );
    assert_eq!(
        answer(lent(manifest(54), 65_534)),
        Err((26, 0, "a text over the output"))
    );
    assert_eq!(answer(lent(manifest(1), 65_482)), Ok(65_482));
    assert_eq!(
        answer(lent(manifest(1), 65_481)),
        Err((26, 0, "a text over the output"))
    );
}

/// Trees and texts at random.
#[test]
fn there_and_back() {
    let (trees, texts) = text_trips::compare(7, 2000).unwrap();
    assert!(trees > 900 && texts > 700, "{trees} trees, {texts} texts");
}
