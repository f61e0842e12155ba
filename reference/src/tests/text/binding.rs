//! Which operators bind tighter, and round brackets.

use super::*;

/// Sign, byte and level, from the page's table.
const OPERATORS: [(&str, u8, u8); 8] = [
    ("/", DIVIDE, 7),
    ("+", ADD, 6),
    ("-", SUBTRACT, 6),
    ("==", EQUAL, 5),
    ("=", EQUAL, 5),
    (">", GREATER, 4),
    ("and", AND, 2),
    ("or", OR, 1),
];

/// Any two operators between three operands: the tighter one groups, and of one
/// level the left one.
#[test]
fn two_operators() {
    for (first, one, level) in OPERATORS {
        for (second, other, behind) in OPERATORS {
            let (a, b, c) = (var("a"), var("b"), var("c"));
            let expected = match behind > level {
                true => binary(one, a, binary(other, b, c)),
                false => binary(other, binary(one, a, b), c),
            };
            is_value(&format!("$a {first} $b {second} $c"), expected);
        }
    }
}

/// "all from the left".
#[test]
fn from_the_left() {
    is_value(
        "8 / 4 / 2",
        binary(DIVIDE, binary(DIVIDE, int(0, 8), int(0, 4)), int(0, 2)),
    );
    is_value("1 - 2 + 3 - 4", {
        let sum = binary(ADD, binary(SUBTRACT, int(0, 1), int(0, 2)), int(0, 3));
        binary(SUBTRACT, sum, int(0, 4))
    });
    is_value(
        "1 == 2 = 3",
        binary(EQUAL, binary(EQUAL, int(0, 1), int(0, 2)), int(0, 3)),
    );
}

/// Five levels, tighter and tighter, then back.
#[test]
fn all_levels() {
    is_value("$a or $b and $c > $d == $e + $f / $g", {
        let sum = binary(ADD, var("e"), binary(DIVIDE, var("f"), var("g")));
        let greater = binary(GREATER, var("c"), binary(EQUAL, var("d"), sum));
        binary(OR, var("a"), binary(AND, var("b"), greater))
    });
    is_value("$a / $b + $c == $d > $e and $f or $g", {
        let sum = binary(ADD, binary(DIVIDE, var("a"), var("b")), var("c"));
        let greater = binary(GREATER, binary(EQUAL, sum, var("d")), var("e"));
        binary(OR, binary(AND, greater, var("f")), var("g"))
    });
}

/// "So `1 > 2 == true` is 1 > (2 == true)".
#[test]
fn equality_binds_tighter_than_greater() {
    is_value("1 > 2 == true", {
        binary(GREATER, int(0, 1), binary(EQUAL, int(0, 2), boolean(0, true)))
    });
}

/// "`=` inside of an expression means the same as `==`", also right behind the
/// one of an assignment.
#[test]
fn single_equals() {
    is_value("$y = 1", binary(EQUAL, var("y"), int(0, 1)));
    becomes("if $y = 1 { }", {
        vec![if_else(binary(EQUAL, var("y"), int(0, 1)), vec![], vec![])]
    });
    becomes(
        "$x = $y $z = 1",
        vec![assign("x", var("y")), assign("z", int(0, 1))],
    );
}

fn chosen(scrutinee: Field) -> Field {
    select(scrutinee, vec![(int(0, 1), int(0, 2))])
}

/// "`1 + $x ? { .. }` selects on the sum": so does every operator that binds
/// tighter than `?`.
#[test]
fn selector_on_an_operation() {
    for (sign, byte, level) in OPERATORS {
        let expected = match level > 3 {
            true => chosen(binary(byte, int(0, 3), var("y"))),
            false => binary(byte, int(0, 3), chosen(var("y"))),
        };
        is_value(&format!("3 {sign} $y ? {{ 1 => 2 }}"), expected);
    }
}

/// "Behind a selector only another `?`, `and` or `or` may follow without
/// brackets."
#[test]
fn behind_a_selector() {
    is_value("$y ? { 1 => 2 } ? { 1 => 2 }", chosen(chosen(var("y"))));
    for (sign, byte, level) in OPERATORS {
        match level < 3 {
            true => is_value(
                &format!("$y ? {{ 1 => 2 }} {sign} $z"),
                binary(byte, chosen(var("y")), var("z")),
            ),
            false => outside("$x = $y ? { 1 => 2 } ", format!("{sign} $z")),
        }
        // In brackets anything may follow.
        is_value(
            &format!("($y ? {{ 1 => 2 }}) {sign} $z"),
            binary(byte, chosen(var("y")), var("z")),
        );
    }
}

/// The same where the selector stands right of another operator, or in an arm.
#[test]
fn behind_an_inner_selector() {
    outside("$x = $a and $y ? { 1 => 2 } ", "+ 1");
    outside("$x = $a or $b and $y ? { 1 => 2 } ", "> 1");
    outside("$x = $a ? { 1 => $y ? { 1 => 2 } ", "/ 3 }");
    outside("$x = ($y ? { 1 => 2 } ", "== 3)");
    outside("$x = $y ? { 1 => 2 } ", "-7");
    is_value("$y ? { 1 => 2 } and 3 + 4", {
        binary(AND, chosen(var("y")), binary(ADD, int(0, 3), int(0, 4)))
    });
    is_value("$a or $y ? { 1 => 2 } and $b", {
        binary(OR, var("a"), binary(AND, chosen(var("y")), var("b")))
    });
}

/// An arm's expression ends at the comma or brace.
#[test]
fn selectors_in_arms() {
    is_value("$y ? { 1 => $z ? { 1 => 2 }, 3 => 4 and 5 }", {
        let arms = vec![
            (int(0, 1), chosen(var("z"))),
            (int(0, 3), binary(AND, int(0, 4), int(0, 5))),
        ];
        select(var("y"), arms)
    });
}

/// `!` is the tightest.
#[test]
fn not_binds_tightest() {
    for (sign, byte, _) in OPERATORS {
        is_value(
            &format!("!$y {sign} !$z"),
            binary(byte, not(var("y")), not(var("z"))),
        );
    }
    is_value("!!$y", not(not(var("y"))));
    is_value("!$y ? { 1 => 2 }", chosen(not(var("y"))));
    is_value("!a[b][c]", not(attribute_of("a", "c", text(0, "b"))));
    is_value("!($y > 1)", not(binary(GREATER, var("y"), int(0, 1))));
    is_value("! ! 'a'", not(not(text(0, "a"))));
    outside("$x = $y ", "!$z");
}

/// "Round brackets group and make no field".
#[test]
fn brackets() {
    is_value("(1)", int(0, 1));
    is_value("((($y)))", var("y"));
    is_value(
        "1 - (2 - 3)",
        binary(SUBTRACT, int(0, 1), binary(SUBTRACT, int(0, 2), int(0, 3))),
    );
    is_value(
        "(1 + 2) / 3",
        binary(DIVIDE, binary(ADD, int(0, 1), int(0, 2)), int(0, 3)),
    );
    is_value(
        "($a and $y) ? { 1 => 2 }",
        chosen(binary(AND, var("a"), var("y"))),
    );
    is_value("1 + ($y ? { 1 => 2 })", binary(ADD, int(0, 1), chosen(var("y"))));
    is_value("(1)-(2)", binary(SUBTRACT, int(0, 1), int(0, 2)));
    outside("$x = (", ")");
    outside("$x = (1", ", 2)");
    outside("$x = (1)", ")");
    outside("$x = (1 ", "]");
    outside("$x = (1) ", "(2)");
}

/// A negative number is an operand, so the sign binds tighter than any operator.
#[test]
fn negative_numbers() {
    is_value("-7 / 2", binary(DIVIDE, int(0, -7), int(0, 2)));
    is_value("7 / -2", binary(DIVIDE, int(0, 7), int(0, -2)));
    is_value("-7 -7", binary(SUBTRACT, int(0, -7), int(0, 7)));
}
