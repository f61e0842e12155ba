//! Each form of the grammar, what may be left out, and what may not stand.

use super::*;

#[test]
fn assignment() {
    becomes("$fee = 40", vec![assign("fee", int(0, 40))]);
    outside("", "$::fee = 40");
    outside("", "$::a::fee = 40");
    outside("$fee", "+ = 40");
}

/// No sign ends a statement: the next token does.
#[test]
fn statements_in_a_row() {
    becomes("$x = 1 $y = $x $z = $y include a", {
        vec![
            assign("x", int(0, 1)),
            assign("y", var("x")),
            assign("z", var("y")),
            include("a"),
        ]
    });
    becomes("$x = kiosk kiosk { a: }", {
        vec![
            assign("x", text(0, "kiosk")),
            built_in("kiosk", text(0, "a"), vec![]),
        ]
    });
    outside("$x = kiosk ", "{ a: }");
    outside("$x = 1 ", "2");
    outside("$x = 1 ", ", $y = 2");
}

/// "without `else` the second block is an empty 20".
#[test]
fn if_and_else() {
    becomes("if $x { }", vec![if_else(var("x"), vec![], vec![])]);
    becomes("if $x { } else { }", vec![if_else(var("x"), vec![], vec![])]);
    becomes("if $x { include a } else { include b include c }", {
        let otherwise = vec![include("b"), include("c")];
        vec![if_else(var("x"), vec![include("a")], otherwise)]
    });
    outside("if $x { } else ", "if $y { }");
    outside("if $x { } else { } ", "else { }");
    outside("", "else { }");
    outside("if ", "{ }");
    outside("if $x ", "include a");
}

/// A condition that is a name: the brace opens the block.
#[test]
fn name_before_a_block() {
    becomes("if kiosk { }", vec![if_else(text(0, "kiosk"), vec![], vec![])]);
    becomes("case gold { gold: { } }", {
        vec![case(text(0, "gold"), vec![(text(0, "gold"), vec![])])]
    });
}

/// "any number of arms".
#[test]
fn case_statement() {
    becomes("case $x { }", vec![case(var("x"), vec![])]);
    becomes(
        "case $x { 1: { include a } gold: { } 'b c': { } true: { } default: { } }",
        {
            let arms = vec![
                (int(0, 1), vec![include("a")]),
                (text(0, "gold"), vec![]),
                (text(0, "b c"), vec![]),
                (boolean(0, true), vec![]),
                (default(), vec![]),
            ];
            vec![case(var("x"), arms)]
        },
    );
    outside("case $x { 1: { }", ", 2: { } }");
    outside("case $x { 1 ", "=> { } }");
    outside("case $x { 1: ", "include a }");
}

/// "Patterns and defaults of parameters are constants."
#[test]
fn patterns_are_constants() {
    outside("case $x { ", "$y: { } }");
    outside("case $x { ", "(1): { } }");
    outside("case $x { ", "!true: { } }");
    outside("case $x { 1 ", "+ 1: { } }");
    outside("case $x { gold ", "[1][a]: { } }");
    outside("$x = 1 ? { ", "$y => 2 }");
    outside("$x = 1 ? { gold", "[1][a] => 2 }");
    outside("define u ($x = ", "$y) { }");
    outside("define u ($x = ", "(1)) { }");
    outside("define u ($x = ", "default) { }");
    outside("define u ($x = gold", "[1][a]) { }");
    outside("define u ($x = 1 ", "+ 1) { }");
}

/// "25 if the type list holds the name, else 27".
#[test]
fn built_in_and_defined_resources() {
    for kind in [
        "kiosk", "tablet", "printer", "scanner", "gate", "screen", "plan", "wall",
    ] {
        becomes(
            format!("{kind} {{ 'a': }}"),
            vec![built_in(kind, text(0, "a"), vec![])],
        );
    }
    for kind in ["kiosks", "desk", "plans", "k"] {
        becomes(
            format!("{kind} {{ 'a': }}"),
            vec![defined(kind, text(0, "a"), vec![])],
        );
    }
}

/// "A comma may stand behind the last attribute ..., not without one".
#[test]
fn attributes_of_a_resource() {
    let attributes = || vec![given("b", int(0, 1)), given("b", var("y"))];
    for spelled in ["kiosk { $x: b => 1, b => $y }", "kiosk { $x: b => 1, b => $y, }"] {
        becomes(spelled, vec![built_in("kiosk", var("x"), attributes())]);
    }
    outside("kiosk { $x: ", ", }");
    outside("kiosk { $x: b => 1, ", ", }");
    outside("kiosk { $x: b => 1 ", "c => 2 }");
    outside("kiosk { $x: b ", ": 1 }");
    outside("kiosk { $x: ", "1 => 2 }");
    outside("kiosk { $x ", "}");
    outside("kiosk { ", "}");
    outside("kiosk { ", ": b => 1 }");
    outside("kiosk { $x: b => ", ", c => 1 }");
}

/// A title is any expression.
#[test]
fn titles() {
    becomes("kiosk { 'a' == $y: }", {
        vec![built_in("kiosk", binary(EQUAL, text(0, "a"), var("y")), vec![])]
    });
    becomes("kiosk { $y ? { 1 => a }: b => 2 }", {
        let title = select(var("y"), vec![(int(0, 1), text(0, "a"))]);
        vec![built_in("kiosk", title, vec![given("b", int(0, 2))])]
    });
    becomes("kiosk { wall['n'][a]: }", {
        vec![built_in("kiosk", attribute_of("wall", "a", text(0, "n")), vec![])]
    });
}

#[test]
fn class_with_attributes() {
    becomes("class { a: }", vec![class_with("a", vec![])]);
    becomes("class { a: b => 1, c => 2, }", {
        vec![class_with(
            "a",
            vec![given("b", int(0, 1)), given("c", int(0, 2))],
        )]
    });
    becomes("if $x { class { a: } }", {
        vec![if_else(var("x"), vec![class_with("a", vec![])], vec![])]
    });
    outside("class { ", "'a': }");
    outside("class { ", "$a: }");
    outside("class { a: ", ", }");
    outside("class { a ", "}");
}

#[test]
fn include_statement() {
    becomes("include a", vec![include("a")]);
    outside("include a ", ", b");
    outside("include ", "'a'");
    outside("include a", "::b");
    outside("include ", "$a");
}

/// One device or more, in brackets or not, quoted or bare; a comma only between
/// two.
#[test]
fn nodes() {
    becomes("node 'hill-desk' { }", vec![node(&["hill-desk"], vec![])]);
    becomes(
        "node desk { include a }",
        vec![node(&["desk"], vec![include("a")])],
    );
    for spelled in ["node 'b', a, \"\" { }", "node ('b', a, \"\") { }"] {
        becomes(spelled, vec![node(&["b", "a", ""], vec![])]);
    }
    becomes("node ('b') { }", vec![node(&["b"], vec![])]);
    becomes("node default { }", vec![node_default(vec![])]);
    becomes("node 'default' { }", vec![node(&["default"], vec![])]);
}

#[test]
fn nodes_that_are_none() {
    outside("node ", "{ }");
    outside("node (", ") { }");
    outside("node (", "default) { }");
    outside("node ('a', ", ") { }");
    outside("node ('a' ", "{ }");
    outside("node 'a', ", "{ }");
    outside("node 'a', ", "default { }");
    outside("node default", ", 'a' { }");
    outside("node 'a' ", ") { }");
    outside("node (", "('a')) { }");
    outside("node ", "$a { }");
    outside("node ", "7 { }");
    outside("node ", "true { }");
    outside("node a", "[1][b] { }");
    outside("node a ", "inherits b { }");
}

/// "brackets may be left out where there is no parameter".
#[test]
fn parameters() {
    for spelled in ["define u { }", "define u () { }", "define u(){}"] {
        becomes(spelled, vec![type_definition("u", vec![], vec![])]);
    }
    let both = || vec![parameter("x", None), parameter("y", Some(int(0, 7)))];
    for spelled in ["define u ($x, $y = 7) { }", "define u ($x, $y = 7,) { }"] {
        becomes(spelled, vec![type_definition("u", both(), vec![])]);
    }
    becomes("define u ($x = gold, $x = true, $y = 'b') { }", {
        let parameters = vec![
            parameter("x", Some(text(0, "gold"))),
            parameter("x", Some(boolean(0, true))),
            parameter("y", Some(text(0, "b"))),
        ];
        vec![type_definition("u", parameters, vec![])]
    });
    outside("define u (", ",) { }");
    outside("define u ($x, ", ",) { }");
    outside("define u ($x ", "$y) { }");
    outside("define u (", "x) { }");
    outside("define u (", "$::x) { }");
    outside("define u ($x ", "== 1) { }");
    outside("define u ($x = 1 ", "= 2) { }");
    outside("define u ($x) ", "($y) { }");
    outside("define u ", "inherits a { }");
    outside("define ", "'u' { }");
}

/// "a 34's 35 before its 33s", though the text has it behind them.
#[test]
fn class_definitions() {
    becomes("class a { }", vec![class_definition("a", None, vec![], vec![])]);
    becomes("class a () { include b }", {
        vec![class_definition("a", None, vec![], vec![include("b")])]
    });
    becomes("class a inherits b { }", {
        vec![class_definition("a", Some(parent("b")), vec![], vec![])]
    });
    becomes("class a ($x = 1, $y) inherits b { }", {
        let parameters = vec![parameter("x", Some(int(0, 1))), parameter("y", None)];
        vec![class_definition("a", Some(parent("b")), parameters, vec![])]
    });
    outside("class a inherits b ", "($x) { }");
    outside("class a inherits ", "'b' { }");
    outside("class a inherits b", "::c { }");
    outside("class a inherits b ", "inherits c { }");
    outside("class ", "'a' { }");
}

/// The bytes by hand: the table rises, a prefix first, each string once.
#[test]
fn bytes_of_a_class() {
    let expected = [
        vec![
            0x01, 0, 13, 0x02, 0, 1, b'a', 0x02, 0, 2, b'a', b'b', 0x02, 0, 1, b'b',
        ],
        vec![0x34, 0, 26, 0, 1],                     // class ab: 2 + 5 + 11 + 8
        vec![0x35, 0, 2, 0, 2],                      // inherits b
        vec![0x33, 0, 8, 0, 0, 0x11, 0, 3, 1, 0, 2], // $a = b, label 1
        vec![0x20, 0, 5, 0x29, 0, 2, 0, 1],
    ];
    let spelled = "class ab (\n$a = 'b') inherits b { include ab }";
    assert_eq!(converted(spelled), Ok(expected.concat()));
}

/// "nodes and definitions inside a block" are outside.
#[test]
fn items_inside_a_block() {
    outside("node a { ", "node b { } }");
    outside("class a { ", "define u { } }");
    outside("class a { class ", "b { } }");
    outside("if $x { ", "node b { } }");
    outside("case $x { 1: { ", "define u { } } }");
}

/// 18: type, title, attribute in the text; white space as anywhere.
#[test]
fn attribute_reads() {
    is_value(
        "kiosk['front'][price]",
        attribute_of("kiosk", "price", text(0, "front")),
    );
    is_value(
        "kiosk [ $y ]\n[ price ]",
        attribute_of("kiosk", "price", var("y")),
    );
    is_value("a[b[c][d]][e]", {
        attribute_of("a", "e", attribute_of("b", "d", text(0, "c")))
    });
    is_value("a[1 + 2][b]", {
        attribute_of("a", "b", binary(ADD, int(0, 1), int(0, 2)))
    });
    outside("$x = a[", "][b]");
    outside("$x = a[1] ", "+ 2");
    outside("$x = a[1][", "'b']");
    outside("$x = a[1][", "$b]");
    outside("$x = a[1][b]", "[c]");
    outside("$x = $y", "[1][b]");
    outside("$x = 'a'", "[1][b]");
    outside("$x = true", "[1][b]");
}

/// "one arm or more", a comma behind the last one or none.
#[test]
fn selectors() {
    let arms = || vec![(int(0, 1), int(0, 2)), (default(), var("y"))];
    for spelled in ["$z ? { 1 => 2, default => $y }", "$z?{1=>2,default=>$y,}"] {
        is_value(spelled, select(var("z"), arms()));
    }
    is_value(
        "$z ? { default => 1 }",
        select(var("z"), vec![(default(), int(0, 1))]),
    );
    outside("$x = $z ? { ", "}");
    outside("$x = $z ? { ", ", }");
    outside("$x = $z ? { 1 => 2, ", ", }");
    outside("$x = $z ? { 1 => 2 ", "3 => 4 }");
    outside("$x = $z ? { 1 ", ": 2 }");
    outside("$x = $z ? ", "1 => 2");
    outside("$x = ", "? { 1 => 2 }");
}

/// "expressions as statements, arrays, hashes, references, element reads".
#[test]
fn not_in_the_notation() {
    outside("", "1 + 2");
    outside("$x ", "+ 1");
    outside("", "(1)");
    outside("", "'a'");
    outside("", "true");
    outside("kiosk", "['a'][b]");
    outside("$x = ", "[1, 2]");
    outside("$x = ", "{ a => 1 }");
    outside("a", "::b { c: }");
    outside("", "}");
    outside("", "default: { }");
}

/// Names of types, classes, attributes and parameters are bare.
#[test]
fn quoted_where_a_name_belongs() {
    outside("", "'kiosk' { a: }");
    outside("kiosk { a: ", "'b' => 1 }");
    outside("define u (", "'x') { }");
    outside("class a inherits ", "\"b\" { }");
}

/// "the table holds exactly the strings that fields name": names, strings and
/// devices, no keyword, and each once.
#[test]
fn strings_of_the_table() {
    let bytes = converted("node b, 'a' { $b = b $c = 'a' if true { } else { } }").unwrap();
    let table = [0x01, 0, 12, 0x02, 0, 1, b'a', 0x02, 0, 1, b'b', 0x02, 0, 1, b'c'];
    assert_eq!(bytes[..15], table);
    assert_eq!(bytes[15], 0x30);
}
