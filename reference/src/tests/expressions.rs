//! Expressions: readings 17 and 18, the operators, selectors.

use super::*;

/// The value of an expression is printed as told, with these labels besides
/// the title's 0.
#[track_caller]
fn value(expression: Field, printed: &str) {
    check(
        items(vec![show(expression)]),
        &[&format!("kiosk front x {printed}"), "steps 1"],
    );
}

/// R17: 15 naming a class that the whole manifest does not define (or a type): 9
/// at the 15; "A class defined and not declared ...: 13 at the 15", now also "of
/// a class defined later".
#[test]
fn r17_class_variable() {
    let read = || show(class_var("c", "x").at("15"));
    let class = || class_definition("c", None, vec![], vec![assign("x", int(1, 7))]);
    refuse(items(vec![read()]), 9, "15");
    refuse(items(vec![read(), class()]), 13, "15");
    refuse(items(vec![type_definition("c", vec![], vec![]), read()]), 9, "15");
    refuse(items(vec![show(class_var("wall", "x").at("15"))]), 9, "15");
    refuse(items(vec![class(), read()]), 13, "15");
    check(
        items(vec![class(), include("c"), read()]),
        &["kiosk front x 7 2 0,1", "steps 3"],
    );
    // Declared, but without that variable; its parent's scope is not tried.
    refuse(
        items(vec![
            assign("y", int(1, 1)),
            class(),
            include("c"),
            show(class_var("c", "y").at("15")),
        ]),
        13,
        "15",
    );
}

/// R17: "also while its parent is being declared"; while its own body runs it
/// is declared.
#[test]
fn r17_during_declaration() {
    let during = items(vec![
        class_definition("above", None, vec![], vec![show(class_var("c", "p").at("15"))]),
        class_definition(
            "c",
            Some(parent("above")),
            vec![parameter("p", Some(int(1, 1)))],
            vec![],
        ),
        include("c"),
    ]);
    refuse(during, 13, "15");
    let inside = items(vec![
        class_definition(
            "c",
            None,
            vec![parameter("p", Some(int(1, 1)))],
            vec![show(class_var("c", "p"))],
        ),
        include("c"),
    ]);
    check(inside, &["kiosk front x 1 2 0,1", "steps 2"]);
}

/// R18: the title and its kind, then 9, then 19.
#[test]
fn r18_attribute_read() {
    let read = |kind: &str, title: Field| show(attribute_of(kind, "p", title).at("18"));
    let wall = || built_in("wall", text(1, "a"), vec![given("p", int(2, 5))]);
    refuse(items(vec![read("none", var("unset").at("title"))]), 13, "title");
    refuse(items(vec![read("none", int(1, 1).at("title"))]), 15, "title");
    refuse(items(vec![read("none", text(1, "a"))]), 9, "18");
    let class = class_definition("none", None, vec![], vec![]);
    refuse(items(vec![class, read("none", text(1, "a"))]), 9, "18");
    // "A defined type is known, and never in the catalog: 19."
    let kind = || type_definition("t", vec![parameter("p", Some(int(1, 1)))], vec![]);
    refuse(
        items(vec![
            kind(),
            defined("t", text(1, "a"), vec![]),
            read("t", text(1, "a")),
        ]),
        19,
        "18",
    );
    // "an 18 of a type defined later is 19".
    refuse(items(vec![read("t", text(1, "a")), kind()]), 19, "18");
    // The resource, or its attribute, is not there.
    refuse(items(vec![wall(), read("gate", text(1, "a"))]), 19, "18");
    refuse(items(vec![wall(), read("wall", text(1, "b"))]), 19, "18");
    refuse(
        items(vec![
            wall(),
            show(attribute_of("wall", "q", text(1, "a")).at("18")),
        ]),
        19,
        "18",
    );
    // "an attribute read's is title expression and attribute": 3 is the title's
    // here, 1 and 2 the attribute's.
    let lines = ["wall a p 5 2 1,2", "kiosk front x 5 4 0,1,2,3", "steps 2"];
    check(items(vec![wall(), read("wall", text(3, "a"))]), &lines);
    // A resource's own attribute isn't in the catalog while it is evaluated.
    let own = built_in(
        "wall",
        text(1, "a"),
        vec![
            given("p", int(2, 5)),
            given("q", attribute_of("wall", "p", text(1, "a")).at("18")),
        ],
    );
    refuse(items(vec![own]), 19, "18");
}

/// "an operator's is the union over operands evaluated".
#[test]
fn operators() {
    value(binary(ADD, int(1, 2), int(2, 3)), "5 3 0,1,2");
    value(binary(SUBTRACT, int(1, 2), int(2, 3)), "-1 3 0,1,2");
    value(binary(GREATER, int(1, 2), int(2, 3)), "false 3 0,1,2");
    value(binary(GREATER, int(1, 3), int(2, 2)), "true 3 0,1,2");
    value(binary(GREATER, int(1, 3), int(2, 3)), "false 3 0,1,2");
    value(not(boolean(1, true)), "false 2 0,1");
    value(binary(AND, boolean(1, true), boolean(2, true)), "true 3 0,1,2");
    value(binary(AND, boolean(1, true), boolean(2, false)), "false 3 0,1,2");
    value(binary(AND, boolean(1, false), boolean(2, true)), "false 2 0,1");
    value(binary(OR, boolean(1, true), boolean(2, false)), "true 2 0,1");
    value(binary(OR, boolean(1, false), boolean(2, false)), "false 3 0,1,2");
    value(binary(OR, boolean(1, false), boolean(2, true)), "true 3 0,1,2");
    value(
        binary(ADD, int(1, i64::MAX - 1), int(2, 1)),
        "9223372036854775807 3 0,1,2",
    );
    value(
        binary(SUBTRACT, int(1, i64::MIN + 1), int(2, 1)),
        "-9223372036854775808 3 0,1,2",
    );
}

/// "= takes any two values, unequal if of unlike kinds"; both sides are always
/// evaluated.
#[test]
fn equality() {
    value(binary(EQUAL, int(1, 2), int(2, 2)), "true 3 0,1,2");
    value(binary(EQUAL, int(1, 2), int(2, 3)), "false 3 0,1,2");
    value(binary(EQUAL, text(1, "a"), text(2, "a")), "true 3 0,1,2");
    value(binary(EQUAL, text(1, "a"), text(2, "b")), "false 3 0,1,2");
    value(
        binary(EQUAL, boolean(1, false), boolean(2, false)),
        "true 3 0,1,2",
    );
    value(
        binary(EQUAL, boolean(1, true), boolean(2, false)),
        "false 3 0,1,2",
    );
    value(binary(EQUAL, int(1, 1), boolean(2, true)), "false 3 0,1,2");
    value(binary(EQUAL, int(1, 0), boolean(2, false)), "false 3 0,1,2");
    // "front" is string 0 of this table, and 0 the integer.
    value(binary(EQUAL, text(1, "front"), int(2, 0)), "false 3 0,1,2");
    refuse(
        items(vec![show(binary(EQUAL, int(1, 1), var("unset").at("right")))]),
        13,
        "right",
    );
}

/// Patterns are tried in written order, a default "only after every other
/// pattern"; 18 at the selector where none matches.
#[test]
fn selectors() {
    let arms = || {
        vec![
            (int(2, 1), text(5, "one")),
            (int(3, 2), text(6, "two")),
            (default(), text(7, "more")),
            (int(4, 3), text(8, "three")),
        ]
    };
    value(select(int(1, 1), arms()), "one 4 0,1,2,5");
    value(select(int(1, 2), arms()), "two 5 0,1,2,3,6");
    // 3 is written after the default and tried before it.
    value(select(int(1, 3), arms()), "three 6 0,1,2,3,4,8");
    value(select(int(1, 4), arms()), "more 6 0,1,2,3,4,7");
    let none = select(int(1, 9), vec![(int(2, 1), var("unset"))]).at("19");
    refuse(items(vec![show(none)]), 18, "19");
    // The scrutinee is evaluated first, and only the chosen expression then.
    let first = select(var("unset").at("scrutinee"), vec![(int(2, 1), int(3, 3))]);
    refuse(items(vec![show(first)]), 13, "scrutinee");
    value(
        select(int(1, 1), vec![(int(2, 2), var("unset")), (default(), int(3, 3))]),
        "3 4 0,1,2,3",
    );
}

/// "A plain read ... 14 tries top only": 13 where there is no value.
#[test]
fn reads_without_value() {
    refuse(items(vec![show(var("y").at("13"))]), 13, "13");
    refuse(items(vec![show(top_var("y").at("14"))]), 13, "14");
    refuse(
        items(vec![show(var("y").at("13")), assign("y", int(1, 1))]),
        13,
        "13",
    );
    check(
        items(vec![assign("y", int(1, 1)), show(top_var("y"))]),
        &["kiosk front x 1 2 0,1", "steps 2"],
    );
}
