//! Order within a statement: readings 10 to 16, steps and levels. Where two
//! faults stand in one statement, the earlier of the reading's list is given.

use super::*;

/// An expression refused 13, with the mark.
fn unset(mark: &'static str) -> Field {
    var("unset").at(mark)
}

fn one() -> Field {
    int(1, 1)
}

fn twice_named() -> Vec<Field> {
    vec![given("p", one()), given("p", one()).at("second")]
}

/// R10: 6, then the title.
#[test]
fn r10_steps_before_the_title() {
    refuse_limited(
        items(vec![built_in("wall", unset("title"), vec![]).at("25")]),
        0,
        6,
        "25",
    );
    refuse_limited(
        items(vec![built_in("wall", unset("title"), vec![]).at("25")]),
        1,
        13,
        "title",
    );
}

/// R10: the title and its 15 before the attributes.
#[test]
fn r10_title_before_attributes() {
    refuse(
        items(vec![built_in(
            "wall",
            unset("title"),
            vec![given("p", unset("value"))],
        )]),
        13,
        "title",
    );
    refuse(
        items(vec![built_in(
            "wall",
            one().at("title"),
            vec![given("p", unset("value"))],
        )]),
        15,
        "title",
    );
}

/// R10: attributes in order, then 9, 20, 21, 23.
#[test]
fn r10_attributes_then_checks() {
    let first = built_in(
        "wall",
        text(1, "a"),
        vec![given("p", unset("one")), given("q", unset("two"))],
    );
    refuse(items(vec![first]), 13, "one");
    let second = built_in(
        "none",
        text(1, "a"),
        vec![given("p", one()), given("q", unset("two"))],
    );
    refuse(items(vec![second]), 13, "two");
    refuse(
        items(vec![built_in("none", text(1, "a"), twice_named()).at("25")]),
        9,
        "25",
    );
    // A 25 takes built-in types only, not defined ones or classes.
    let definitions = [
        type_definition("t", vec![], vec![]),
        class_definition("t", None, vec![], vec![]),
    ];
    for definition in definitions {
        refuse(
            items(vec![definition, built_in("t", text(1, "a"), vec![]).at("25")]),
            9,
            "25",
        );
    }
    let there = || built_in("wall", text(1, "a"), vec![]);
    refuse(
        items(vec![
            there(),
            built_in("wall", text(2, "a"), twice_named()).at("25"),
        ]),
        20,
        "25",
    );
    // The same title with another type, and another title, are other resources.
    let others = items(vec![
        there(),
        built_in("gate", text(2, "a"), vec![]),
        built_in("wall", text(3, "b"), vec![]),
    ]);
    check(
        others,
        &["wall a - - 1 1", "gate a - - 1 2", "wall b - - 1 3", "steps 3"],
    );
}

/// R10: 21 before 23; 23 at the 25. An entry with one integer attribute has 39
/// + 48 = 87 bytes.
#[test]
fn r10_twice_named_before_the_output() {
    let lent = |manifest: &Manifest, output: usize| {
        let mut case = Case::of(manifest.build().bytes);
        case.output = output;
        case.compile().expect("clean").0
    };
    let twice = items(vec![built_in("wall", text(1, "a"), twice_named())]);
    let place = twice.build().place("second");
    assert_eq!(lent(&twice, 0), Answer::Refused { number: 21, place });
    let single = items(vec![
        assign("y", one()),
        built_in("wall", text(1, "a"), vec![given("p", one())]).at("25"),
    ]);
    let place = single.build().place("25");
    assert_eq!(lent(&single, 86), Answer::Refused { number: 23, place });
    assert_eq!(lent(&single, 0), Answer::Refused { number: 23, place });
    assert_eq!(lent(&single, 87), Answer::Catalog { length: 87, steps: 2 });
}

/// A type t with parameter p, no default.
fn t_with_p() -> Field {
    type_definition("t", vec![parameter("p", None).at("33")], vec![])
}

/// R11: 6; title and its 15; attributes.
#[test]
fn r11_parts() {
    let bad_both = |title: Field| defined("none", title, vec![given("q", unset("value"))]).at("27");
    refuse_limited(items(vec![bad_both(unset("title"))]), 0, 6, "27");
    refuse(items(vec![bad_both(unset("title"))]), 13, "title");
    refuse(items(vec![bad_both(one().at("title"))]), 15, "title");
    refuse(items(vec![bad_both(text(1, "a"))]), 13, "value");
}

/// R11: 7, 9, 11, 12, 21 after the parts. Each case has all later faults too.
#[test]
fn r11_checks() {
    // At level 17: the attributes come first, then 7, then the rest.
    let wrong = |values: Vec<Field>| defined("none", text(1, "a"), values).at("27");
    refuse(
        at_level(17, vec![], vec![wrong(vec![given("q", unset("value"))])]),
        13,
        "value",
    );
    refuse(at_level(17, vec![], vec![wrong(vec![])]), 7, "27");
    refuse(at_level(16, vec![], vec![wrong(vec![])]), 9, "27");
    // 9: unknown, a class, a built-in type.
    refuse(items(vec![wrong(twice_named())]), 9, "27");
    let class = class_definition("none", None, vec![], vec![]);
    refuse(items(vec![class, wrong(twice_named())]), 9, "27");
    refuse(
        items(vec![defined("wall", text(1, "a"), twice_named()).at("27")]),
        9,
        "27",
    );
    // 11 before 12 and 21: p is missing, q is unknown and named twice.
    let unknown = vec![given("q", one()).at("26"), given("q", one())];
    refuse(
        items(vec![t_with_p(), defined("t", text(1, "a"), unknown)]),
        11,
        "26",
    );
    // Several 11: the first by place.
    let several = vec![given("p", one()), given("r", one()).at("26"), given("q", one())];
    refuse(
        items(vec![t_with_p(), defined("t", text(1, "a"), several)]),
        11,
        "26",
    );
    // 12 before 21: o is missing, p is named twice.
    let two = type_definition(
        "t",
        vec![parameter("p", None), parameter("o", None).at("33")],
        vec![],
    );
    refuse(
        items(vec![two, defined("t", text(1, "a"), twice_named())]),
        12,
        "33",
    );
    // Several 12: the first by place.
    let three = type_definition(
        "t",
        vec![parameter("p", None).at("33"), parameter("o", None)],
        vec![],
    );
    refuse(items(vec![three, defined("t", text(1, "a"), vec![])]), 12, "33");
    // 21 before the title's 22: all 512 cells are filled.
    let full = filled(512, vec![t_with_p(), defined("t", text(1, "a"), twice_named())]);
    refuse(full.with("title"), 21, "second");
}

/// R11: the title's 22 at the 27, then each 33's 14 and 22 at the 33.
#[test]
fn r11_assigning() {
    let declare = || defined("t", text(1, "a"), vec![given("p", one())]).at("27");
    refuse(filled(512, vec![t_with_p(), declare()]).with("title"), 22, "27");
    refuse(filled(511, vec![t_with_p(), declare()]).with("title"), 22, "33");
    check(
        filled(510, vec![t_with_p(), declare()]).with("title"),
        &["steps 511"],
    );
    refuse(filled(512, vec![t_with_p(), declare()]), 22, "33");
    // With one cell left for p, the second p is 14, not 22.
    let twice = type_definition(
        "t",
        vec![parameter("p", None), parameter("p", None).at("again")],
        vec![],
    );
    refuse(filled(511, vec![twice, declare()]), 14, "again");
    // 14 of an earlier 33 comes before 22 of a later one.
    let parameters = vec![
        parameter("p", None),
        parameter("p", None).at("again"),
        parameter("q", Some(one())),
    ];
    refuse(
        filled(511, vec![type_definition("t", parameters, vec![]), declare()]),
        14,
        "again",
    );
}

/// R12: 6; attributes; 7; 9; 10; 11; 12; 21.
#[test]
fn r12_checks() {
    let class = |parameters: Vec<Field>| class_definition("c", None, parameters, vec![]);
    let wrong = |values: Vec<Field>| class_with("none", values).at("28");
    refuse_limited(items(vec![wrong(vec![given("q", unset("value"))])]), 0, 6, "28");
    refuse(
        at_level(17, vec![], vec![wrong(vec![given("q", unset("value"))])]),
        13,
        "value",
    );
    refuse(at_level(17, vec![], vec![wrong(vec![])]), 7, "28");
    refuse(at_level(16, vec![], vec![wrong(twice_named())]), 9, "28");
    refuse(
        items(vec![type_definition("none", vec![], vec![]), wrong(vec![])]),
        9,
        "28",
    );
    // "any 28": 7 also for a declared class, before its 10.
    let again = || class_with("c", twice_named()).at("28");
    refuse(
        at_level(17, vec![class(vec![]), include("c")], vec![again()]),
        7,
        "28",
    );
    refuse(
        at_level(16, vec![class(vec![]), include("c")], vec![again()]),
        10,
        "28",
    );
    // 10 before 11, 12 and 21.
    let needy = || class(vec![parameter("p", Some(one())), parameter("o", Some(one()))]);
    refuse(
        items(vec![
            needy(),
            include("c"),
            class_with("c", vec![given("q", one())]).at("28"),
        ]),
        10,
        "28",
    );
    // 11 before 12, 12 before 21.
    let lacking = || class(vec![parameter("p", None), parameter("o", None).at("33")]);
    refuse(
        items(vec![
            lacking(),
            class_with("c", vec![given("q", one()).at("26"), given("q", one())]),
        ]),
        11,
        "26",
    );
    refuse(items(vec![lacking(), class_with("c", twice_named())]), 12, "33");
    let defaults = || class(vec![parameter("p", None)]);
    refuse(
        items(vec![defaults(), class_with("c", twice_named())]),
        21,
        "second",
    );
}

/// R12: 21 before the parent; the parent before the second look; that before
/// the 33s.
#[test]
fn r12_parent_and_second_look() {
    let child = |parameters: Vec<Field>| {
        class_definition("child", Some(parent("above").at("35")), parameters, vec![])
    };
    let p = || parameter("p", Some(one()));
    refuse(
        items(vec![child(vec![p()]), class_with("child", twice_named())]),
        21,
        "second",
    );
    refuse(
        items(vec![child(vec![p()]), class_with("child", vec![])]),
        9,
        "35",
    );
    // The parent's body includes the child: declared meanwhile, so the 28 is 10,
    // before the 14 that its two 33s would be.
    let above = class_definition("above", None, vec![], vec![include("child")]);
    refuse(
        items(vec![
            child(vec![p()]),
            above.clone(),
            class_with("child", vec![]).at("28"),
        ]),
        10,
        "28",
    );
    // A fault in the parent's body comes before the second look.
    let faulty = class_definition(
        "above",
        None,
        vec![],
        vec![include("child"), assign("y", unset("body"))],
    );
    refuse(
        items(vec![child(vec![]), faulty, class_with("child", vec![])]),
        13,
        "body",
    );
}

/// "then looks again: if the class was declared meanwhile, an include ... does
/// nothing more". The child is declared once, by the include in its parent's
/// body, where the parent is declared already.
#[test]
fn looks_again_for_an_include() {
    let child = class_definition(
        "child",
        Some(parent("above")),
        vec![],
        vec![built_in("wall", text(1, "child"), vec![given("x", var("x"))])],
    );
    let above = class_definition(
        "above",
        None,
        vec![],
        vec![
            assign("x", int(2, 2)),
            include("child"),
            built_in("wall", text(3, "above"), vec![]),
        ],
    );
    // Steps: include, parent, assignment, include, wall, wall.
    let lines = ["wall child x 2 2 1,2", "wall above - - 1 3", "steps 6"];
    check(items(vec![child, above, include("child")]), &lines);
}

/// "or a parent's declaration does nothing more": a inherits b, b inherits c,
/// and c's body includes b. Including a declares b as a's parent, c as b's
/// parent; c's body declares b; b's declaration as a parent then does nothing
/// more, and a goes on.
#[test]
fn looks_again_for_a_parent() {
    let wall = |title: &str| built_in("wall", text(1, title), vec![]);
    let manifest = items(vec![
        class_definition("a", Some(parent("b")), vec![], vec![wall("a")]),
        class_definition("b", Some(parent("c")), vec![], vec![wall("b")]),
        class_definition("c", None, vec![], vec![include("b"), wall("c")]),
        include("a"),
    ]);
    // Steps: include a, parent b, parent c, include b, wall b, wall c, wall a.
    check(
        manifest,
        &["wall b - - 1 1", "wall c - - 1 1", "wall a - - 1 1", "steps 7"],
    );
}

/// A class declared during its parent's declaration belongs where that
/// statement stood: here the parent's body is in the node's family, as is the
/// child. A second look doesn't run the body or assign parameters again.
#[test]
fn looks_again_keeps_the_first_parameters() {
    let manifest = items(vec![
        class_definition(
            "child",
            Some(parent("above")),
            vec![parameter("p", Some(int(1, 1)))],
            vec![show(var("p"))],
        ),
        class_definition(
            "above",
            None,
            vec![],
            vec![class_with("child", vec![given("p", int(2, 2))])],
        ),
        include("child"),
    ]);
    // Steps: include, parent, 28, resource. The 28 inside finds the parent
    // declared and the child not, so it declares it.
    check(manifest, &["kiosk front x 2 2 0,2", "steps 4"]);
}

/// R13: "a declared class ends it there, at any level; otherwise 7; 9; 12; the
/// parent".
#[test]
fn r13_include() {
    let class = |parameters: Vec<Field>| class_definition("c", None, parameters, vec![]);
    refuse_limited(
        items(vec![class(vec![]), include("c"), include("c").at("29")]),
        1,
        6,
        "29",
    );
    // At level 17: steps are 17 types, the include before them, the one inside.
    check(
        at_level(17, vec![class(vec![]), include("c")], vec![include("c")]),
        &["steps 19"],
    );
    refuse(
        at_level(17, vec![class(vec![])], vec![include("c").at("29")]),
        7,
        "29",
    );
    refuse(at_level(17, vec![], vec![include("none").at("29")]), 7, "29");
    refuse(at_level(16, vec![], vec![include("none").at("29")]), 9, "29");
    refuse(
        items(vec![type_definition("c", vec![], vec![]), include("c").at("29")]),
        9,
        "29",
    );
    refuse(items(vec![include("wall").at("29")]), 9, "29");
    let lacking = class_definition(
        "c",
        Some(parent("none").at("35")),
        vec![parameter("p", None).at("33")],
        vec![],
    );
    refuse(items(vec![lacking, include("c")]), 12, "33");
    let orphan = class_definition(
        "c",
        Some(parent("none").at("35")),
        vec![parameter("p", Some(one()))],
        vec![],
    );
    refuse(items(vec![orphan, include("c")]), 9, "35");
}

/// R14: "An undeclared parent: 6, 7 and 9 at the 35, in this order, also where
/// it is unknown; then 12 at its own 33s, then its own parent."
#[test]
fn r14_undeclared_parent() {
    let orphan = || class_definition("c", Some(parent("none").at("35")), vec![], vec![]);
    refuse_limited(items(vec![orphan(), include("c")]), 1, 6, "35");
    refuse_limited(items(vec![orphan(), include("c")]), 2, 9, "35");
    // The include at level 16 declares its parent at level 17.
    refuse(at_level(16, vec![orphan()], vec![include("c")]), 7, "35");
    refuse(at_level(15, vec![orphan()], vec![include("c")]), 9, "35");
    // With steps for the 16 types and the include only, 6 comes before 7.
    refuse_limited(at_level(16, vec![orphan()], vec![include("c")]), 17, 6, "35");
    let of_type = items(vec![
        type_definition("none", vec![], vec![]),
        orphan(),
        include("c"),
    ]);
    refuse(of_type, 9, "35");
    let built_in_parent = class_definition("c", Some(parent("wall").at("35")), vec![], vec![]);
    refuse(items(vec![built_in_parent, include("c")]), 9, "35");
    // 12 at the parent's own 33, before its own parent.
    let above = class_definition(
        "above",
        Some(parent("none")),
        vec![parameter("p", None).at("33")],
        vec![],
    );
    let child = || class_definition("c", Some(parent("above")), vec![], vec![]);
    refuse(items(vec![above, child(), include("c")]), 12, "33");
    let above = class_definition("above", Some(parent("none").at("own")), vec![], vec![]);
    refuse(items(vec![above, child(), include("c")]), 9, "own");
}

/// R14: "A declared parent: no step, no check": also at level 16, where an
/// undeclared one would be 7.
#[test]
fn r14_declared_parent() {
    let above = class_definition("above", None, vec![], vec![]);
    let child = class_definition("c", Some(parent("above")), vec![], vec![show(one())]);
    // Steps: include, 16 types, include, resource.
    let manifest = at_level(16, vec![above, child, include("above")], vec![include("c")]);
    check(manifest, &["kiosk front x 1 2 0,1", "steps 19"]);
}

/// R14: "A statement at level L declares at L and its body runs at L+1; its
/// parent is declared at L+1, from the same declaring scope, and runs at L+2."
#[test]
fn r14_levels() {
    let end = || class_definition("end", None, vec![], vec![]);
    // The parent of a class declared at 14 is declared at 15 and runs at 16,
    // where a declaration passes; one level deeper it runs at 17 and does not.
    let above = || class_definition("above", None, vec![], vec![include("end").at("last")]);
    let child = || class_definition("c", Some(parent("above")), vec![], vec![]);
    check(
        at_level(14, vec![end(), above(), child()], vec![include("c")]),
        &["steps 17"],
    );
    refuse(
        at_level(15, vec![end(), above(), child()], vec![include("c")]),
        7,
        "last",
    );
    // The child's own body runs at 16 and at 17.
    let body = || class_definition("c", None, vec![], vec![include("end").at("last")]);
    check(
        at_level(15, vec![end(), body()], vec![include("c")]),
        &["steps 17"],
    );
    refuse(at_level(16, vec![end(), body()], vec![include("c")]), 7, "last");
    refuse(
        at_level(16, vec![end(), body()], vec![class_with("c", vec![])]),
        7,
        "last",
    );
    // A body may run at 17 as long as it declares nothing.
    let quiet = class_definition("c", None, vec![], vec![show(one())]);
    check(
        at_level(16, vec![quiet], vec![include("c")]),
        &["kiosk front x 1 2 0,1", "steps 18"],
    );
}

/// A chain of parents: from level 0, 16 of them pass and the 17th is 7.
#[test]
fn r14_chain_of_parents() {
    let chain = |length: usize| {
        let name = |at: usize| format!("c{at:02}");
        let mut classes: Vec<Field> = (0..length)
            .map(|at| class_definition(name(at), Some(parent(name(at + 1))), vec![], vec![]))
            .collect();
        if let Some(last) = classes.pop() {
            let at = length - 1;
            drop(last);
            classes.push(class_definition(
                name(at),
                Some(parent(name(length)).at("last")),
                vec![],
                vec![],
            ));
        }
        classes.push(class_definition(name(length), None, vec![], vec![]));
        classes.push(include(name(0)));
        items(classes)
    };
    check(chain(16), &["steps 17"]);
    refuse(chain(17), 7, "last");
}

/// R15: assignment: 6; value; 14; 22.
#[test]
fn r15_assignment() {
    refuse_limited(items(vec![assign("x", unset("value")).at("21")]), 0, 6, "21");
    refuse(
        items(vec![assign("x", one()), assign("x", unset("value"))]),
        13,
        "value",
    );
    refuse(
        items(vec![assign("x", one()), assign("x", one()).at("21")]),
        14,
        "21",
    );
    // With all cells filled, a name that has one is 14 and a new one 22.
    refuse(filled(512, vec![assign("fill000", one()).at("21")]), 14, "21");
    refuse(filled(512, vec![assign("x", unset("value"))]), 13, "value");
    refuse(filled(512, vec![assign("x", one()).at("21")]), 22, "21");
    check(filled(511, vec![assign("x", one())]), &["steps 512"]);
    // The same name in another scope is another variable: "in this scope".
    let shadow = items(vec![
        assign("x", one()),
        node_default(vec![assign("x", int(2, 2)), show(var("x"))]),
    ]);
    check(shadow, &["kiosk front x 2 2 0,2", "steps 3"]);
}

/// R15: if and case: 6; condition (and its 15 for an if); 22 for the marks, at
/// the condition statement, before the branch runs.
#[test]
fn r15_conditions() {
    let branch = || vec![assign("x", unset("inside"))];
    refuse_limited(
        items(vec![if_else(unset("condition"), vec![], vec![]).at("22")]),
        0,
        6,
        "22",
    );
    refuse(
        items(vec![if_else(unset("condition"), branch(), vec![])]),
        13,
        "condition",
    );
    refuse(
        filled(512, vec![if_else(one().at("condition"), branch(), vec![])]),
        15,
        "condition",
    );
    refuse(
        filled(512, vec![if_else(boolean(1, true), branch(), vec![]).at("22")]),
        22,
        "22",
    );
    refuse(
        filled(511, vec![if_else(boolean(1, true), branch(), vec![])]),
        13,
        "inside",
    );
    // Also for the branch not taken.
    refuse(
        filled(512, vec![if_else(boolean(1, false), branch(), vec![]).at("22")]),
        22,
        "22",
    );
    refuse_limited(items(vec![case(unset("condition"), vec![]).at("23")]), 0, 6, "23");
    refuse(
        filled(512, vec![case(one(), vec![(int(2, 5), branch())]).at("23")]),
        22,
        "23",
    );
    // A case's expression may be of any kind: there is no 15.
    check(
        items(vec![case(one(), vec![]), case(text(1, "a"), vec![])]),
        &["steps 2"],
    );
}

/// R15: "of three attributes with one name, 21 is at the second"; of several,
/// "the first by place".
#[test]
fn r15_several() {
    let three = vec![
        given("p", one()),
        given("p", one()).at("second"),
        given("p", one()),
    ];
    refuse(items(vec![built_in("wall", text(1, "a"), three)]), 21, "second");
    let two_pairs = vec![
        given("p", one()),
        given("q", one()),
        given("q", one()).at("second"),
        given("p", one()),
    ];
    refuse(
        items(vec![built_in("wall", text(1, "a"), two_pairs)]),
        21,
        "second",
    );
}

/// R16: "The kind of a left operand is checked before the right one is
/// evaluated."
#[test]
fn r16_left_before_right() {
    for operator in [ADD, SUBTRACT, DIVIDE, GREATER] {
        let left = binary(operator, boolean(1, true).at("left"), unset("right"));
        refuse(items(vec![assign("x", left)]), 15, "left");
        let right = binary(operator, one(), boolean(1, true).at("right"));
        refuse(items(vec![assign("x", right)]), 15, "right");
        refuse(
            items(vec![assign(
                "x",
                binary(operator, text(1, "a").at("left"), one()),
            )]),
            15,
            "left",
        );
    }
    for (operator, going_on) in [(AND, true), (OR, false)] {
        let left = binary(operator, one().at("left"), unset("right"));
        refuse(items(vec![assign("x", left)]), 15, "left");
        let right = binary(operator, boolean(1, going_on), one().at("right"));
        refuse(items(vec![assign("x", right)]), 15, "right");
        // Skipped, the right side may be of any kind.
        check(
            items(vec![assign("x", binary(operator, boolean(1, !going_on), one()))]),
            &["steps 1"],
        );
    }
    refuse(items(vec![assign("x", not(one().at("operand")))]), 15, "operand");
    // A wrong kind on the right is met before a zero divisor is.
    let both = binary(DIVIDE, one(), binary(EQUAL, one(), one()).at("right"));
    refuse(items(vec![assign("x", both)]), 15, "right");
}

/// R16: "The place of a 15 is the operand, condition or title field itself,
/// also where a selector or variable yields the value."
#[test]
fn r16_place_of_15() {
    let chosen = select(one(), vec![(default(), one())]).at("part");
    refuse(items(vec![assign("x", not(chosen.clone()))]), 15, "part");
    refuse(items(vec![if_else(chosen.clone(), vec![], vec![])]), 15, "part");
    refuse(items(vec![built_in("wall", chosen, vec![])]), 15, "part");
    refuse(
        items(vec![assign("x", one()), assign("y", not(var("x").at("part")))]),
        15,
        "part",
    );
    // A title of an 18 too.
    refuse(
        items(vec![assign("x", attribute_of("wall", "p", one().at("part")))]),
        15,
        "part",
    );
}

/// "each statement begun counts one, again each time; blocks count nothing".
#[test]
fn steps_of_bodies_run_again() {
    let kind = type_definition(
        "t",
        vec![],
        vec![
            assign("x", one()),
            if_else(boolean(1, true), vec![assign("y", one())], vec![]),
        ],
    );
    let twice = items(vec![
        kind,
        defined("t", text(1, "a"), vec![]),
        defined("t", text(1, "a"), vec![]),
    ]);
    // Each declaration is one step and its body three.
    check(twice.clone(), &["steps 8"]);
    assert_eq!(answer_limited(&twice, 8), Answer::Catalog { length: 0, steps: 8 });
    assert!(matches!(
        answer_limited(&twice, 7),
        Answer::Refused { number: 6, .. }
    ));
    // Limit 0 allows a manifest without statements.
    let none = items(vec![class_definition("c", None, vec![], vec![])]);
    assert_eq!(answer_limited(&none, 0), Answer::Catalog { length: 0, steps: 0 });
}

/// The deepest a run can go: 17 bodies, in each 14 ifs around one statement,
/// at depth 31 with a constant at 32. Steps: the first declaration, 15 in each
/// of 17 bodies, the resource. The ifs' label 1 is in the trail.
#[test]
fn deepest_nesting() {
    let nested = |statement: Field| {
        (0..14).fold(statement, |inner, _| {
            if_else(boolean(1, true), vec![inner], vec![])
        })
    };
    let declare = |at: usize| defined(format!("t{at:02}"), text(2, "a"), vec![]);
    let mut list: Vec<Field> = (0..16)
        .map(|at| type_definition(format!("t{at:02}"), vec![], vec![nested(declare(at + 1))]))
        .collect();
    list.push(type_definition("t16", vec![], vec![nested(assign("y", one()))]));
    list.extend([declare(0), show(int(3, 3))]);
    check(items(list), &["kiosk front x 3 3 0,1,3", "steps 257"]);
}
