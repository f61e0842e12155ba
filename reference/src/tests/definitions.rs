//! Definitions, nodes and scopes: readings 7 to 9, and "How a manifest runs".

use super::*;

fn wall(label: u8, title: &str) -> Field {
    built_in("wall", text(label, title), vec![])
}

/// R7: "The node item is chosen over the whole manifest beforehand": a named
/// one after a default one is it; of several the first; they run where they
/// stand.
#[test]
fn r7_choosing_the_node() {
    let manifest = items(vec![
        wall(1, "before"),
        node_default(vec![wall(2, "default one")]),
        node(&["gym", "desk"], vec![wall(3, "desk one")]),
        node_default(vec![wall(4, "default two")]),
        node(&["desk"], vec![wall(5, "desk two")]),
        wall(6, "after"),
    ]);
    let lines = |middle: &str| format!("wall before - - 1 1\n{middle}wall after - - 1 6\nsteps 3\n");
    assert_eq!(printed("desk", &manifest), lines("wall desk one - - 1 3\n"));
    assert_eq!(printed("gym", &manifest), lines("wall desk one - - 1 3\n"));
    assert_eq!(printed("other", &manifest), lines("wall default one - - 1 2\n"));
    // No string of the table is a device named by a 31 here but "".
    let empty = items(vec![node(&[""], vec![wall(1, "empty")]), node_default(vec![])]);
    assert_eq!(printed("", &empty), "wall empty - - 1 1\nsteps 1\n");
    assert_eq!(printed("wall", &empty), "steps 0\n");
    // Neither named nor default: no node item does anything.
    assert_eq!(
        printed("desk", &items(vec![node(&["gym"], vec![wall(1, "a")])])),
        "steps 0\n"
    );
}

/// R7: "A node item and a definition count no step, and the node's block runs
/// at level 0". "Titles and parameters count no step."
#[test]
fn r7_steps_and_level() {
    let manifest = items(vec![
        type_definition(
            "t",
            vec![parameter("p", Some(int(1, 1))), parameter("q", None)],
            vec![],
        ),
        class_definition("c", None, vec![parameter("p", Some(int(1, 1)))], vec![]),
        node_default(vec![
            defined("t", text(2, "a"), vec![given("q", int(3, 3))]),
            include("c"),
        ]),
    ]);
    check(manifest.with("title"), &["steps 2"]);
    // Level 16 in the node's block passes as it does at the top.
    let mut deep = at_level(16, vec![], vec![defined("last", text(1, "a"), vec![])]);
    let first = deep.items.pop().expect("the declaration");
    deep.items
        .push(type_definition("last", vec![], vec![wall(2, "end")]));
    deep.items.push(node_default(vec![first]));
    check(deep, &["wall end - - 1 2", "steps 18"]);
}

/// Node scope: its parent is the top; top statements don't see it.
#[test]
fn node_scope() {
    let inside = items(vec![
        assign("x", int(1, 1)),
        node_default(vec![assign("x", int(2, 2)), show(var("x"))]),
    ]);
    check(inside, &["kiosk front x 2 2 0,2", "steps 3"]);
    let upward = items(vec![assign("x", int(1, 1)), node_default(vec![show(var("x"))])]);
    check(upward, &["kiosk front x 1 2 0,1", "steps 2"]);
    let outside = items(vec![
        node_default(vec![assign("x", int(2, 2))]),
        show(var("x").at("read")),
    ]);
    refuse(outside, 13, "read");
    let top_only = items(vec![node_default(vec![
        assign("x", int(2, 2)),
        show(top_var("x").at("read")),
    ])]);
    refuse(top_only, 13, "read");
}

/// R8: 8 "covers classes and types alike". It "is given after 5 and before any
/// step" (document 02).
#[test]
fn r8_defined_again() {
    let class = || class_definition("a", None, vec![], vec![]);
    let kind = || type_definition("a", vec![], vec![]);
    refuse(items(vec![class(), class().at("second")]), 8, "second");
    refuse(items(vec![class(), kind().at("second")]), 8, "second");
    refuse(items(vec![kind(), class().at("second")]), 8, "second");
    refuse(items(vec![kind(), kind().at("second")]), 8, "second");
    for name in [
        "kiosk", "tablet", "printer", "scanner", "gate", "screen", "plan", "wall",
    ] {
        refuse(
            items(vec![class_definition(name, None, vec![], vec![]).at("it")]),
            8,
            "it",
        );
        refuse(
            items(vec![type_definition(name, vec![], vec![]).at("it")]),
            8,
            "it",
        );
        check(
            items(vec![built_in(name, text(1, "a"), vec![])]),
            &[&format!("{name} a - - 1 1"), "steps 1"],
        );
    }
    // A statement between them would be refused 9, had it run.
    let between = vec![class(), include("b"), class().at("second")];
    refuse(items(between), 8, "second");
    // A name that is nearly a built-in one is free.
    check(
        items(vec![
            type_definition("kiosks", vec![], vec![]),
            type_definition("kios", vec![], vec![]),
        ]),
        &["steps 0"],
    );
}

/// R8: "A parent is looked up when its child is declared, so it may be defined
/// after the child." Since "looking one up now finds a later one" (document 02),
/// it may be defined after the use too.
#[test]
fn r8_parent_defined_later() {
    let child = || {
        let above = Some(parent("above").at("35"));
        class_definition("child", above, vec![], vec![show(var("x"))])
    };
    let above = || class_definition("above", None, vec![], vec![assign("x", int(1, 1))]);
    // Steps: include, parent, assignment, resource.
    let lines = ["kiosk front x 1 2 0,1", "steps 4"];
    check(items(vec![child(), above(), include("child")]), &lines);
    check(items(vec![child(), include("child"), above()]), &lines);
    refuse(items(vec![child(), include("child")]), 9, "35");
}

/// R9: "Two 33s of one name are no fault of the definition: when it is
/// declared, 12 is asked of each by itself, then the second one's assignment is
/// 14 at the second 33."
#[test]
fn r9_two_parameters_of_one_name() {
    let twice = |first: Option<Field>, second: Option<Field>| {
        type_definition(
            "t",
            vec![
                parameter("p", first).at("first"),
                parameter("p", second).at("second"),
            ],
            vec![],
        )
    };
    let one = || Some(int(1, 1));
    check(items(vec![twice(None, None)]), &["steps 0"]);
    let declare = |values: Vec<Field>| defined("t", text(1, "a"), values);
    refuse(items(vec![twice(None, one()), declare(vec![])]), 12, "first");
    refuse(items(vec![twice(one(), None), declare(vec![])]), 12, "second");
    refuse(items(vec![twice(one(), one()), declare(vec![])]), 14, "second");
    refuse(
        items(vec![twice(None, None), declare(vec![given("p", int(2, 2))])]),
        14,
        "second",
    );
    let class = class_definition(
        "c",
        None,
        vec![parameter("p", one()), parameter("p", one()).at("second")],
        vec![],
    );
    refuse(items(vec![class, include("c")]), 14, "second");
}

/// R9: "A 33 named title in a type is 14 at that 33 ...; in a class it is an
/// ordinary parameter. A 26 named title is a parameter only if a 33 is."
#[test]
fn r9_title_as_a_parameter() {
    let named_title = || parameter("title", Some(text(1, "t"))).at("33");
    let kind = type_definition("t", vec![named_title()], vec![]);
    refuse(items(vec![kind, defined("t", text(1, "a"), vec![])]), 14, "33");
    let class = class_definition("c", None, vec![named_title()], vec![show(var("title"))]);
    check(
        items(vec![class, include("c")]),
        &["kiosk front x t 2 0,1", "steps 2"],
    );
    let plain = type_definition("t", vec![], vec![]);
    let given_title = given("title", int(2, 2)).at("26");
    refuse(
        items(vec![plain, defined("t", text(1, "a"), vec![given_title.clone()])]),
        11,
        "26",
    );
    // With such a 33 and a 26 it is no 11, and 14 as before.
    let kind = type_definition("t", vec![named_title()], vec![]);
    refuse(
        items(vec![kind, defined("t", text(1, "a"), vec![given_title])]),
        14,
        "33",
    );
}

/// "The title goes to the variable "title", or nowhere if the table lacks that
/// string".
#[test]
fn the_title_variable() {
    let body = vec![built_in("wall", var("title"), vec![given("x", var("p"))])];
    let with = items(vec![
        type_definition("t", vec![parameter("p", None)], body),
        defined("t", text(1, "a"), vec![given("p", int(2, 5))]),
    ]);
    check(with, &["wall a x 5 2 1,2", "steps 2"]);
    // Without that string the title needs no cell: 512 are filled and the body
    // runs; with it, the 513th is asked for at the 27.
    let lacking = filled(
        512,
        vec![
            type_definition("t", vec![], vec![]),
            defined("t", text(1, "a"), vec![]).at("27"),
        ],
    );
    check(lacking.clone(), &["steps 513"]);
    refuse(lacking.with("title"), 22, "27");
}

/// "A class's parent is its named parent, or else the base scope of the place
/// that declared it."
#[test]
fn class_scopes() {
    // A class declared in the node has the node above it.
    let below_node = items(vec![
        assign("x", int(1, 1)),
        class_definition("c", None, vec![], vec![show(var("x"))]),
        node_default(vec![assign("x", int(2, 2)), include("c")]),
    ]);
    check(below_node, &["kiosk front x 2 2 0,2", "steps 4"]);
    // Declared at the top first, it has the top above it for good, and the
    // include in the node does nothing past its step.
    let below_top = items(vec![
        assign("x", int(1, 1)),
        class_definition("c", None, vec![], vec![show(var("x"))]),
        include("c"),
        node_default(vec![assign("x", int(2, 2)), include("c")]),
    ]);
    check(below_top, &["kiosk front x 1 2 0,1", "steps 5"]);
    // A class declared in another's body has the base above it, not that class.
    let not_within = items(vec![
        class_definition("inner", None, vec![], vec![show(var("x").at("read"))]),
        class_definition(
            "outer",
            None,
            vec![],
            vec![assign("x", int(1, 1)), include("inner")],
        ),
        include("outer"),
    ]);
    refuse(not_within, 13, "read");
    // Declared in the body of a class of the node, it has the node above it:
    // the class's base is its parent's base.
    let base = items(vec![
        class_definition("inner", None, vec![], vec![show(var("x"))]),
        class_definition("outer", None, vec![], vec![include("inner")]),
        node_default(vec![assign("x", int(2, 2)), include("outer")]),
    ]);
    check(base, &["kiosk front x 2 2 0,2", "steps 4"]);
}

/// "of a class its parent's base": a class declared in the node whose named
/// parent was declared at the top has the top for its base.
#[test]
fn base_goes_by_the_parent() {
    let manifest = items(vec![
        class_definition("above", None, vec![], vec![]),
        class_definition("child", Some(parent("above")), vec![], vec![include("inner")]),
        class_definition("inner", None, vec![], vec![show(var("x").at("read"))]),
        include("above"),
        node_default(vec![assign("x", int(2, 2)), include("child")]),
    ]);
    refuse(manifest, 13, "read");
    // Had the parent not been declared at the top, it would be declared from
    // the node, "from the child's declaring scope".
    let manifest = items(vec![
        class_definition("above", None, vec![], vec![]),
        class_definition("child", Some(parent("above")), vec![], vec![include("inner")]),
        class_definition("inner", None, vec![], vec![show(var("x"))]),
        node_default(vec![assign("x", int(2, 2)), include("child")]),
    ]);
    // Steps: assignment, include, parent, include, resource.
    check(manifest, &["kiosk front x 2 2 0,2", "steps 5"]);
}

/// "of a type body its declarer's base. A type body's parent is its base."
#[test]
fn type_body_scopes() {
    let kind = || type_definition("t", vec![], vec![show(var("x"))]);
    let in_node = items(vec![
        kind(),
        assign("x", int(1, 1)),
        node_default(vec![assign("x", int(2, 2)), defined("t", text(3, "a"), vec![])]),
    ]);
    check(in_node, &["kiosk front x 2 2 0,2", "steps 4"]);
    // A type in a type in the node: the base is the node still.
    let nested = items(vec![
        kind(),
        type_definition(
            "outer",
            vec![parameter("x", None)],
            vec![defined("t", text(3, "a"), vec![])],
        ),
        node_default(vec![
            assign("x", int(2, 2)),
            defined("outer", text(3, "b"), vec![given("x", int(4, 4))]),
        ]),
    ]);
    check(nested, &["kiosk front x 2 2 0,2", "steps 4"]);
}

/// "tries its scope, then the parents upward": through named parents to the
/// top, the nearest value first; "15 the class only".
#[test]
fn reads_upward() {
    let family = |last: Vec<Field>| {
        items(vec![
            assign("x", int(1, 1)),
            assign("y", int(2, 2)),
            class_definition(
                "a",
                None,
                vec![],
                vec![assign("y", int(3, 3)), assign("z", int(4, 4))],
            ),
            class_definition("b", Some(parent("a")), vec![], vec![assign("z", int(5, 5))]),
            class_definition("c", Some(parent("b")), vec![], last),
            include("c"),
        ])
    };
    let read = |names: [&str; 3]| {
        let attributes = names.into_iter().map(|name| given(name, var(name))).collect();
        vec![built_in("gate", text(0, "g"), attributes)]
    };
    let lines = [
        "gate g x 1 2 0,1",
        "gate g y 3 2 0,3",
        "gate g z 5 2 0,5",
        "steps 9",
    ];
    check(family(read(["x", "y", "z"])), &lines);
    refuse(family(vec![show(class_var("b", "y").at("read"))]), 13, "read");
    check(
        family(vec![show(class_var("a", "z"))]),
        &["kiosk front x 4 2 0,4", "steps 9"],
    );
    check(
        family(vec![show(top_var("y"))]),
        &["kiosk front x 2 2 0,2", "steps 9"],
    );
}
