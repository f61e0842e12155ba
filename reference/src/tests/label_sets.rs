//! Label sets and cells: readings 19 to 23.

use super::*;

fn no(label: u8) -> Field {
    boolean(label, false)
}

fn yes(label: u8) -> Field {
    boolean(label, true)
}

/// R19: "A case without a match runs no block; its marks and its trail are
/// joined all the same." The pattern tried (2) is in the condition's set.
#[test]
fn r19_case_without_a_match() {
    let marks = items(vec![
        assign("y", int(3, 3)),
        case(int(1, 1), vec![(int(2, 2), vec![assign("y", int(4, 4))])]),
        show(var("y")),
    ]);
    check(marks, &["kiosk front x 3 4 0,1,2,3", "steps 3"]);
    let trail = items(vec![
        class_definition("c", None, vec![], vec![]),
        case(int(1, 1), vec![(int(2, 2), vec![include("c")])]),
        show(int(3, 3)),
    ]);
    check(trail, &["kiosk front x 3 4 0,1,2,3", "steps 2"]);
}

/// "It joins the mark ... of each name assigned anywhere in any of its
/// branches, taken or not, nested conditions included."
#[test]
fn marks_of_branches_not_taken() {
    // The branch not taken would assign y; so would one nested in it. The inner
    // condition (2) is never tested, so 2 is in no set.
    let nested = if_else(no(2), vec![assign("y", int(4, 4))], vec![]);
    let manifest = items(vec![
        assign("y", int(3, 3)),
        node_default(vec![if_else(yes(1), vec![], vec![nested]), show(var("y"))]),
    ]);
    check(manifest, &["kiosk front x 3 3 0,1,3", "steps 3"]);
    // Taken: 1 joins the mark of y and the path; the inner test has 1 and 2.
    let nested = if_else(no(2), vec![assign("y", int(4, 4))], vec![]);
    let manifest = items(vec![
        assign("y", int(3, 3)),
        node_default(vec![if_else(yes(1), vec![nested], vec![]), show(var("y"))]),
    ]);
    check(manifest, &["kiosk front x 3 4 0,1,2,3", "steps 4"]);
}

/// A mark belongs to the current scope: the top's name is not marked by a
/// condition in the node, and the node's mark is met on the way up only.
#[test]
fn marks_belong_to_a_scope() {
    let manifest = items(vec![
        assign("y", int(3, 3)),
        node_default(vec![
            if_else(no(1), vec![assign("y", int(4, 4))], vec![]),
            built_in("wall", text(5, "plain"), vec![given("y", var("y"))]),
            built_in("wall", text(6, "top"), vec![given("y", top_var("y"))]),
        ]),
        built_in("wall", text(7, "after"), vec![given("y", var("y"))]),
    ]);
    let lines = [
        "wall plain y 3 3 1,3,5",
        "wall top y 3 2 3,6",
        "wall after y 3 2 3,7",
        "steps 5",
    ];
    check(manifest, &lines);
}

/// Marks are joined whenever the condition stands, also after the value is.
#[test]
fn marks_after_the_assignment() {
    let manifest = items(vec![
        assign("y", int(3, 3)),
        if_else(no(1), vec![assign("y", int(4, 4))], vec![]),
        show(var("y")),
    ]);
    check(manifest, &["kiosk front x 3 3 0,1,3", "steps 3"]);
}

/// R20: "Titles, parameters and what a declared body assigns are in other
/// scopes": a branch that declares marks no name of the bodies, but adds to
/// the trail.
#[test]
fn r20_marks_of_assignments_in_the_text() {
    let manifest = items(vec![
        type_definition(
            "t",
            vec![parameter("y", Some(int(5, 5)))],
            vec![assign("z", int(6, 6))],
        ),
        assign("y", int(3, 3)),
        built_in("wall", text(7, "before"), vec![given("y", var("y"))]),
        if_else(
            no(1),
            vec![defined("t", text(8, "a"), vec![given("y", int(9, 9))])],
            vec![],
        ),
        show(var("y")),
    ]);
    check(
        manifest,
        &["wall before y 3 2 3,7", "kiosk front x 3 3 0,1,3", "steps 4"],
    );
    // If y had been marked at the top, three more names would need cells: 511
    // are filled with y, and neither the parameter nor z nor the title counts.
    let cells = filled(
        512,
        vec![
            type_definition("t", vec![parameter("y", None)], vec![assign("z", int(6, 6))]),
            if_else(
                no(1),
                vec![defined("t", text(8, "a"), vec![given("y", int(9, 9))])],
                vec![],
            ),
        ],
    );
    check(cells.with("title"), &["steps 513"]);
}

/// R20: "A mark takes one cell for each distinct name that has none in that
/// scope, also for a branch that is not taken; a later 21 uses that cell."
#[test]
fn r20_cells_of_marks() {
    let names = |names: &[&str]| {
        names
            .iter()
            .map(|name| assign(name, int(2, 2)))
            .collect::<Vec<_>>()
    };
    // y and z, y twice: two cells. fill000 has one already.
    let condition = || if_else(no(1), names(&["y", "z", "fill000"]), names(&["y"])).at("22");
    refuse(filled(511, vec![condition()]), 22, "22");
    // The else branch is taken and assigns y in the marked cell; so does a
    // later 21 for z. A third new name has no cell left.
    let uses = || vec![condition(), assign("z", int(3, 3))];
    check(filled(510, uses()), &["steps 513"]);
    let mut third = uses();
    third.push(assign("w", int(3, 3)).at("third"));
    refuse(filled(510, third), 22, "third");
    // A second condition on the same names needs no new cells.
    let again = vec![
        if_else(no(1), names(&["y", "z"]), vec![]),
        if_else(no(1), names(&["z", "y"]), vec![]),
    ];
    check(filled(510, again), &["steps 512"]);
    // The same name in another scope needs a cell of its own.
    let elsewhere = vec![node_default(vec![
        if_else(no(1), names(&["fill000"]), vec![]).at("22")
    ])];
    refuse(filled(512, elsewhere), 22, "22");
}

/// R20: "A cell with only a mark is no value for 13 and 14."
#[test]
fn r20_mark_without_value() {
    let read = items(vec![
        if_else(no(1), vec![assign("y", int(2, 2))], vec![]),
        show(var("y").at("13")),
    ]);
    refuse(read, 13, "13");
    let top = items(vec![
        if_else(no(1), vec![assign("y", int(2, 2))], vec![]),
        show(top_var("y").at("14")),
    ]);
    refuse(top, 13, "14");
    let assigned = items(vec![
        if_else(no(1), vec![assign("y", int(2, 2))], vec![]),
        assign("y", int(3, 3)),
        show(var("y")),
    ]);
    check(assigned, &["kiosk front x 3 3 0,1,3", "steps 3"]);
    // A read goes on to the parent past a cell that has only a mark.
    let parent_value = items(vec![
        assign("y", int(3, 3)),
        node_default(vec![
            if_else(no(1), vec![assign("y", int(2, 2))], vec![]),
            show(var("y")),
        ]),
    ]);
    check(parent_value, &["kiosk front x 3 3 0,1,3", "steps 3"]);
}

/// R21: "A parameter of a 27 or 28 is stored with its value's set, path and
/// trail, and not with the title's set. A title's labels go to the variable
/// "title" alone."
#[test]
fn r21_parameters_and_titles() {
    let kind = type_definition(
        "t",
        vec![parameter("p", None), parameter("q", Some(int(4, 4)))],
        vec![built_in(
            "wall",
            text(5, "w"),
            vec![
                given("p", var("p")),
                given("q", var("q")),
                given("t", var("title")),
            ],
        )],
    );
    let manifest = items(vec![
        kind,
        defined("t", text(1, "a"), vec![given("p", int(2, 2))]),
    ]);
    let lines = [
        "wall w p 2 2 2,5",
        "wall w q 4 2 4,5",
        "wall w t a 2 1,5",
        "steps 2",
    ];
    check(manifest, &lines);
}

/// R21: the path goes along into declarations: into parameters, titles,
/// bodies, parents; the trail has the condition for all that comes after.
#[test]
fn r21_path_through_declarations() {
    let manifest = items(vec![
        class_definition(
            "above",
            None,
            vec![],
            vec![built_in("wall", text(1, "above"), vec![])],
        ),
        class_definition(
            "c",
            Some(parent("above")),
            vec![parameter("p", Some(int(2, 2)))],
            vec![built_in("wall", text(3, "c"), vec![given("p", var("p"))])],
        ),
        built_in("wall", text(4, "before"), vec![]),
        if_else(yes(9), vec![class_with("c", vec![])], vec![]),
        built_in("wall", text(5, "after"), vec![]),
    ]);
    let lines = [
        "wall before - - 1 4",
        "wall above - - 2 1,9",
        "wall c p 2 3 2,3,9",
        "wall after - - 2 5,9",
        // wall, if, 28, parent, wall, wall, wall.
        "steps 7",
    ];
    check(manifest, &lines);
}

/// "the path: the union over the conditions enclosing the statement": both of
/// two, and none after them.
#[test]
fn paths_nest() {
    let inner = if_else(
        yes(2),
        vec![built_in("wall", text(3, "inner"), vec![given("x", int(4, 4))])],
        vec![],
    );
    let manifest = items(vec![
        if_else(
            yes(1),
            vec![inner, built_in("wall", text(5, "outer"), vec![])],
            vec![],
        ),
        built_in("wall", text(6, "after"), vec![]),
    ]);
    let lines = [
        "wall inner x 4 4 1,2,3,4",
        "wall outer - - 2 1,5",
        "wall after - - 1 6",
        "steps 5",
    ];
    check(manifest, &lines);
}

/// "An assignment stores its value's set with path and trail".
#[test]
fn assignments_store_the_path() {
    let manifest = items(vec![
        if_else(yes(1), vec![assign("y", int(2, 2))], vec![]),
        show(var("y")),
    ]);
    check(manifest, &["kiosk front x 2 3 0,1,2", "steps 3"]);
}

/// The trail: one set for the whole compile. It is in what follows, in a
/// condition's set, and not in what came before.
#[test]
fn the_trail() {
    let manifest = items(vec![
        class_definition("c", None, vec![], vec![]),
        assign("y", int(1, 1)),
        built_in("wall", text(2, "before"), vec![given("y", var("y"))]),
        // Nested at depth: the inner include counts for the outer condition,
        // and the inner one is not tested.
        if_else(no(3), vec![if_else(no(4), vec![include("c")], vec![])], vec![]),
        built_in("wall", text(5, "after"), vec![given("y", var("y"))]),
    ]);
    let lines = ["wall before y 1 2 1,2", "wall after y 1 3 1,3,5", "steps 4"];
    check(manifest, &lines);
    // Each of 27, 28 and 29 does it, in either branch; a 25 does not.
    for statement in [
        include("c"),
        class_with("c", vec![]),
        defined("c", text(6, "a"), vec![]),
    ] {
        for then in [true, false] {
            let (one, other) = if then {
                (vec![statement.clone()], vec![])
            } else {
                (vec![], vec![statement.clone()])
            };
            let manifest = items(vec![if_else(boolean(3, !then), one, other), show(int(1, 1))]);
            check(manifest, &["kiosk front x 1 3 0,1,3", "steps 2"]);
        }
    }
}

/// A condition in a body counts in the text only: what a declared body holds
/// doesn't count for the condition around the declaration beyond the 27.
#[test]
fn the_trail_grows_where_conditions_run() {
    // The body's own condition (2) holds an include, so 2 and the path's 1 join
    // the trail when it runs, and the outer one joined it before.
    let manifest = items(vec![
        class_definition("c", None, vec![], vec![]),
        type_definition("t", vec![], vec![if_else(no(2), vec![include("c")], vec![])]),
        defined("t", text(3, "a"), vec![]),
        show(int(1, 1)),
    ]);
    check(manifest, &["kiosk front x 1 3 0,1,2", "steps 3"]);
}

/// R22: "Patterns tried include the one that matches; default adds no label; a
/// pattern of another kind is tried, does not match, and its label counts."
#[test]
fn r22_patterns() {
    let tried = |scrutinee: Field| {
        let wall = |title: &str| vec![built_in("wall", text(9, title), vec![])];
        items(vec![case(
            scrutinee,
            vec![
                (boolean(2, true), wall("true")),
                (int(3, 1), wall("one")),
                (default(), wall("default")),
            ],
        )])
    };
    check(tried(int(1, 1)), &["wall one - - 4 1,2,3,9", "steps 2"]);
    check(tried(boolean(1, true)), &["wall true - - 3 1,2,9", "steps 2"]);
    check(tried(int(1, 5)), &["wall default - - 4 1,2,3,9", "steps 2"]);
    check(tried(text(1, "x")), &["wall default - - 4 1,2,3,9", "steps 2"]);
}

/// R23: "A read's marks are of every scope from the reading one up to and
/// including the one with the value; 14 takes top's mark, 15 the class's."
#[test]
fn r23_marks_on_the_way() {
    let mark = |label: u8| if_else(no(label), vec![assign("y", int(20, 20))], vec![]);
    let manifest = items(vec![
        mark(1),
        assign("y", int(2, 2)),
        class_definition("above", None, vec![], vec![mark(3), assign("y", int(4, 4))]),
        class_definition(
            "c",
            Some(parent("above")),
            vec![],
            vec![
                mark(5),
                built_in(
                    "wall",
                    text(6, "w"),
                    vec![
                        given("own", var("y")),
                        given("top", top_var("y")),
                        given("class", class_var("above", "y")),
                    ],
                ),
            ],
        ),
        node_default(vec![
            mark(7),
            include("c"),
            built_in("wall", text(8, "n"), vec![given("y", var("y"))]),
        ]),
    ]);
    let lines = [
        // c's mark 5, above's mark 3, its value 4.
        "wall w own 4 4 3,4,5,6",
        // The top's mark 1 and value 2.
        "wall w top 2 3 1,2,6",
        // The class's mark 3 and value 4.
        "wall w class 4 3 3,4,6",
        // The node's mark 7, the top's mark 1 and value 2.
        "wall n y 2 4 1,2,7,8",
        "steps 10",
    ];
    check(manifest, &lines);
}

/// "those of a freed scope are used again": a body that takes all cells left
/// can run again; while it runs, a body in it has none.
#[test]
fn freed_cells() {
    let body: Vec<Field> = (0..12)
        .map(|at| assign(format!("own{at:02}"), int(1, 1)))
        .collect();
    let kind = || type_definition("t", vec![], body.clone());
    let declare = || defined("t", text(1, "a"), vec![]);
    // Steps: 500, three declarations, three bodies of 12.
    check(
        filled(500, vec![kind(), declare(), declare(), declare()]),
        &["steps 539"],
    );
    let outer = type_definition("outer", vec![parameter("p", Some(int(1, 1)))], vec![declare()]);
    let inside = filled(500, vec![kind(), outer, defined("outer", text(1, "a"), vec![])]);
    let built = inside.build();
    // p has the 501st cell, so own11 needs the 513th.
    let last = built
        .fields
        .iter()
        .filter(|(_, tag)| *tag == 0x21)
        .map(|(at, _)| *at)
        .max();
    let answer = Case::of(built.bytes.clone()).compile().expect("clean").0;
    assert_eq!(
        answer,
        Answer::Refused {
            number: 22,
            place: last.unwrap_or(0) as u16
        }
    );
    // Marks in a body are freed too.
    let marking = type_definition("t", vec![], vec![if_else(no(1), body.clone(), vec![])]);
    check(filled(500, vec![marking, declare(), declare()]), &["steps 504"]);
    // A class's cells are never freed.
    let class = class_definition("c", None, vec![], body.clone());
    let after = vec![class, include("c"), assign("y", int(1, 1)).at("21")];
    refuse(filled(500, after), 22, "21");
}

/// A mark doesn't stay behind when a body is freed: the next body of the same
/// type starts without it.
#[test]
fn freed_marks() {
    let kind = type_definition(
        "t",
        vec![parameter("on", None)],
        vec![
            built_in("wall", var("title"), vec![given("y", var("y"))]),
            if_else(var("on"), vec![assign("y", int(4, 4))], vec![]),
        ],
    );
    let declare =
        |label: u8, title: &str| defined("t", text(label, title), vec![given("on", boolean(label, true))]);
    let manifest = items(vec![
        assign("y", int(1, 1)),
        kind,
        declare(2, "a"),
        declare(3, "b"),
    ]);
    // Steps: assignment, twice declaration, wall, if and assignment.
    check(manifest, &["wall a y 1 2 1,2", "wall b y 1 2 1,3", "steps 9"]);
}

/// All 256 labels print, and are counted, rising: 0 from the first variable,
/// five more from each of 51 others, 255 from the sum of as many ones.
#[test]
fn all_labels() {
    let mut list = vec![assign("v00", int(0, 0))];
    for at in 1..=51usize {
        let value = (0..5).fold(var(format!("v{:02}", at - 1)), |left, more| {
            binary(ADD, left, int(((at - 1) * 5 + more + 1) as u8, 1))
        });
        list.push(assign(format!("v{at:02}"), value));
    }
    list.push(show(var("v51")));
    let labels: Vec<String> = (0..=255).map(|label: u8| label.to_string()).collect();
    check(
        items(list),
        &[&format!("kiosk front x 255 256 {}", labels.join(",")), "steps 53"],
    );
}
