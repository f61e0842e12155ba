//! "Default goes last" (document 02): "a default in a case or selector is tried
//! only after every other pattern".

use super::*;
use crate::default_last::tells;
use crate::generate::cases;
use crate::special::*;

/// The value that these choices give for 7 (2), with its labels, the title's 1
/// among them: by a selector and by a case, whose set is in the path and the
/// mark of what it assigns.
#[track_caller]
fn chosen(choices: Vec<(Field, Field)>, printed: &str) {
    let line = format!("kiosk front x {printed}");
    check(selector(choices.clone()), &[&line, "steps 1"]);
    // The case, the assignment in the block chosen, the resource.
    check(by_case(choices), &[&line, "steps 3"]);
}

fn wall(title: Field) -> Field {
    built_in("wall", title, vec![])
}

/// A case over 7 (2): wall "default" (3), and wall "seven" (5) for the 7 (4)
/// behind it.
fn walls_by_case() -> Field {
    let arms = vec![
        (default(), vec![wall(text(3, "default"))]),
        (int(4, 7), vec![wall(text(5, "seven"))]),
    ];
    case(int(2, 7), arms)
}

/// The constant behind the default is tried (4); it matches, or the default is
/// chosen with that label in the set.
#[test]
fn default_stands_first() {
    chosen(default_first(7), "50 4 1,2,4,5");
    chosen(default_first(8), "30 4 1,2,3,4");
}

/// The constants are tried in written order, 3 before 6: 6 is tried unless 3
/// matches, and the default comes after both.
#[test]
fn default_stands_in_the_middle() {
    chosen(default_middle(8, 7), "70 5 1,2,3,6,7");
    chosen(default_middle(7, 7), "40 4 1,2,3,4");
    chosen(default_middle(8, 9), "50 5 1,2,3,5,6");
}

/// "With two defaults the first counts", after the constants between and behind
/// them.
#[test]
fn two_defaults_stand() {
    chosen(two_defaults(8, 9), "30 5 1,2,3,4,7");
    chosen(two_defaults(7, 7), "50 4 1,2,4,5");
    chosen(two_defaults(8, 7), "80 5 1,2,4,7,8");
    // Both before the only constant, and no constant at all.
    let both_first = |constant: i64| {
        vec![
            (default(), int(3, 30)),
            (default(), int(4, 40)),
            (int(5, constant), int(6, 60)),
        ]
    };
    chosen(both_first(7), "60 4 1,2,5,6");
    chosen(both_first(8), "30 4 1,2,3,5");
    let alone = vec![(default(), int(3, 30)), (default(), int(4, 40))];
    chosen(alone, "30 3 1,2,3");
}

/// A default that stands last is tried as before, and so are those written
/// before it.
#[test]
fn default_stands_last() {
    let last = |constant: i64| vec![(int(3, constant), int(4, 40)), (default(), int(5, 50))];
    chosen(last(7), "40 4 1,2,3,4");
    chosen(last(8), "50 4 1,2,3,5");
}

/// R22 behind a default: "a pattern of another kind is tried, does not match,
/// and its label counts". Of two that match, the first written is chosen and
/// the other is not tried.
#[test]
fn constants_behind_a_default() {
    chosen(default_and_other_kinds(), "30 5 1,2,3,4,6");
    chosen(default_and_equal_constants(), "50 4 1,2,4,5");
}

/// What is not chosen is not evaluated: a default before the constant that
/// matches, and a second default.
#[test]
fn only_the_chosen_is_evaluated() {
    chosen(default_without_value(7), "50 4 1,2,4,5");
    refuse(selector(default_without_value(8)), 13, "unset");
    refuse(by_case(default_without_value(8)), 13, "unset");
    chosen(second_default_without_value(), "30 4 1,2,3,4");
}

/// A selector with a default is never refused 18, wherever the default stands;
/// without it these are, at the selector.
#[test]
fn never_18_with_a_default() {
    let constants = || vec![(int(3, 8), int(4, 40)), (boolean(5, false), int(6, 60))];
    for scrutinee in [int(2, 7), text(2, "8"), boolean(2, true)] {
        let select = |arms: Vec<(Field, Field)>| items(vec![show(select(scrutinee.clone(), arms).at("19"))]);
        refuse(select(constants()), 18, "19");
        for place in 0..=2 {
            let mut arms = constants();
            arms.insert(place, (default(), int(7, 70)));
            check(select(arms), &["kiosk front x 70 5 0,2,3,5,7", "steps 1"]);
        }
    }
}

/// The branch taken has the condition's set in its path: scrutinee and all
/// patterns tried. What stands after the case has not.
#[test]
fn path_of_the_default() {
    let manifest = |constant: i64| {
        let arms = vec![
            (default(), vec![wall(text(3, "first"))]),
            (int(4, constant), vec![wall(text(5, "constant"))]),
            (default(), vec![wall(text(6, "second"))]),
            (int(7, 9), vec![wall(text(8, "behind"))]),
        ];
        items(vec![case(int(2, 7), arms), show(int(1, 1))])
    };
    let after = "kiosk front x 1 2 0,1";
    check(manifest(8), &["wall first - - 4 2,3,4,7", after, "steps 3"]);
    check(manifest(7), &["wall constant - - 3 2,4,5", after, "steps 3"]);
}

/// "A second default is never reached; its block still counts for marks": the
/// condition's set is 2 and 3, x was assigned with 4, and 50 never is. Whether
/// the constant between them matches makes no difference.
#[test]
fn mark_of_a_second_default() {
    for between in [7, 8] {
        check(
            second_default_mark(between),
            &["kiosk front x 40 4 1,2,3,4", "steps 3"],
        );
    }
    // A mark is no value: x has none after the case, so a read is refused and
    // an assignment is not.
    let assigning = || {
        let arms = vec![
            (default(), vec![]),
            (default(), vec![assign("x", int(4, 4))]),
            (int(3, 8), vec![]),
        ];
        case(int(2, 7), arms)
    };
    refuse(items(vec![assigning(), show(var("x").at("13"))]), 13, "13");
    let assigned = items(vec![assigning(), assign("x", int(5, 5)), show(var("x"))]);
    check(assigned, &["kiosk front x 5 4 0,2,3,5", "steps 3"]);
}

/// R20: the mark takes a cell, also in a block that never runs. 511 cells hold
/// values, or 512; the resource before the case reads the first, which has
/// label 1 as its title has.
#[test]
fn cell_of_a_second_default() {
    let lines = ["kiosk front x true 1 1", "steps 513"];
    check(second_default_cells(512), &lines);
    refuse(second_default_cells(513), 22, "case");
}

/// A second default's block counts for the trail: the condition's set, 2 and 3,
/// is in all that follows. So does a first one's that is not chosen, and there
/// the constant behind it was tried (3).
#[test]
fn trail_of_a_default_not_chosen() {
    let lines = ["kiosk front x 40 4 1,2,3,4", "steps 2"];
    check(second_default_trail(), &lines);
    check(default_first_trail(), &lines);
    // Each of 27, 28 and 29 counts, nested too; the class is never declared and
    // need not be known. A 25 does not count.
    let second = |statement: Field| {
        let nested = if_else(boolean(9, true), vec![], vec![statement]);
        let arms = vec![
            (default(), vec![]),
            (default(), vec![nested]),
            (int(3, 8), vec![]),
        ];
        items(vec![case(int(2, 7), arms), show(int(4, 4))])
    };
    for statement in [
        include("none"),
        class_with("none", vec![]),
        defined("none", text(5, "a"), vec![]),
    ] {
        check(second(statement), &["kiosk front x 4 4 0,2,3,4", "steps 2"]);
    }
    check(second(wall(text(5, "a"))), &["kiosk front x 4 2 0,4", "steps 2"]);
}

/// "A node's default is another thing and stays": the first default node item
/// runs where no other names the device, and in it a case has its own.
#[test]
fn default_of_a_node() {
    let manifest = items(vec![
        node_default(vec![walls_by_case()]),
        node_default(vec![wall(text(6, "second"))]),
        node(&["desk"], vec![wall(text(1, "named"))]),
    ]);
    assert_eq!(printed("other", &manifest), "wall seven - - 3 2,4,5\nsteps 2\n");
    check(manifest, &["wall named - - 1 1", "steps 1"]);
}

/// A case tells that a default is tried last if a constant behind one is tried
/// and shows; not if a constant before it matches, if nothing but a second
/// default is behind it, if no default stands before a constant, or if nothing
/// runs.
#[test]
fn telling_cases() {
    let telling = |choices: Vec<(Field, Field)>| {
        [selector(choices.clone()), by_case(choices)].map(|manifest| tells(&Case::of(manifest.build().bytes)))
    };
    let twice = || vec![(default(), int(3, 30)), (default(), int(4, 40))];
    assert_eq!(telling(default_first(7)), [true, true]);
    assert_eq!(telling(default_middle(8, 9)), [true, true]);
    assert_eq!(telling(default_middle(7, 7)), [false, false]);
    assert_eq!(telling(twice()), [false, false]);
    assert_eq!(telling(vec![(int(3, 7), int(4, 40))]), [false, false]);
    let mut small = Case::of(selector(default_first(7)).build().bytes);
    small.memory -= 1;
    assert!(!tells(&small));
    // Refused before the selector, and for the steps before it is evaluated.
    let mut manifest = selector(default_first(7));
    manifest.items.insert(0, assign("y", var("unset")));
    assert!(!tells(&Case::of(manifest.build().bytes)));
    let mut none = Case::of(selector(default_first(7)).build().bytes);
    none.limit = 0;
    assert!(!tells(&none));
}

/// These items, for "desk", tell it.
#[track_caller]
fn tell(list: Vec<Field>) {
    assert!(tells(&Case::of(items(list).build().bytes)));
}

/// 50, and 30 if the default matched.
fn fifty() -> Field {
    select(int(2, 7), default_first(7))
}

/// A selector tells wherever an expression may stand.
#[test]
fn telling_selectors() {
    let arms = vec![(default(), text(3, "default")), (int(4, 7), text(5, "seven"))];
    let seven = || select(int(2, 7), arms.clone());
    let equal = || binary(EQUAL, fifty(), int(6, 50));
    tell(vec![show(not(equal()))]);
    tell(vec![show(binary(ADD, int(1, 1), fifty()))]);
    tell(vec![show(select(fifty(), vec![(int(6, 50), int(7, 70))]))]);
    tell(vec![show(select(int(1, 1), vec![(int(1, 1), fifty())]))]);
    tell(vec![
        built_in("wall", text(1, "seven"), vec![given("x", int(1, 1))]),
        show(attribute_of("wall", "x", seven())),
    ]);
    tell(vec![wall(seven())]);
    tell(vec![assign("y", fifty()), show(var("y"))]);
    tell(vec![if_else(equal(), vec![wall(text(1, "then"))], vec![])]);
    let p = || vec![parameter("p", Some(int(1, 1)))];
    let booth = || type_definition("booth", p(), vec![wall(var("title")), show(var("p"))]);
    tell(vec![booth(), defined("booth", seven(), vec![])]);
    tell(vec![
        booth(),
        defined("booth", text(1, "a"), vec![given("p", fifty())]),
    ]);
    tell(vec![
        class_definition("desk", None, p(), vec![show(var("p"))]),
        class_with("desk", vec![given("p", fifty())]),
    ]);
}

/// A case tells in any block, and by its scrutinee too.
#[test]
fn telling_cases_in_blocks() {
    let told = || vec![walls_by_case()];
    tell(vec![case(fifty(), vec![(int(6, 50), vec![wall(text(1, "in"))])])]);
    tell(vec![case(int(1, 1), vec![(int(1, 1), told())])]);
    tell(vec![if_else(boolean(1, true), told(), vec![])]);
    tell(vec![if_else(boolean(1, false), vec![], told())]);
    tell(vec![
        type_definition("booth", vec![], told()),
        defined("booth", text(1, "a"), vec![]),
    ]);
    tell(vec![
        class_definition("desk", None, vec![], told()),
        include("desk"),
    ]);
    tell(vec![node_default(told())]);
}

/// Of the random cases one in ten or more tell it.
#[test]
fn random_cases_tell() {
    let telling = cases(1, 2000).filter(tells).count();
    assert!(telling >= 200, "{telling} of 2,000 cases");
}
