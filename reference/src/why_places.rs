//! Named questions about the place told: constants that a compile meets and
//! constants that it does not.

use crate::assemble::*;
use crate::why_named::{asking, shop, shown, told, Asking};

/// What a selector chooses for 5 (1).
fn chosen(arms: Vec<(Field, Field)>) -> Field {
    assign("y", select(int(1, 5), arms))
}

// Ways a constant is met: it has the lowest place and brought nothing.

/// "evaluated as an expression"; "it need not have brought the label into this
/// set".
pub fn met_evaluated() -> Asking {
    asking(vec![assign("y", told(int(7, 1))), shown(int(7, 40))])
}

/// "tried as a pattern".
pub fn met_pattern() -> Asking {
    asking(vec![
        chosen(vec![(told(int(7, 6)), int(2, 1)), (default(), int(3, 1))]),
        shown(int(7, 40)),
    ])
}

/// "tried as a pattern (the matching one included)".
pub fn met_pattern_matching() -> Asking {
    asking(vec![
        chosen(vec![(told(int(7, 5)), int(2, 1))]),
        shown(int(7, 40)),
    ])
}

/// "a default in a case or selector is tried only after every other pattern",
/// also behind it.
pub fn met_pattern_behind_default() -> Asking {
    asking(vec![
        chosen(vec![(default(), int(2, 1)), (told(int(7, 6)), int(3, 1))]),
        shown(int(7, 40)),
    ])
}

/// "a pattern of another kind is tried, does not match".
pub fn met_pattern_other_kind() -> Asking {
    asking(vec![
        chosen(vec![(told(boolean(7, true)), int(2, 1)), (default(), int(3, 1))]),
        shown(int(7, 40)),
    ])
}

/// "tried as a pattern", of a case without a match.
pub fn met_pattern_of_case() -> Asking {
    asking(vec![
        case(int(1, 5), vec![(told(int(7, 6)), vec![])]),
        shown(int(7, 40)),
    ])
}

/// "tried as a pattern (the matching one included)", of a case.
pub fn met_pattern_of_case_matching() -> Asking {
    asking(vec![
        case(int(1, 5), vec![(int(2, 6), vec![]), (told(int(7, 5)), vec![])]),
        shown(int(7, 40)),
    ])
}

/// "assigned to a parameter as its default", by an include.
pub fn met_default_of_class() -> Asking {
    asking(vec![
        shop(told(int(7, 3)), vec![]),
        include("shop"),
        shown(int(7, 40)),
    ])
}

/// "assigned to a parameter as its default", by a 28 that gives another one.
pub fn met_default_of_class_with() -> Asking {
    asking(vec![
        class_definition(
            "shop",
            None,
            vec![
                parameter("fee", Some(told(int(7, 3)))),
                parameter("open", Some(int(2, 4))),
            ],
            vec![],
        ),
        class_with("shop", vec![given("open", int(3, 5))]),
        shown(int(7, 40)),
    ])
}

/// "assigned to a parameter as its default", by a parent's declaration.
pub fn met_default_of_parent() -> Asking {
    asking(vec![
        shop(told(int(7, 3)), vec![]),
        class_definition("corner", Some(parent("shop")), vec![], vec![]),
        include("corner"),
        shown(int(7, 40)),
    ])
}

/// "assigned to a parameter as its default", by a 27.
pub fn met_default_of_type() -> Asking {
    asking(vec![
        type_definition("booth", vec![parameter("fee", Some(told(int(7, 3))))], vec![]),
        defined("booth", text(2, "b"), vec![]),
        shown(int(7, 40)),
    ])
}

/// "the whole compile": evaluated after the resource was added, at a lower
/// place.
pub fn met_later() -> Asking {
    asking(vec![
        class_definition("shop", None, vec![], vec![assign("y", told(int(7, 1)))]),
        shown(int(7, 40)),
        include("shop"),
    ])
}

/// Skipped when the body first runs, evaluated when it runs again.
pub fn met_in_second_run() -> Asking {
    asking(vec![
        type_definition(
            "booth",
            vec![parameter("on", None)],
            vec![assign("y", binary(AND, var("on"), told(boolean(7, true))))],
        ),
        defined("booth", text(1, "b"), vec![given("on", boolean(2, false))]),
        defined("booth", text(3, "c"), vec![given("on", boolean(4, true))]),
        shown(int(7, 40)),
    ])
}

// Ways a constant is not met: one with the label stands lower.

/// "branches not taken".
pub fn unmet_branch() -> Asking {
    asking(vec![
        if_else(boolean(1, false), vec![assign("y", int(7, 1))], vec![]),
        shown(told(int(7, 40))),
    ])
}

/// "branches not taken": the second block.
pub fn unmet_else() -> Asking {
    asking(vec![
        if_else(boolean(1, true), vec![], vec![assign("y", int(7, 1))]),
        shown(told(int(7, 40))),
    ])
}

/// "branches not taken": an arm whose pattern was tried.
pub fn unmet_case_arm() -> Asking {
    asking(vec![
        case(int(1, 5), vec![(int(2, 6), vec![assign("y", int(7, 1))])]),
        shown(told(int(7, 40))),
    ])
}

/// A pattern behind the matching one is not tried.
pub fn unmet_case_pattern() -> Asking {
    asking(vec![
        case(int(1, 5), vec![(int(2, 5), vec![]), (int(7, 5), vec![])]),
        shown(told(int(7, 40))),
    ])
}

/// "arms ... not taken".
pub fn unmet_selector_arm() -> Asking {
    asking(vec![
        chosen(vec![(int(2, 6), int(7, 1)), (default(), int(3, 1))]),
        shown(told(int(7, 40))),
    ])
}

/// A pattern behind the matching one is not tried.
pub fn unmet_selector_pattern() -> Asking {
    asking(vec![
        chosen(vec![(int(2, 5), int(3, 1)), (int(7, 6), int(4, 1))]),
        shown(told(int(7, 40))),
    ])
}

/// "arms ... not taken": a default, since a constant behind it matches.
pub fn unmet_selector_default() -> Asking {
    asking(vec![
        chosen(vec![(default(), int(7, 1)), (int(2, 5), int(3, 1))]),
        shown(told(int(7, 40))),
    ])
}

/// "A second default is never reached".
pub fn unmet_second_default() -> Asking {
    asking(vec![
        chosen(vec![(default(), int(2, 1)), (default(), int(7, 1))]),
        shown(told(int(7, 40))),
    ])
}

/// "branches not taken": conditions in them are not tested, nor their patterns
/// tried.
pub fn unmet_nested() -> Asking {
    let inner = vec![
        if_else(boolean(7, true), vec![], vec![]),
        case(int(7, 5), vec![(int(7, 5), vec![])]),
    ];
    asking(vec![
        if_else(boolean(1, false), inner, vec![]),
        shown(told(int(7, 40))),
    ])
}

/// "Skipped operands": "and" after false.
pub fn unmet_and() -> Asking {
    asking(vec![
        assign("y", binary(AND, boolean(1, false), boolean(7, true))),
        shown(told(int(7, 40))),
    ])
}

/// "Skipped operands": "or" after true.
pub fn unmet_or() -> Asking {
    asking(vec![
        assign("y", binary(OR, boolean(1, true), boolean(7, true))),
        shown(told(int(7, 40))),
    ])
}

/// "bodies not run": a class never declared, its default neither.
pub fn unmet_class_body() -> Asking {
    asking(vec![
        shop(int(7, 3), vec![assign("y", int(7, 1))]),
        shown(told(int(7, 40))),
    ])
}

/// "bodies not run": a type never declared, its default neither.
pub fn unmet_type_body() -> Asking {
    asking(vec![
        type_definition(
            "booth",
            vec![parameter("fee", Some(int(7, 3)))],
            vec![assign("y", int(7, 1))],
        ),
        shown(told(int(7, 40))),
    ])
}

/// "bodies not run": the node item of another device.
pub fn unmet_node() -> Asking {
    asking(vec![
        node(&["gym"], vec![assign("y", int(7, 1))]),
        shown(told(int(7, 40))),
    ])
}

/// A default is not assigned where a value is given.
pub fn unmet_default_given() -> Asking {
    asking(vec![
        shop(int(7, 3), vec![]),
        class_with("shop", vec![given("fee", int(1, 4))]),
        shown(told(int(7, 40))),
    ])
}

/// A default is not assigned where a value is given to a 27.
pub fn unmet_default_given_to_type() -> Asking {
    asking(vec![
        type_definition("booth", vec![parameter("fee", Some(int(7, 3)))], vec![]),
        defined("booth", text(1, "b"), vec![given("fee", int(2, 4))]),
        shown(told(int(7, 40))),
    ])
}

/// "Include of a declared class does nothing past its step": its default is not
/// assigned.
pub fn unmet_default_declared() -> Asking {
    asking(vec![
        shop(int(7, 3), vec![]),
        class_with("shop", vec![given("fee", int(1, 4))]),
        include("shop"),
        shown(told(int(7, 40))),
    ])
}

/// "A declared parent: no step, no check": its default is not assigned.
pub fn unmet_default_of_declared_parent() -> Asking {
    asking(vec![
        shop(int(7, 3), vec![]),
        class_definition("corner", Some(parent("shop")), vec![], vec![]),
        class_with("shop", vec![given("fee", int(1, 4))]),
        include("corner"),
        shown(told(int(7, 40))),
    ])
}

/// A class whose default is not assigned, since the body of its parent declares
/// it with a value.
fn declared_meanwhile() -> Vec<Field> {
    vec![
        class_definition(
            "shop",
            Some(parent("chain")),
            vec![parameter("fee", Some(int(7, 3)))],
            vec![],
        ),
        class_definition(
            "chain",
            None,
            vec![],
            vec![class_with("shop", vec![given("fee", int(1, 4))])],
        ),
    ]
}

/// "if the class was declared meanwhile, an include ... does nothing more".
pub fn unmet_default_declared_meanwhile() -> Asking {
    let mut items = declared_meanwhile();
    items.extend([include("shop"), shown(told(int(7, 40)))]);
    asking(items)
}

/// "if the class was declared meanwhile, ... a parent's declaration does nothing
/// more".
pub fn unmet_default_parent_declared_meanwhile() -> Asking {
    let mut items = declared_meanwhile();
    items.push(class_definition("corner", Some(parent("shop")), vec![], vec![]));
    items.extend([include("corner"), shown(told(int(7, 40)))]);
    asking(items)
}
