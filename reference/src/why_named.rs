//! Named questions, by hand: the parts, "not among them" and the refusals.
//! Unless said otherwise each is about the price of kiosk "front" and label 7;
//! the constant told of, or the field at fault, has the mark "told".

use crate::assemble::*;
use crate::compile::LEAST_MEMORY;
use crate::why_case::WhyCase;
use crate::why_definitions::*;
use crate::why_large::*;
use crate::why_places::*;

/// A question about a manifest that is yet to be built.
#[derive(Clone)]
pub struct Asking {
    pub manifest: Manifest,
    pub device: &'static str,
    pub kind: &'static str,
    pub title: &'static str,
    pub attribute: &'static str,
    pub label: u8,
    pub memory: usize,
}

impl Asking {
    pub fn case(&self) -> WhyCase {
        WhyCase {
            types: None,
            device: self.device.into(),
            kind: self.kind.into(),
            title: self.title.into(),
            attribute: self.attribute.into(),
            label: self.label,
            memory: self.memory,
            manifest: self.manifest.build().bytes,
        }
    }
}

/// A name and how its question is made.
type WhyNamed = (&'static str, fn() -> Asking);

/// Every named question, in order.
pub const WHY_NAMED: [WhyNamed; 112] = [
    ("part-title", part_title),
    ("part-title-mark", part_title_mark),
    ("part-path", part_path),
    ("part-path-pattern", part_path_pattern),
    ("part-path-declaration", part_path_declaration),
    ("part-path-class-with", part_path_class_with),
    ("part-path-parent", part_path_parent),
    ("part-path-type-body", part_path_type_body),
    ("part-path-outer", part_path_outer),
    ("part-path-trail-before", part_path_trail_before),
    ("part-trail", part_trail),
    ("part-trail-inside", part_trail_inside),
    ("part-trail-from-body", part_trail_from_body),
    ("part-marks", part_marks),
    ("part-marks-scope-tried", part_marks_scope_tried),
    ("part-marks-of-class", || marks_of_scope(0)),
    ("part-marks-of-parent", || marks_of_scope(1)),
    ("part-marks-of-node", || marks_of_scope(2)),
    ("part-marks-of-top", || marks_of_scope(3)),
    ("part-marks-top-variable", part_marks_top_variable),
    ("part-marks-class-variable", part_marks_class_variable),
    ("part-marks-first-read", part_marks_first_read),
    ("part-marks-chosen", part_marks_chosen),
    ("part-marks-dropped", part_marks_dropped),
    ("part-marks-dropped-operand", part_marks_dropped_operand),
    ("part-marks-title-of-read", part_marks_title_of_read),
    ("part-value", part_value),
    ("part-value-stored", part_value_stored),
    ("part-value-stored-mark", part_value_stored_mark),
    ("part-value-default", part_value_default),
    ("part-value-title-of-read", part_value_title_of_read),
    ("part-value-empty-title", part_value_empty_title),
    ("label-0", || with_label(0)),
    ("label-255", || with_label(255)),
    ("part-value-pattern", part_value_pattern),
    ("part-value-read-elsewhere", part_value_read_elsewhere),
    ("part-value-other-attributes", part_value_other_attributes),
    ("part-value-given", part_value_given),
    ("two-title-path", two_title_path),
    ("two-path-trail", two_path_trail),
    ("two-path-marks", two_path_marks),
    ("two-trail-marks", two_trail_marks),
    ("two-marks-value", two_marks_value),
    ("two-title-value", two_title_value),
    ("met-evaluated", met_evaluated),
    ("met-pattern", met_pattern),
    ("met-pattern-matching", met_pattern_matching),
    ("met-pattern-behind-default", met_pattern_behind_default),
    ("met-pattern-other-kind", met_pattern_other_kind),
    ("met-pattern-of-case", met_pattern_of_case),
    ("met-pattern-of-case-matching", met_pattern_of_case_matching),
    ("met-default-of-class", met_default_of_class),
    ("met-default-of-class-with", met_default_of_class_with),
    ("met-default-of-parent", met_default_of_parent),
    ("met-default-of-type", met_default_of_type),
    ("met-later", met_later),
    ("met-in-second-run", met_in_second_run),
    ("unmet-branch", unmet_branch),
    ("unmet-else", unmet_else),
    ("unmet-case-arm", unmet_case_arm),
    ("unmet-case-pattern", unmet_case_pattern),
    ("unmet-selector-arm", unmet_selector_arm),
    ("unmet-selector-pattern", unmet_selector_pattern),
    ("unmet-selector-default", unmet_selector_default),
    ("unmet-second-default", unmet_second_default),
    ("unmet-nested", unmet_nested),
    ("unmet-and", unmet_and),
    ("unmet-or", unmet_or),
    ("unmet-class-body", unmet_class_body),
    ("unmet-type-body", unmet_type_body),
    ("unmet-node", unmet_node),
    ("unmet-default-given", unmet_default_given),
    ("unmet-default-given-to-type", unmet_default_given_to_type),
    ("unmet-default-declared", unmet_default_declared),
    (
        "unmet-default-of-declared-parent",
        unmet_default_of_declared_parent,
    ),
    (
        "unmet-default-declared-meanwhile",
        unmet_default_declared_meanwhile,
    ),
    (
        "unmet-default-parent-declared-meanwhile",
        unmet_default_parent_declared_meanwhile,
    ),
    ("not-among", not_among),
    ("not-among-unused", not_among_unused),
    ("not-among-unmet", not_among_unmet),
    ("not-among-other-attribute", not_among_other_attribute),
    ("not-among-other-marks", not_among_other_marks),
    ("not-among-scope-not-tried", not_among_scope_not_tried),
    ("not-among-scope-above", not_among_scope_above),
    ("not-among-declarer", not_among_declarer),
    ("not-among-skipped-read", not_among_skipped_read),
    ("not-among-trail-later", not_among_trail_later),
    ("no-type-string", no_type_string),
    ("no-title-string", no_title_string),
    ("no-attribute-string", no_attribute_string),
    ("no-empty-string", no_empty_string),
    ("no-resource", no_resource),
    ("no-resource-in-branch", no_resource_in_branch),
    ("no-resource-for-device", no_resource_for_device),
    ("no-resource-of-defined-type", no_resource_of_defined_type),
    ("no-attribute", no_attribute),
    ("no-attribute-at-all", no_attribute_at_all),
    ("no-item", no_item),
    ("refused-memory", refused_memory),
    ("refused-field", refused_field),
    ("refused-after-resource", refused_after_resource),
    ("refused-before-27", refused_before_27),
    ("part-value-class-later", part_value_class_later),
    ("part-value-default-later", part_value_default_later),
    ("part-path-class-later", part_path_class_later),
    ("met-class-later", met_class_later),
    ("unmet-class-later", unmet_class_later),
    ("no-resource-of-later-type", no_resource_of_later_type),
    ("refused-twice", refused_twice),
    ("refused-twice-before-run", refused_twice_before_run),
    ("large-one-label", large_one_label),
    ("large-steps", large_steps),
];

/// The named question, if there is one.
pub fn why_named(name: &str) -> Option<Asking> {
    let (_, make) = WHY_NAMED.iter().find(|(known, _)| *known == name)?;
    Some(make())
}

pub fn asking(items: Vec<Field>) -> Asking {
    Asking {
        manifest: Manifest::new(items),
        device: "desk",
        kind: "kiosk",
        title: "front",
        attribute: "price",
        label: 7,
        memory: LEAST_MEMORY,
    }
}

pub fn told(field: Field) -> Field {
    field.at("told")
}

/// The kiosk asked about.
fn front(title: Field, price: Field) -> Field {
    built_in("kiosk", title, vec![given("price", price)])
}

/// The kiosk asked about, its title's label 0.
pub fn shown(price: Field) -> Field {
    front(text(0, "front"), price)
}

/// A branch not taken that assigns `x`: the condition's label 7 joins its mark.
fn marking(label: u8) -> Field {
    if_else(told(boolean(7, false)), vec![assign("x", int(label, 55))], vec![])
}

/// A class that does nothing, for the trail.
fn quiet() -> Field {
    class_definition("quiet", None, vec![], vec![])
}

/// A class whose fee has a default.
pub fn shop(default: Field, body: Vec<Field>) -> Field {
    class_definition("shop", None, vec![parameter("fee", Some(default))], body)
}

// Parts, each with the label in no earlier one.

/// "title expression": the title alone has the label.
pub fn part_title() -> Asking {
    asking(vec![front(told(text(7, "front")), int(2, 40))])
}

/// A mark that the title expression reads is in "the set of the title
/// expression".
pub fn part_title_mark() -> Asking {
    asking(vec![
        assign("name", text(1, "front")),
        if_else(
            told(boolean(7, false)),
            vec![assign("name", text(2, "back"))],
            vec![],
        ),
        front(var("name"), int(3, 40)),
    ])
}

/// "path": the condition around the resource has the label.
pub fn part_path() -> Asking {
    asking(vec![if_else(
        told(boolean(7, true)),
        vec![shown(int(2, 40))],
        vec![],
    )])
}

/// A condition's set is "for case also the patterns tried".
pub fn part_path_pattern() -> Asking {
    asking(vec![case(
        int(2, 5),
        vec![(told(int(7, 6)), vec![]), (int(3, 5), vec![shown(int(4, 40))])],
    )])
}

/// The path goes "through declarations too"; the trail has the label as well.
pub fn part_path_declaration() -> Asking {
    asking(vec![
        class_definition("shop", None, vec![], vec![shown(int(2, 40))]),
        if_else(told(boolean(7, true)), vec![include("shop")], vec![]),
    ])
}

/// "through declarations too": a 28.
pub fn part_path_class_with() -> Asking {
    asking(vec![
        class_definition("shop", None, vec![], vec![shown(int(2, 40))]),
        if_else(told(boolean(7, true)), vec![class_with("shop", vec![])], vec![]),
    ])
}

/// "through declarations too": a parent's.
pub fn part_path_parent() -> Asking {
    asking(vec![
        class_definition("shop", None, vec![], vec![shown(int(2, 40))]),
        class_definition("corner", Some(parent("shop")), vec![], vec![]),
        if_else(told(boolean(7, true)), vec![include("corner")], vec![]),
    ])
}

/// "through declarations too": a 27 in the body of another.
pub fn part_path_type_body() -> Asking {
    asking(vec![
        type_definition("booth", vec![], vec![shown(int(2, 40))]),
        type_definition("hall", vec![], vec![defined("booth", text(3, "b"), vec![])]),
        if_else(
            told(boolean(7, true)),
            vec![defined("hall", text(4, "h"), vec![])],
            vec![],
        ),
    ])
}

/// "the union over the conditions enclosing the statement": the outer one.
pub fn part_path_outer() -> Asking {
    let inner = if_else(boolean(2, false), vec![], vec![shown(int(3, 40))]);
    asking(vec![if_else(told(boolean(7, true)), vec![inner], vec![])])
}

/// "a label that was in the trail when an enclosing condition was tested is in
/// the path".
pub fn part_path_trail_before() -> Asking {
    asking(vec![
        quiet(),
        if_else(told(boolean(7, false)), vec![include("quiet")], vec![]),
        if_else(boolean(2, true), vec![shown(int(3, 40))], vec![]),
    ])
}

/// "the trail when the resource is added": a branch not taken holds an include.
pub fn part_trail() -> Asking {
    asking(vec![
        quiet(),
        if_else(told(boolean(7, false)), vec![include("quiet")], vec![]),
        shown(int(2, 40)),
    ])
}

/// The trail has grown since the condition around the resource was tested.
pub fn part_trail_inside() -> Asking {
    asking(vec![
        quiet(),
        if_else(
            boolean(2, true),
            vec![
                if_else(told(boolean(7, false)), vec![include("quiet")], vec![]),
                shown(int(3, 40)),
            ],
            vec![],
        ),
    ])
}

/// "one set for the whole compile": a body that has ended added to it.
pub fn part_trail_from_body() -> Asking {
    let test = if_else(told(boolean(7, false)), vec![include("quiet")], vec![]);
    asking(vec![
        quiet(),
        type_definition("booth", vec![], vec![test]),
        defined("booth", text(2, "b"), vec![]),
        shown(int(3, 40)),
    ])
}

/// "marks its expression read": a branch not taken assigns what the attribute
/// reads.
pub fn part_marks() -> Asking {
    asking(vec![assign("x", int(2, 40)), marking(3), shown(var("x"))])
}

/// "the marks of every scope tried": the class has the mark and the top the
/// value.
pub fn part_marks_scope_tried() -> Asking {
    asking(vec![
        assign("x", int(2, 40)),
        class_definition("shop", None, vec![], vec![marking(3), shown(var("x"))]),
        include("shop"),
    ])
}

/// "the marks of every scope tried": class, parent, node and top each have one,
/// that one with label 7; the top has the value.
pub fn marks_of_scope(asked: usize) -> Asking {
    let mark = |scope: usize| match scope == asked {
        true => marking(3),
        false => if_else(boolean(4, false), vec![assign("x", int(3, 55))], vec![]),
    };
    asking(vec![
        assign("x", int(2, 40)),
        mark(3),
        class_definition("chain", None, vec![], vec![mark(1)]),
        class_definition(
            "shop",
            Some(parent("chain")),
            vec![],
            vec![mark(0), shown(var("x"))],
        ),
        node_default(vec![mark(2), include("shop")]),
    ])
}

/// A 14 "takes top's mark".
pub fn part_marks_top_variable() -> Asking {
    asking(vec![assign("x", int(2, 40)), marking(3), shown(top_var("x"))])
}

/// A 15 takes "the class's" mark.
pub fn part_marks_class_variable() -> Asking {
    asking(vec![
        class_definition("shop", None, vec![], vec![assign("x", int(2, 40)), marking(3)]),
        include("shop"),
        shown(class_var("shop", "x")),
    ])
}

/// "every variable read": the first of two has the mark.
pub fn part_marks_first_read() -> Asking {
    asking(vec![
        assign("x", int(2, 40)),
        assign("z", int(3, 1)),
        marking(4),
        shown(binary(ADD, var("x"), var("z"))),
    ])
}

/// "every variable read": what a selector chooses has the mark, what it tests
/// has none.
pub fn part_marks_chosen() -> Asking {
    asking(vec![
        assign("x", int(2, 40)),
        assign("z", int(3, 1)),
        marking(4),
        shown(select(var("z"), vec![(default(), var("x"))])),
    ])
}

/// "also of reads whose value is then dropped": a selector tests the variable
/// and gives another value.
pub fn part_marks_dropped() -> Asking {
    asking(vec![
        assign("x", int(2, 40)),
        marking(3),
        shown(select(var("x"), vec![(default(), int(4, 50))])),
    ])
}

/// A read whose value "or" drops for its right side.
pub fn part_marks_dropped_operand() -> Asking {
    asking(vec![
        assign("x", boolean(2, false)),
        marking(3),
        shown(binary(OR, var("x"), boolean(4, true))),
    ])
}

/// "every variable read made while the attribute's own expression is
/// evaluated": the title of an 18.
pub fn part_marks_title_of_read() -> Asking {
    asking(vec![
        assign("x", text(2, "there")),
        marking(3),
        built_in("wall", text(4, "there"), vec![given("price", int(5, 40))]),
        shown(attribute_of("wall", "price", var("x"))),
    ])
}

/// "value (the rest)": a constant.
pub fn part_value() -> Asking {
    asking(vec![shown(told(int(7, 40)))])
}

/// "value (the rest)": the stored set of a variable.
pub fn part_value_stored() -> Asking {
    asking(vec![assign("x", told(int(7, 40))), shown(var("x"))])
}

/// "value (the rest)": the stored set holds the marks read when it was assigned;
/// the variable read now has none.
pub fn part_value_stored_mark() -> Asking {
    asking(vec![
        assign("x", int(2, 40)),
        marking(3),
        assign("y", var("x")),
        shown(var("y")),
    ])
}

/// "value (the rest)": a parameter's default.
pub fn part_value_default() -> Asking {
    asking(vec![
        shop(told(int(7, 40)), vec![shown(var("fee"))]),
        include("shop"),
    ])
}

/// "an attribute read's is title expression and attribute": the title of an 18.
pub fn part_value_title_of_read() -> Asking {
    asking(vec![
        built_in("wall", text(2, "there"), vec![given("price", int(3, 40))]),
        shown(attribute_of("wall", "price", told(text(7, "there")))),
    ])
}

/// An empty string is a title like others.
pub fn part_value_empty_title() -> Asking {
    Asking {
        title: "",
        ..asking(vec![front(text(2, ""), told(int(7, 40)))])
    }
}

/// "A label is one byte, 0 to 255": the set holds this one alone besides the
/// title's.
pub fn with_label(label: u8) -> Asking {
    Asking {
        label,
        ..asking(vec![front(text(7, "front"), told(int(label, 40)))])
    }
}

/// "value (the rest)": a pattern that a selector tried.
pub fn part_value_pattern() -> Asking {
    asking(vec![shown(select(
        int(2, 5),
        vec![(told(int(7, 6)), int(3, 40)), (default(), int(4, 50))],
    ))])
}

/// The marked variable was read for another resource: not "its expression".
pub fn part_value_read_elsewhere() -> Asking {
    asking(vec![
        assign("x", int(2, 40)),
        marking(3),
        built_in("wall", text(4, "there"), vec![given("price", var("x"))]),
        shown(attribute_of("wall", "price", text(5, "there"))),
    ])
}

/// The attributes before and after read the mark: not "its expression".
pub fn part_value_other_attributes() -> Asking {
    asking(vec![
        assign("x", int(2, 3)),
        marking(3),
        built_in(
            "kiosk",
            text(4, "front"),
            vec![
                given("open", var("x")),
                given("price", int(7, 40)),
                given("screens", var("x")),
            ],
        ),
    ])
}

/// The marked variable was read for a parameter of that name: not "its
/// expression".
pub fn part_value_given() -> Asking {
    asking(vec![
        type_definition(
            "booth",
            vec![parameter("price", None)],
            vec![built_in(
                "kiosk",
                var("title"),
                vec![given("price", var("price"))],
            )],
        ),
        assign("x", int(2, 40)),
        marking(3),
        defined("booth", text(4, "front"), vec![given("price", var("x"))]),
    ])
}

// A label in two parts: the first is told.

/// "the first part of that set holding the label": title before path, though
/// the path brought the lowest place.
pub fn two_title_path() -> Asking {
    asking(vec![if_else(
        told(boolean(7, true)),
        vec![front(text(7, "front"), int(2, 40))],
        vec![],
    )])
}

/// Path before trail.
pub fn two_path_trail() -> Asking {
    asking(vec![
        quiet(),
        if_else(
            told(boolean(7, true)),
            vec![include("quiet"), shown(int(2, 40))],
            vec![],
        ),
    ])
}

/// Path before marks.
pub fn two_path_marks() -> Asking {
    asking(vec![
        assign("x", int(2, 40)),
        marking(3),
        if_else(boolean(7, true), vec![shown(var("x"))], vec![]),
    ])
}

/// Trail before marks: the branch not taken holds an assignment and an include.
pub fn two_trail_marks() -> Asking {
    asking(vec![
        quiet(),
        assign("x", int(2, 40)),
        if_else(
            told(boolean(7, false)),
            vec![assign("x", int(3, 55)), include("quiet")],
            vec![],
        ),
        shown(var("x")),
    ])
}

/// Marks before value: what was assigned in the branch has its path in the
/// stored set too.
pub fn two_marks_value() -> Asking {
    asking(vec![
        if_else(told(boolean(7, true)), vec![assign("x", int(2, 40))], vec![]),
        shown(var("x")),
    ])
}

/// Title before value.
pub fn two_title_value() -> Asking {
    asking(vec![front(told(text(7, "front")), int(7, 40))])
}

// Not among them.

/// "precisely when the set lacks the label": another statement evaluated the
/// constant.
pub fn not_among() -> Asking {
    asking(vec![assign("y", int(7, 1)), shown(int(2, 40))])
}

/// No constant has the label.
pub fn not_among_unused() -> Asking {
    asking(vec![shown(int(2, 40))])
}

/// The only constant with the label is not met.
pub fn not_among_unmet() -> Asking {
    asking(vec![
        if_else(boolean(1, false), vec![assign("y", int(7, 1))], vec![]),
        shown(int(2, 40)),
    ])
}

/// Another attribute of the resource has the label.
pub fn not_among_other_attribute() -> Asking {
    asking(vec![built_in(
        "kiosk",
        text(1, "front"),
        vec![given("screens", int(7, 2)), given("price", int(2, 40))],
    )])
}

/// Another attribute of the resource reads the mark.
pub fn not_among_other_marks() -> Asking {
    asking(vec![
        assign("x", int(1, 2)),
        marking(2),
        built_in(
            "kiosk",
            text(3, "front"),
            vec![given("price", int(4, 40)), given("screens", var("x"))],
        ),
    ])
}

/// A 14 does not try the node, which has the mark.
pub fn not_among_scope_not_tried() -> Asking {
    asking(vec![
        assign("x", int(1, 2)),
        node_default(vec![marking(2), shown(top_var("x"))]),
    ])
}

/// The node has the value, so that the top, which has the mark, is not tried.
pub fn not_among_scope_above() -> Asking {
    asking(vec![
        marking(1),
        node_default(vec![assign("x", int(2, 40)), shown(var("x"))]),
    ])
}

/// "A type body's parent is its base": the class that declares it, which has the
/// mark, is not tried.
pub fn not_among_declarer() -> Asking {
    asking(vec![
        assign("x", int(1, 40)),
        type_definition("booth", vec![], vec![shown(var("x"))]),
        class_definition(
            "shop",
            None,
            vec![],
            vec![marking(2), defined("booth", text(3, "b"), vec![])],
        ),
        include("shop"),
    ])
}

/// "Skipped operands": the marked variable is not read.
pub fn not_among_skipped_read() -> Asking {
    asking(vec![
        assign("x", boolean(1, true)),
        marking(2),
        shown(binary(OR, boolean(3, true), var("x"))),
    ])
}

/// The trail gets the label after the resource is added.
pub fn not_among_trail_later() -> Asking {
    asking(vec![
        quiet(),
        shown(int(1, 40)),
        if_else(boolean(7, false), vec![include("quiet")], vec![]),
    ])
}

// 27, the catalog has no such attribute.

/// "also for strings that are not in the table": the type.
pub fn no_type_string() -> Asking {
    Asking {
        kind: "tablet",
        ..asking(vec![shown(int(7, 40))])
    }
}

/// "also for strings that are not in the table": the title.
pub fn no_title_string() -> Asking {
    Asking {
        title: "back",
        ..asking(vec![shown(int(7, 40))])
    }
}

/// "also for strings that are not in the table": the attribute.
pub fn no_attribute_string() -> Asking {
    Asking {
        attribute: "screens",
        ..asking(vec![shown(int(7, 40))])
    }
}

/// "also for strings that are not in the table": an empty one.
pub fn no_empty_string() -> Asking {
    Asking {
        title: "",
        ..asking(vec![shown(int(7, 40))])
    }
}

/// Type, title and attribute are in the catalog, of two resources.
pub fn no_resource() -> Asking {
    asking(vec![
        built_in("kiosk", text(1, "back"), vec![given("price", int(7, 40))]),
        built_in("gate", text(2, "front"), vec![given("price", int(7, 50))]),
    ])
}

/// The resource stands in a branch not taken.
pub fn no_resource_in_branch() -> Asking {
    asking(vec![if_else(boolean(7, false), vec![shown(int(2, 40))], vec![])])
}

/// The resource is another device's.
pub fn no_resource_for_device() -> Asking {
    Asking {
        device: "gym",
        ..asking(vec![node(&["desk"], vec![shown(int(7, 40))])])
    }
}

/// "A defined type is known, and never in the catalog".
pub fn no_resource_of_defined_type() -> Asking {
    Asking {
        kind: "booth",
        ..asking(vec![
            type_definition("booth", vec![parameter("price", None)], vec![]),
            defined("booth", text(1, "front"), vec![given("price", int(7, 40))]),
        ])
    }
}

/// "for a resource without that attribute"; another resource has one.
pub fn no_attribute() -> Asking {
    asking(vec![
        built_in("kiosk", text(7, "front"), vec![given("screens", int(7, 2))]),
        built_in("gate", text(7, "back"), vec![given("price", int(7, 40))]),
    ])
}

/// The resource has no attribute; "title" is none.
pub fn no_attribute_at_all() -> Asking {
    Asking {
        attribute: "title",
        ..asking(vec![
            assign("title", int(7, 1)),
            built_in("kiosk", text(7, "front"), vec![]),
        ])
    }
}

/// A manifest without items.
pub fn no_item() -> Asking {
    asking(vec![])
}

// Refusals of the compile, which 27 follows.

/// 1 comes first.
pub fn refused_memory() -> Asking {
    Asking {
        memory: 65_535,
        ..asking(vec![shown(var("x"))])
    }
}

/// 3, of a manifest that would not run.
pub fn refused_field() -> Asking {
    asking(vec![shown(int(7, 40)), told(Field::new(0x17))])
}

/// 13, after the resource was added.
pub fn refused_after_resource() -> Asking {
    asking(vec![shown(int(7, 40)), assign("y", told(var("x")))])
}

/// "it follows all of the compile's own refusals".
pub fn refused_before_27() -> Asking {
    Asking {
        kind: "tablet",
        ..asking(vec![assign("y", told(var("x")))])
    }
}
