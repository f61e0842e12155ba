//! The named questions.

use super::*;
use crate::answer::Answer;
use crate::case::Case;
use crate::why_definitions::*;
use crate::why_large::*;
use crate::why_named::*;
use crate::why_places::*;
use std::collections::BTreeSet;

/// "the first part of that set holding the label by 01's rules".
#[test]
fn title_expression() {
    tells(part_title(), Part::Title);
    tells(part_title_mark(), Part::Title);
}

/// "the path that 01 carries along (a label that was in the trail when an
/// enclosing condition was tested is in the path)".
#[test]
fn path() {
    tells(part_path(), Part::Path);
    tells(part_path_pattern(), Part::Path);
    tells(part_path_declaration(), Part::Path);
    tells(part_path_trail_before(), Part::Path);
}

/// "the union over the conditions enclosing the statement, through declarations
/// too".
#[test]
fn path_through_declarations() {
    tells(part_path_class_with(), Part::Path);
    tells(part_path_parent(), Part::Path);
    tells(part_path_type_body(), Part::Path);
    tells(part_path_outer(), Part::Path);
}

/// "the trail when the resource is added".
#[test]
fn trail() {
    tells(part_trail(), Part::Trail);
    tells(part_trail_inside(), Part::Trail);
    tells(part_trail_from_body(), Part::Trail);
    lacks(not_among_trail_later());
}

/// "the marks of every scope tried by every variable read made while the
/// attribute's own expression is evaluated, also of reads whose value is then
/// dropped".
#[test]
fn marks() {
    tells(part_marks(), Part::Marks);
    tells(part_marks_scope_tried(), Part::Marks);
    tells(part_marks_top_variable(), Part::Marks);
    tells(part_marks_class_variable(), Part::Marks);
    tells(part_marks_first_read(), Part::Marks);
    tells(part_marks_chosen(), Part::Marks);
    tells(part_marks_dropped(), Part::Marks);
    tells(part_marks_dropped_operand(), Part::Marks);
    tells(part_marks_title_of_read(), Part::Marks);
    lacks(not_among_other_marks());
    lacks(not_among_scope_not_tried());
    lacks(not_among_skipped_read());
}

/// "every scope tried", each by itself, and no other.
#[test]
fn marks_of_scopes() {
    for scope in 0..4 {
        tells(marks_of_scope(scope), Part::Marks);
    }
    lacks(not_among_scope_above());
    lacks(not_among_declarer());
}

/// "value, which is the rest".
#[test]
fn value() {
    tells(part_value(), Part::Value);
    tells(part_value_stored(), Part::Value);
    tells(part_value_stored_mark(), Part::Value);
    tells(part_value_default(), Part::Value);
    tells(part_value_title_of_read(), Part::Value);
    tells(part_value_empty_title(), Part::Value);
    tells(part_value_pattern(), Part::Value);
    tells(part_value_read_elsewhere(), Part::Value);
    tells(part_value_other_attributes(), Part::Value);
    tells(part_value_given(), Part::Value);
}

/// "A label is one byte, 0 to 255".
#[test]
fn every_label() {
    for label in (0..=255).filter(|label| *label != 7) {
        tells(with_label(label), Part::Value);
    }
    tells(two_title_value(), Part::Title);
}

/// "gives the first part of that set holding the label".
#[test]
fn first_of_two_parts() {
    tells(two_title_path(), Part::Title);
    tells(two_title_value(), Part::Title);
    tells(two_path_trail(), Part::Path);
    tells(two_path_marks(), Part::Path);
    tells(two_trail_marks(), Part::Trail);
    tells(two_marks_value(), Part::Marks);
}

/// "the lowest of any constant with that label that the whole compile evaluated
/// as an expression"; "it need not have brought the label into this set".
#[test]
fn evaluated() {
    tells(met_evaluated(), Part::Value);
    tells(met_later(), Part::Value);
    tells(met_in_second_run(), Part::Value);
}

/// "tried as a pattern (the matching one included)".
#[test]
fn pattern_tried() {
    tells(met_pattern(), Part::Value);
    tells(met_pattern_matching(), Part::Value);
    tells(met_pattern_behind_default(), Part::Value);
    tells(met_pattern_other_kind(), Part::Value);
    tells(met_pattern_of_case(), Part::Value);
    tells(met_pattern_of_case_matching(), Part::Value);
}

/// "assigned to a parameter as its default".
#[test]
fn default_assigned() {
    tells(met_default_of_class(), Part::Value);
    tells(met_default_of_class_with(), Part::Value);
    tells(met_default_of_parent(), Part::Value);
    tells(met_default_of_type(), Part::Value);
}

/// "arms and branches not taken ... do not count", nor patterns not tried.
#[test]
fn not_taken() {
    tells(unmet_branch(), Part::Value);
    tells(unmet_else(), Part::Value);
    tells(unmet_case_arm(), Part::Value);
    tells(unmet_case_pattern(), Part::Value);
    tells(unmet_selector_arm(), Part::Value);
    tells(unmet_selector_pattern(), Part::Value);
    tells(unmet_selector_default(), Part::Value);
    tells(unmet_second_default(), Part::Value);
    tells(unmet_nested(), Part::Value);
}

/// "Skipped operands ... do not count."
#[test]
fn skipped_operands() {
    tells(unmet_and(), Part::Value);
    tells(unmet_or(), Part::Value);
}

/// "bodies not run do not count".
#[test]
fn bodies_not_run() {
    tells(unmet_class_body(), Part::Value);
    tells(unmet_type_body(), Part::Value);
    tells(unmet_node(), Part::Value);
}

/// A default counts where it is "assigned to a parameter" and nowhere else.
#[test]
fn default_not_assigned() {
    tells(unmet_default_given(), Part::Value);
    tells(unmet_default_given_to_type(), Part::Value);
    tells(unmet_default_declared(), Part::Value);
    tells(unmet_default_of_declared_parent(), Part::Value);
    tells(unmet_default_declared_meanwhile(), Part::Value);
    tells(unmet_default_parent_declared_meanwhile(), Part::Value);
}

/// "a class or type must be usable before its definition": the constants told
/// stand in those that are, or before them.
#[test]
fn definitions_later() {
    tells(part_value_class_later(), Part::Value);
    tells(part_value_default_later(), Part::Value);
    tells(part_path_class_later(), Part::Path);
    tells(met_class_later(), Part::Value);
    tells(unmet_class_later(), Part::Value);
}

/// "'Not among them' comes back precisely when the set lacks the label."
#[test]
fn set_lacks_the_label() {
    lacks(not_among());
    lacks(not_among_unused());
    lacks(not_among_unmet());
    lacks(not_among_other_attribute());
}

/// "27 at 0 ...: also for strings that are not in the table, and for a resource
/// without that attribute."
#[test]
fn no_such_attribute() {
    let all = [
        no_type_string(),
        no_title_string(),
        no_attribute_string(),
        no_empty_string(),
        no_resource(),
        no_resource_in_branch(),
        no_resource_for_device(),
        no_resource_of_defined_type(),
        no_resource_of_later_type(),
        no_attribute(),
        no_attribute_at_all(),
        no_item(),
    ];
    for asking in all {
        refuses(asking, 27, 0);
    }
}

/// 27 "follows all of the compile's own refusals".
#[test]
fn compile_refuses_first() {
    refuses(refused_memory(), 1, 0);
    for (asking, number) in [
        (refused_field(), 3),
        (refused_after_resource(), 13),
        (refused_before_27(), 13),
        (refused_twice(), 8),
        (refused_twice_before_run(), 8),
    ] {
        let place = place_told(&asking);
        refuses(asking, number, place);
    }
}

/// The large ones are as large as they may be.
#[test]
fn large() {
    assert_eq!(large_one_label().case().manifest.len(), 65_535);
    tells(large_one_label(), Part::Value);
    let (answer, _) = Case::of(large_steps().case().manifest).compile().expect("clean");
    assert!(matches!(answer, Answer::Catalog { steps: 65_535, .. }));
    tells(large_steps(), Part::Value);
}

/// Each name is one question's, and its first word says what is answered.
#[test]
fn names() {
    let names: BTreeSet<&str> = WHY_NAMED.iter().map(|(name, _)| *name).collect();
    assert_eq!(names.len(), WHY_NAMED.len());
    for (name, make) in WHY_NAMED {
        let answer = make().case().answer();
        let as_named = match name.split('-').next() {
            Some("not") => answer == Why::NotAmong,
            Some("no") => matches!(answer, Why::Refused(refusal) if refusal.reason as u8 == 27),
            Some("refused") => matches!(answer, Why::Refused(refusal) if refusal.reason as u8 != 27),
            _ => matches!(answer, Why::Among { .. }),
        };
        assert!(as_named, "{name}: {answer:?}");
    }
    assert!(why_named("nothing").is_none());
}
