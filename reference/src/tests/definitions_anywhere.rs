//! "Definitions anywhere" (document 02): "a class or type must be usable before
//! its definition. All definitions are gathered first, and looking one up now
//! finds a later one. Refusal 8 moves: it is given after 5 and before any step.
//! Demand 3 covers such uses too."

use super::demand::{accepted, edited, promise_holds};
use super::*;
use crate::arrange::{is_definition, scatter};
use crate::case::Outcome;
use crate::compile;
use crate::generate::{cases, whole_program};
use crate::labels::Labels;
use crate::modes::Tally;
use crate::named_definitions::*;
use crate::random::Random;
use crate::shapes::shape;
use crate::special::{all_named, named};
use crate::text_case::TextCase;
use crate::tree::{Definition, Item, Sort};
use crate::used_early::{answers, first_use, tells};
use crate::walk::{self, Met};
use std::collections::{BTreeMap, BTreeSet};

/// x is 40, with the title's 1 and the constant's 2.
const FORTY: &str = "kiosk front x 40 2 1,2";

fn class(name: &str) -> Field {
    class_definition(name, None, vec![], vec![])
}

fn kind(name: &str) -> Field {
    type_definition(name, vec![], vec![])
}

/// Each form that declares finds a later definition. Steps: the declaration and
/// the resource.
#[test]
fn declared_before_its_definition() {
    check(later_include(), &[FORTY, "steps 2"]);
    check(later_class_with(), &[FORTY, "steps 2"]);
    check(later_type(), &[FORTY, "steps 2"]);
    // Three declarations, each in the body of the one before.
    check(later_in_body(), &[FORTY, "steps 4"]);
    // The class finds the node's fee, since it was declared there.
    check(later_in_node(), &[FORTY, "steps 4"]);
}

/// A parent too, after its child and after the use. Steps: the include, one for
/// each parent, the assignment, the resource. From level 0, 16 parents pass and
/// the 17th is 7 at its 35.
#[test]
fn parent_behind_its_child() {
    check(later_parent(), &[FORTY, "steps 4"]);
    check(later_parents(15), &[FORTY, "steps 18"]);
    check(reversed_definitions(later_parents(15)), &[FORTY, "steps 18"]);
    check(later_parents(16), &[FORTY, "steps 19"]);
    refuse(later_parents(17), 7, "refused");
    refuse(reversed_definitions(later_parents(17)), 7, "refused");
    refuse(never_parent(), 9, "refused");
}

/// "two classes inheriting each other: 7, given steps": 18 of them, and R14 asks
/// 6 before 7.
#[test]
fn inheriting_each_other_behind() {
    refuse(later_inherit_each_other(), 7, "refused");
    refuse_limited(later_inherit_each_other(), 18, 7, "refused");
    refuse_limited(later_inherit_each_other(), 17, 6, "refused");
}

/// "a 15 of a class defined later and not declared is 13"; declared, it has its
/// value; "A name "not known" (9) is one not defined in the whole manifest".
#[test]
fn class_variables() {
    refuse(later_class_variable_undeclared(), 13, "refused");
    check(later_class_variable(), &[FORTY, "steps 3"]);
    refuse(never_class_variable(), 9, "refused");
}

/// "an 18 of a type defined later is 19"; R18 asks the title first.
#[test]
fn attribute_reads() {
    refuse(later_attribute_read(), 19, "refused");
    refuse(never_attribute_read(), 9, "refused");
    let read = |title: Field| show(attribute_of("booth", "fee", title).at("18"));
    let later = |title: Field| items(vec![read(title), kind("booth")]);
    refuse(later(int(1, 1).at("title")), 15, "title");
    refuse(later(var("unset").at("title")), 13, "title");
}

/// "9. The class or type is unknown (a name of the other sort is)", also one
/// defined later; and a 25 names a built-in type or nothing.
#[test]
fn other_sorts() {
    let title = || text(1, "front");
    refuse(other_sort(include("booth")), 9, "refused");
    refuse(other_sort(class_with("booth", vec![])), 9, "refused");
    refuse(other_sort(defined("shop", title(), vec![])), 9, "refused");
    refuse(other_sort(built_in("booth", title(), vec![])), 9, "refused");
    refuse(other_sort(built_in("shop", title(), vec![])), 9, "refused");
    refuse(other_sort_parent(), 9, "refused");
    refuse(other_sort_read(class_var("booth", "fee")), 9, "refused");
    refuse(
        other_sort_read(attribute_of("shop", "fee", title())),
        9,
        "refused",
    );
}

/// Running a definition does nothing: no step, no cell, no class declared; and
/// what it is worth does not depend on where it stands.
#[test]
fn definition_items_do_nothing() {
    let definitions = || vec![class("a"), kind("b"), class("c")];
    assert_eq!(
        answer_limited(&items(definitions()), 0),
        Answer::Catalog { length: 0, steps: 0 }
    );
    for at in 0..=3 {
        let mut list = definitions();
        list.insert(at, include("c"));
        check(items(list), &["steps 1"]);
    }
    let mut list = filling(512);
    list.extend(definitions());
    list.push(include("a"));
    check(items(list), &["steps 513"]);
}

/// A class defined later is declared once: the second include does nothing past
/// its step, and a 28 is 10.
#[test]
fn declared_once() {
    let shown = || class_definition("shop", None, vec![], vec![show(int(1, 1))]);
    let again = items(vec![include("shop"), include("shop"), shown()]);
    check(again, &["kiosk front x 1 2 0,1", "steps 3"]);
    let with = class_with("shop", vec![]).at("28");
    refuse(items(vec![include("shop"), with, shown()]), 10, "28");
}

/// 11, 12, 14 and 21 are of the definition found, wherever it stands.
#[test]
fn parameters_of_a_later_definition() {
    let one = || int(1, 1);
    let booth = || type_definition("booth", vec![parameter("p", None).at("33")], vec![]);
    let declare = |values: Vec<Field>| items(vec![defined("booth", text(1, "a"), values), booth()]);
    check(declare(vec![given("p", one())]), &["steps 1"]);
    refuse(declare(vec![given("q", one()).at("26")]), 11, "26");
    refuse(declare(vec![]), 12, "33");
    let twice = vec![given("p", one()), given("p", one()).at("26")];
    refuse(declare(twice), 21, "26");
    let parameters = vec![parameter("p", Some(one())), parameter("p", Some(one())).at("33")];
    let class = class_definition("c", None, parameters, vec![]);
    refuse(items(vec![include("c"), class]), 14, "33");
}

/// "any branch holds a 27, 28 or 29": of a class defined later the include joins
/// the trail, also where it is not taken.
#[test]
fn trail_and_path_of_a_later_definition() {
    let manifest = |taken: bool| {
        items(vec![
            if_else(boolean(3, taken), vec![include("shop")], vec![]),
            show(int(2, 2)),
            class_definition("shop", None, vec![], vec![built_in("wall", text(4, "w"), vec![])]),
        ])
    };
    let last = "kiosk front x 2 3 0,2,3";
    check(manifest(true), &["wall w - - 2 3,4", last, "steps 4"]);
    check(manifest(false), &[last, "steps 2"]);
}

/// The four ways to define a name twice.
fn pairs() -> Vec<Manifest> {
    let sorts = [class, kind];
    let pair = |first: fn(&str) -> Field, second: fn(&str) -> Field| twice(first("shop"), second("shop"));
    sorts
        .iter()
        .flat_map(|first| sorts.iter().map(|second| pair(*first, *second)))
        .collect()
}

/// "8 at the first item, by place, whose name an earlier item defines or that is
/// a built-in type's; before any step, also with limit 0".
#[test]
fn defined_again() {
    for limit in [0, 1, 2, u16::MAX] {
        for manifest in pairs() {
            refuse_limited(manifest, limit, 8, "refused");
        }
        refuse_limited(built_in_class_first(), limit, 8, "refused");
        refuse_limited(built_in_type_last(), limit, 8, "refused");
        refuse_limited(twice_two(), limit, 8, "refused");
        refuse_limited(twice_behind_a_refusal(), limit, 8, "refused");
    }
    // Neither of the two is used, nor could be declared.
    let lacking = || {
        let needs = vec![parameter("p", None)];
        class_definition("a", Some(parent("none")), needs, vec![])
    };
    refuse(items(vec![lacking(), lacking().at("second")]), 8, "second");
    // The third of a name is not the first fault.
    refuse(
        items(vec![kind("a"), class("b"), kind("a").at("second"), kind("a")]),
        8,
        "second",
    );
}

/// Whatever the device: whether a node runs, which one, or none.
#[test]
fn defined_again_for_every_device() {
    let built = twice_without_node().build();
    let place = built.place("refused");
    for device in ["", "gym", "elsewhere", "shop"] {
        let case = Case {
            device: device.into(),
            ..Case::of(built.bytes.clone())
        };
        let answer = case.compile().expect("clean").0;
        assert_eq!(answer, Answer::Refused { number: 8, place });
    }
}

/// Items that the run refuses with each number from 7 to 22.
fn refused_in_the_run() -> Vec<(u8, Vec<Field>)> {
    let one = || int(1, 1);
    let y = |value: Field| vec![assign("y", value)];
    let wall = |values: Vec<Field>| built_in("wall", text(1, "w"), values);
    let mut level = vec![type_definition(
        "level",
        vec![],
        vec![defined("level", text(1, "a"), vec![])],
    )];
    level.push(defined("level", text(1, "a"), vec![]));
    let needy = || class_definition("needy", None, vec![parameter("p", None)], vec![]);
    vec![
        (7, level),
        (9, vec![include("none")]),
        (10, vec![class("c"), include("c"), class_with("c", vec![])]),
        (11, vec![class("c"), class_with("c", vec![given("q", one())])]),
        (12, vec![needy(), include("needy")]),
        (13, y(var("unset"))),
        (14, vec![assign("y", one()), assign("y", one())]),
        (15, y(not(one()))),
        (16, y(binary(ADD, int(1, i64::MAX), one()))),
        (17, y(binary(DIVIDE, one(), int(1, 0)))),
        (18, y(select(one(), vec![(int(1, 2), one())]))),
        (19, y(attribute_of("wall", "p", text(1, "w")))),
        (20, vec![wall(vec![]), wall(vec![])]),
        (21, vec![wall(vec![given("p", one()), given("p", one())])]),
        (22, filling(513)),
    ]
}

/// "given after 5 and before any step": before everything that a run refuses,
/// also 6 and 23.
#[test]
fn before_the_run() {
    for (number, mut list) in refused_in_the_run() {
        match answer_limited(&items(list.clone()), u16::MAX) {
            Answer::Refused { number: alone, .. } => assert_eq!(alone, number),
            other => panic!("{number}: {other:?}"),
        }
        list.push(kind("wall").at("last"));
        refuse(items(list), 8, "last");
    }
    let built = twice(class("shop"), kind("shop")).build();
    let case = Case {
        output: 0,
        limit: 1,
        ..Case::of(built.bytes.clone())
    };
    let place = built.place("refused");
    let answer = case.compile().expect("clean").0;
    assert_eq!(answer, Answer::Refused { number: 8, place });
}

/// 1 to 5 come first, wherever their fault stands.
#[test]
fn after_the_reading() {
    let twice = || vec![class("shop"), class("shop")];
    let mut short = Case::of(items(twice()).build().bytes);
    short.memory -= 1;
    assert_eq!(
        short.compile().expect("clean").0,
        Answer::Refused { number: 1, place: 0 }
    );
    let mut long = items(twice()).build().bytes;
    long.resize(65_536, 0);
    assert_eq!(
        Case::of(long).compile().expect("clean").0,
        Answer::Refused { number: 2, place: 0 }
    );
    refuse(twice_and_faulty_field(), 3, "refused");
    let deep = (2..33).fold(boolean(1, true).at("deep"), |inner, _| not(inner));
    let mut list = twice();
    list.push(assign("x", deep));
    refuse(items(list), 4, "deep");
    refuse(twice_and_name_past_the_table(), 5, "refused");
    refuse(twice_and_falling_strings(), 5, "refused");
}

/// "Refusals of the printer: 2 to 5 ... (no 8, no 38)": names defined again are
/// printed and converted like others; the schedule printer compiles.
#[test]
fn text_tools_give_no_8() {
    let manifest = items(vec![class("shop"), kind("shop"), class("wall"), kind("shop")]).build();
    let text = TextCase::printing(manifest.bytes.clone()).answer();
    let again = TextCase::converting(text.expect("it prints")).answer();
    assert_eq!(again.expect("it converts"), manifest.bytes);
    let refused = items(vec![class("shop"), kind("shop").at("second")]);
    let place = refused.build().place("second");
    assert_eq!(printed("desk", &refused), format!("refused 8 at {place}\n"));
}

/// "Demand 3 covers such uses too": the edited constant has label 2 and stands
/// behind what uses its definition. What has 2 in its set changes, the gate does
/// not.
#[test]
fn edits_in_a_later_definition() {
    let gate = "gate g y 1 2 5,6";
    let edits: [(fn(i64) -> Manifest, &str); 4] = [
        (edit_class, "steps 4"),
        (edit_type, "steps 3"),
        (edit_default, "steps 3"),
        (edit_parent, "steps 5"),
    ];
    for (edit, steps) in edits {
        check(edit(40), &[FORTY, gate, steps]);
        check(edit(55), &["kiosk front x 55 2 1,2", gate, steps]);
    }
    // Not assigned, the class's fee has the mark 2 and the top's is read; assigned,
    // the path has it too.
    let not_own = ["kiosk front x 40 3 1,2,3", gate, "steps 5"];
    check(edit_condition(false), &not_own);
    let own = ["kiosk front x 55 3 1,2,4", gate, "steps 6"];
    check(edit_condition(true), &own);
    let both = |one: Manifest, other: Manifest| {
        let (one, other) = (accepted(&one), accepted(&other));
        let (one, other) = (one.expect("accepted"), other.expect("accepted"));
        let differing = Labels::one(2);
        assert!(promise_holds(&one, &other, &differing));
        assert!(promise_holds(&other, &one, &differing));
    };
    for (edit, _) in edits {
        both(edit(40), edit(55));
    }
    both(edit_condition(false), edit_condition(true));
}

fn any_manifest(random: &mut Random) -> Manifest {
    match random.chance(500) {
        true => whole_program(random),
        false => shape(random),
    }
}

/// Demand 3 where a definition is used before it stands.
#[test]
fn demand_3_on_early_uses() {
    let (mut both, mut telling, mut moved) = (0, 0, 0);
    for at in 0..4000 {
        let random = &mut Random::new(44, at);
        let manifest = any_manifest(random);
        if first_use(&Case::of(manifest.build().bytes)).is_none() {
            continue;
        }
        let Some(first) = accepted(&manifest) else {
            continue;
        };
        for _ in 0..4 {
            let (other, differing) = edited(random, &manifest);
            let Some(second) = accepted(&other) else {
                continue;
            };
            both += 1;
            telling += u32::from(differing != Labels::EMPTY);
            moved += u32::from(!promise_holds(&first, &second, &Labels::EMPTY));
            assert!(
                promise_holds(&first, &second, &differing),
                "case {at}: {differing:?}\n{manifest:?}\n{other:?}"
            );
        }
    }
    assert!(
        both > 2000 && telling > 1000 && moved > 200,
        "{both} both accepted, {telling} differ, {moved} catalogs change"
    );
}

/// A place by its item and how far into it. A definition is known by its name,
/// another item by how many of the others stand before it.
fn within_item(manifest: &[u8], place: u16) -> (Option<Vec<u16>>, usize, usize) {
    let fields = walk::fields(manifest);
    let outermost = fields.iter().filter(|field| field.depth == 1);
    let (definitions, others): (Vec<&Met>, Vec<&Met>) =
        outermost.partition(|field| matches!(field.tag, 0x32 | 0x34));
    let place = usize::from(place);
    let before = |field: &&&Met| field.place <= place;
    let definition = definitions.iter().rfind(before);
    let other = others.iter().rfind(before).expect("the string table");
    match definition {
        Some(item) if item.place > other.place => (Some(item.names()), 0, place - item.place),
        _ => {
            let rank = others.iter().filter(before).count();
            (None, rank, place - other.place)
        }
    }
}

/// Definitions elsewhere change nothing but places: the catalog, the steps, the
/// number and the field refused are the same, and are those of the former rule
/// if the definitions stand in front.
#[test]
fn definitions_moved() {
    let mut counts = [0; 3];
    for at in 0..3000 {
        let random = &mut Random::new(55, at);
        let manifest = any_manifest(random);
        let case = Case::of(manifest.build().bytes);
        let Some((now, _)) = answers(&case) else {
            continue;
        };
        if matches!(&now, Err(refusal) if refusal.reason as u8 == 8) {
            continue;
        }
        let mut in_front = manifest.clone();
        in_front.items.sort_by_key(|item| !is_definition(item));
        let mut scattered = manifest.clone();
        scatter(random, &mut scattered);
        let in_front = Case::of(in_front.build().bytes);
        let scattered = Case::of(scattered.build().bytes);
        let (front, formerly) = answers(&in_front).expect("it is read");
        assert_eq!(front, formerly, "case {at}");
        let (moved, _) = answers(&scattered).expect("it is read");
        let told = |outcome: &Outcome, case: &Case| match outcome {
            Ok(finished) => Ok(finished.clone()),
            Err(refusal) => Err((refusal.reason, within_item(&case.manifest, refusal.place))),
        };
        let expected = told(&now, &case);
        assert_eq!(told(&front, &in_front), expected, "case {at}");
        assert_eq!(told(&moved, &scattered), expected, "case {at}");
        counts[usize::from(now.is_ok())] += 1;
        counts[2] += usize::from(tells(&scattered));
    }
    assert!(
        counts[0] > 300 && counts[1] > 1000 && counts[2] > 700,
        "{counts:?}"
    );
}

/// What the former rule accepts gives the same catalog and steps.
#[test]
fn formerly_accepted() {
    let mut accepted = 0;
    for case in cases(66, 3000) {
        if let Some((now, Ok(formerly))) = answers(&case) {
            assert_eq!(now, Ok(formerly));
            accepted += 1;
        }
    }
    assert!(accepted > 500, "{accepted}");
}

fn tells_of(manifest: Manifest) -> (bool, Option<u8>) {
    let case = Case::of(manifest.build().bytes);
    (tells(&case), first_use(&case))
}

/// A case tells it if some definition is found before it stands, by whichever
/// form names it.
#[test]
fn telling_uses() {
    assert_eq!(tells_of(later_type()), (true, Some(0x27)));
    assert_eq!(tells_of(later_class_with()), (true, Some(0x28)));
    assert_eq!(tells_of(later_include()), (true, Some(0x29)));
    assert_eq!(tells_of(later_parent()), (true, Some(0x35)));
    assert_eq!(tells_of(later_class_variable_undeclared()), (true, Some(0x15)));
    assert_eq!(tells_of(later_attribute_read()), (true, Some(0x18)));
    // Defined before their use, never, or of the other sort: nothing is found that
    // was not.
    assert_eq!(tells_of(items(vec![class("a"), include("a")])), (false, None));
    assert_eq!(tells_of(never_class_variable()), (false, None));
    assert_eq!(tells_of(other_sort(include("booth"))), (false, None));
    // Defined later and not used, or not reached.
    assert_eq!(tells_of(items(vec![show(int(1, 1)), class("a")])), (false, None));
    let unset = assign("y", var("unset"));
    assert_eq!(
        tells_of(items(vec![unset, include("a"), class("a")])),
        (false, None)
    );
    let mut none = Case::of(later_include().build().bytes);
    none.limit = 0;
    assert!(!tells(&none));
    none.memory = 0;
    assert!(!tells(&none));
}

/// Where a name is defined again a case tells it if the run would have refused
/// before it came to the second definition.
#[test]
fn telling_refusals() {
    assert_eq!(tells_of(twice_behind_a_refusal()), (true, None));
    assert_eq!(tells_of(twice(class("a"), class("a"))), (false, None));
    let mut limited = Case::of(twice(class("a"), class("a")).build().bytes);
    limited.limit = 1;
    assert!(tells(&limited));
    // The second definition stands behind an early use, which was refused 9.
    let early = items(vec![include("a"), class("a"), class("a")]);
    assert_eq!(tells_of(early), (true, None));
}

/// Of the random cases that are accepted and hold a declaration a third or more
/// use a definition before it stands, and every form is the first to do so.
#[test]
fn random_cases_use_definitions_early() {
    let tally = Tally::of(2, 5000).expect("the bytes lent obey document 01");
    assert!(
        tally.declaring_early * 3 >= tally.declaring && tally.declaring > 1000,
        "{} of {}",
        tally.declaring_early,
        tally.declaring
    );
    let forms: Vec<u8> = tally.early.keys().copied().collect();
    assert_eq!(forms, [0x15, 0x18, 0x27, 0x28, 0x29, 0x35], "{:?}", tally.early);
}

/// What an 8 is: which sort is defined again by which, or a built-in type's
/// name; and what stands around it.
fn kinds_of_8(case: &Case, place: u16) -> Vec<&'static str> {
    let tree = compile::read(&case.manifest).expect("it is read");
    let definitions = tree.items.iter().filter_map(|item| match item {
        Item::Definition(definition) => Some(definition),
        _ => None,
    });
    let upto: Vec<&Definition> = definitions
        .filter(|definition| definition.place <= place)
        .collect();
    let (again, before) = upto.split_last().expect("the one refused");
    let first = before.iter().find(|earlier| earlier.name == again.name);
    let how = match (first.map(|first| first.sort), again.sort) {
        (Some(Sort::Class), Sort::Class) => "class, class",
        (Some(Sort::Class), Sort::Type) => "class, type",
        (Some(Sort::Type), Sort::Class) => "type, class",
        (Some(Sort::Type), Sort::Type) => "type, type",
        (None, Sort::Class) => "built in, class",
        (None, Sort::Type) => "built in, type",
    };
    let mut kinds = vec![how];
    let last = walk::fields(&case.manifest)
        .iter()
        .rfind(|field| field.depth == 1)
        .map(|field| field.place);
    kinds.extend((last == Some(usize::from(place))).then_some("last item"));
    kinds.extend((case.limit == 0).then_some("limit 0"));
    kinds.extend(tells(case).then_some("before a refusal of the run"));
    kinds
}

/// 8 occurs in every way.
#[test]
fn random_cases_define_again() {
    let mut seen: BTreeMap<&str, u32> = BTreeMap::new();
    for case in cases(3, 10_000) {
        if let Ok((Answer::Refused { number: 8, place }, _)) = case.compile() {
            for kind in kinds_of_8(&case, place) {
                *seen.entry(kind).or_insert(0) += 1;
            }
        }
    }
    assert_eq!(seen.len(), 9, "{seen:?}");
    assert!(seen.values().all(|times| *times >= 10), "{seen:?}");
}

/// Every named input but those for timing is accepted or refused as it is here.
#[test]
fn named_inputs() {
    let refused = |name: &str| match name {
        "later-parents-17" | "later-inherit-each-other" => 7,
        "later-class-variable-undeclared" => 13,
        "later-attribute-read" => 19,
        "twice-after-field" => 3,
        "twice-after-strings" | "twice-after-name" => 5,
        _ => match name.split('-').next() {
            Some("never" | "other") => 9,
            Some("twice") => 8,
            _ => 0,
        },
    };
    let names: BTreeSet<&str> = all_named().map(|(name, _)| name).collect();
    assert_eq!(names.len(), all_named().count());
    for (name, make) in ON_DEFINITIONS {
        if name.starts_with("time-") {
            continue;
        }
        let number = match make().compile().expect("clean").0 {
            Answer::Catalog { .. } => 0,
            Answer::Refused { number, .. } => number,
        };
        assert_eq!(number, refused(name), "{name}");
    }
}

/// The large inputs are as large as they may be, and answered as their names
/// say.
#[test]
fn large_inputs() {
    let answer = |name: &str| {
        let case = named(name).expect("there is one");
        let answer = case.compile().expect("clean").0;
        (case, answer)
    };
    let (case, of_definitions) = answer("time-definitions");
    assert_eq!(case.manifest.len(), 65_535);
    let fields = walk::fields(&case.manifest);
    assert_eq!(fields.iter().filter(|field| field.tag == 0x34).count(), 1024);
    assert!(matches!(of_definitions, Answer::Catalog { .. }));
    for name in ["time-definitions-steps", "time-definitions-reverse"] {
        let (_, steps) = answer(name);
        let expected = Answer::Catalog {
            length: 0,
            steps: 65_535,
        };
        assert_eq!(steps, expected);
    }
    assert!(matches!(answer("time-class-variables").1, Answer::Catalog { .. }));
    assert!(matches!(
        answer("time-twice-steps").1,
        Answer::Refused { number: 8, .. }
    ));
}
