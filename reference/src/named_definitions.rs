//! Named inputs on "Definitions anywhere" (document 02). Where one is refused,
//! the field at fault has the mark "refused".

use crate::arrange::is_definition;
use crate::assemble::*;
use crate::case::Case;
use crate::special::{balanced, front, limited, many_steps, ordinary, repeated, Named};

/// Every named input on definitions, in order.
pub const ON_DEFINITIONS: [Named; 51] = [
    ("later-include", || ordinary(later_include())),
    ("later-class-with", || ordinary(later_class_with())),
    ("later-type", || ordinary(later_type())),
    ("later-in-body", || ordinary(later_in_body())),
    ("later-in-node", || ordinary(later_in_node())),
    ("later-parent", || ordinary(later_parent())),
    ("later-parents-15", || ordinary(later_parents(15))),
    ("later-parents-15-reverse", || {
        ordinary(reversed_definitions(later_parents(15)))
    }),
    ("later-parents-16", || ordinary(later_parents(16))),
    ("later-parents-17", || ordinary(later_parents(17))),
    (
        "later-inherit-each-other",
        || ordinary(later_inherit_each_other()),
    ),
    ("later-class-variable", || ordinary(later_class_variable())),
    ("later-class-variable-undeclared", || {
        ordinary(later_class_variable_undeclared())
    }),
    ("later-attribute-read", || ordinary(later_attribute_read())),
    ("never-class-variable", || ordinary(never_class_variable())),
    ("never-attribute-read", || ordinary(never_attribute_read())),
    ("never-parent", || ordinary(never_parent())),
    ("other-sort-include", || ordinary(other_sort(include("booth")))),
    ("other-sort-class-with", || {
        ordinary(other_sort(class_with("booth", vec![])))
    }),
    ("other-sort-type", || {
        ordinary(other_sort(defined("shop", text(1, "front"), vec![])))
    }),
    ("other-sort-parent", || ordinary(other_sort_parent())),
    ("other-sort-class-variable", || {
        ordinary(other_sort_read(class_var("booth", "fee")))
    }),
    ("other-sort-attribute-read", || {
        ordinary(other_sort_read(attribute_of("shop", "fee", text(1, "front"))))
    }),
    ("twice-class", || ordinary(twice(shop(), shop()))),
    ("twice-type", || ordinary(twice(kind("shop"), kind("shop")))),
    ("twice-class-type", || ordinary(twice(shop(), kind("shop")))),
    ("twice-type-class", || ordinary(twice(kind("shop"), shop()))),
    ("twice-built-in-class", || ordinary(built_in_class_first())),
    ("twice-built-in-last", || ordinary(built_in_type_last())),
    ("twice-limit-0", || limited(twice(shop(), shop()), 0)),
    ("twice-two", || ordinary(twice_two())),
    ("twice-before-refusal", || ordinary(twice_behind_a_refusal())),
    ("twice-after-strings", || ordinary(twice_and_falling_strings())),
    ("twice-after-name", || ordinary(twice_and_name_past_the_table())),
    ("twice-after-field", || ordinary(twice_and_faulty_field())),
    ("twice-no-node", twice_for_no_node),
    ("edit-class-40", || ordinary(edit_class(40))),
    ("edit-class-55", || ordinary(edit_class(55))),
    ("edit-type-40", || ordinary(edit_type(40))),
    ("edit-type-55", || ordinary(edit_type(55))),
    ("edit-default-40", || ordinary(edit_default(40))),
    ("edit-default-55", || ordinary(edit_default(55))),
    ("edit-parent-40", || ordinary(edit_parent(40))),
    ("edit-parent-55", || ordinary(edit_parent(55))),
    ("edit-condition-false", || ordinary(edit_condition(false))),
    ("edit-condition-true", || ordinary(edit_condition(true))),
    ("time-definitions", many_definitions),
    ("time-definitions-reverse", || {
        ordinary(reversed_definitions(steps_first()))
    }),
    ("time-definitions-steps", || ordinary(steps_first())),
    ("time-class-variables", || ordinary(many_class_reads())),
    ("time-twice-steps", || ordinary(twice_behind_steps())),
];

fn refused(field: Field) -> Field {
    field.at("refused")
}

/// A class that gives fee 40 (2).
fn shop() -> Field {
    shop_with(40)
}

fn shop_with(fee: i64) -> Field {
    class_definition("shop", None, vec![], vec![assign("fee", int(2, fee))])
}

/// A type that does nothing.
fn kind(name: &str) -> Field {
    type_definition(name, vec![], vec![])
}

/// A type that shows its fee.
fn booth(fee: Field) -> Field {
    let entry = built_in("kiosk", var("title"), vec![given("x", var("fee"))]);
    type_definition("booth", vec![fee], vec![entry])
}

/// A gate (5) that has nothing to do with any definition.
fn gate() -> Field {
    built_in("gate", text(5, "g"), vec![given("y", int(6, 1))])
}

pub fn later_include() -> Manifest {
    let body = vec![front(int(2, 40))];
    Manifest::new(vec![
        include("shop"),
        class_definition("shop", None, vec![], body),
    ])
}

pub fn later_class_with() -> Manifest {
    let fee = vec![parameter("fee", None)];
    Manifest::new(vec![
        class_with("shop", vec![given("fee", int(2, 40))]),
        class_definition("shop", None, fee, vec![front(var("fee"))]),
    ])
}

pub fn later_type() -> Manifest {
    Manifest::new(vec![
        defined("booth", text(1, "front"), vec![given("fee", int(2, 40))]),
        booth(parameter("fee", None)),
    ])
}

/// A class's body declares a type, whose body includes a class; each definition
/// stands behind the one that uses it.
pub fn later_in_body() -> Manifest {
    let outer = vec![defined("middle", text(3, "m"), vec![])];
    Manifest::new(vec![
        include("outer"),
        class_definition("outer", None, vec![], outer),
        type_definition("middle", vec![], vec![include("inner")]),
        class_definition("inner", None, vec![], vec![front(int(2, 40))]),
    ])
}

/// The class is in the node's family, wherever it is defined.
pub fn later_in_node() -> Manifest {
    Manifest::new(vec![
        assign("fee", int(3, 30)),
        node_default(vec![assign("fee", int(2, 40)), include("shop")]),
        class_definition("shop", None, vec![], vec![front(var("fee"))]),
    ])
}

/// The parent stands behind its child and behind the include.
pub fn later_parent() -> Manifest {
    Manifest::new(vec![
        class_definition("child", Some(parent("shop")), vec![], vec![front(var("fee"))]),
        include("child"),
        shop(),
    ])
}

/// An include, the class it names and so many parents, each behind its child.
/// The parent of the last class but one has the mark.
pub fn later_parents(count: usize) -> Manifest {
    let name = |at: usize| format!("c{at:02}");
    let mut items = vec![include(name(0))];
    for at in 0..count {
        let above = match at + 1 == count {
            true => refused(parent(name(count))),
            false => parent(name(at + 1)),
        };
        let body = match at {
            0 => vec![front(var("fee"))],
            _ => vec![],
        };
        items.push(class_definition(name(at), Some(above), vec![], body));
    }
    let last = vec![assign("fee", int(2, 40))];
    items.push(class_definition(name(count), None, vec![], last));
    Manifest::new(items)
}

/// The same items, the definitions behind the others and the last one first.
pub fn reversed_definitions(manifest: Manifest) -> Manifest {
    let (definitions, mut items): (Vec<Field>, Vec<Field>) =
        manifest.items.into_iter().partition(is_definition);
    items.extend(definitions.into_iter().rev());
    Manifest::new(items)
}

/// Two classes inheriting each other, behind the include. The include declares
/// at level 0, so that the parent at level 17 is b, named by a's 35.
pub fn later_inherit_each_other() -> Manifest {
    Manifest::new(vec![
        include("a"),
        class_definition("b", Some(parent("a")), vec![], vec![]),
        class_definition("a", Some(refused(parent("b"))), vec![], vec![]),
    ])
}

/// A 15 of a class defined later that was declared.
pub fn later_class_variable() -> Manifest {
    Manifest::new(vec![include("shop"), front(class_var("shop", "fee")), shop()])
}

pub fn later_class_variable_undeclared() -> Manifest {
    Manifest::new(vec![front(refused(class_var("shop", "fee"))), shop()])
}

/// An 18 of a type defined later.
pub fn later_attribute_read() -> Manifest {
    let read = refused(attribute_of("booth", "fee", text(2, "a")));
    Manifest::new(vec![front(read), kind("booth")])
}

/// A 15 of a name that no item defines.
pub fn never_class_variable() -> Manifest {
    Manifest::new(vec![front(refused(class_var("none", "fee"))), shop()])
}

/// An 18 of a name that no item defines.
pub fn never_attribute_read() -> Manifest {
    let read = refused(attribute_of("none", "fee", text(2, "a")));
    Manifest::new(vec![front(read), kind("booth")])
}

pub fn never_parent() -> Manifest {
    Manifest::new(vec![
        include("child"),
        class_definition("child", Some(refused(parent("none"))), vec![], vec![]),
        shop(),
    ])
}

/// A statement whose name is one of the other sort, defined later.
pub fn other_sort(statement: Field) -> Manifest {
    Manifest::new(vec![refused(statement), kind("booth"), shop()])
}

pub fn other_sort_read(expression: Field) -> Manifest {
    Manifest::new(vec![front(refused(expression)), kind("booth"), shop()])
}

pub fn other_sort_parent() -> Manifest {
    Manifest::new(vec![
        include("child"),
        class_definition("child", Some(refused(parent("booth"))), vec![], vec![]),
        kind("booth"),
    ])
}

/// Two definitions of one name, a statement before each.
pub fn twice(first: Field, second: Field) -> Manifest {
    Manifest::new(vec![gate(), first, front(int(2, 40)), refused(second)])
}

pub fn built_in_class_first() -> Manifest {
    let wall = class_definition("wall", None, vec![], vec![]);
    Manifest::new(vec![refused(wall), gate()])
}

/// The last item defines a built-in type's name, behind all that runs.
pub fn built_in_type_last() -> Manifest {
    Manifest::new(vec![include("shop"), shop(), gate(), refused(kind("kiosk"))])
}

/// The name that is defined last is defined again first.
pub fn twice_two() -> Manifest {
    Manifest::new(vec![
        shop(),
        kind("booth"),
        refused(kind("booth")),
        shop(),
        kind("wall"),
    ])
}

/// The first statement is refused 9, were it to run.
pub fn twice_behind_a_refusal() -> Manifest {
    Manifest::new(vec![include("none"), shop(), refused(shop())])
}

/// A table whose second string, with the mark, is not above the first.
pub fn twice_and_falling_strings() -> Manifest {
    let string = |bytes: &[u8]| Field::new(0x02).bytes(bytes);
    let table = Field::new(0x01).fields([string(b"shop"), refused(string(b"fee"))]);
    let empty = || Field::new(0x34).bytes(&[0, 0]).field(block(vec![]));
    Manifest::new(vec![empty(), empty()]).with_table(table)
}

/// A name past the table behind the second definition.
pub fn twice_and_name_past_the_table() -> Manifest {
    let past = Field::new(0x29).bytes(&[0xFF, 0xFF]);
    Manifest::new(vec![shop(), shop(), refused(past)])
}

/// An include without its name behind the second definition.
pub fn twice_and_faulty_field() -> Manifest {
    Manifest::new(vec![shop(), shop(), refused(Field::new(0x29))])
}

/// No node item is for the device, so that none runs.
pub fn twice_without_node() -> Manifest {
    let used = vec![include("shop")];
    Manifest::new(vec![node(&["gym"], used), shop(), refused(shop())])
}

fn twice_for_no_node() -> Case {
    Case {
        device: b"elsewhere".to_vec(),
        ..ordinary(twice_without_node())
    }
}

/// The constant (2) stands in the body of a class that is defined last.
pub fn edit_class(fee: i64) -> Manifest {
    Manifest::new(vec![
        include("shop"),
        front(class_var("shop", "fee")),
        gate(),
        shop_with(fee),
    ])
}

/// The constant (2) stands in the body of a type that is defined last.
pub fn edit_type(fee: i64) -> Manifest {
    let entry = built_in("kiosk", var("title"), vec![given("x", int(2, fee))]);
    Manifest::new(vec![
        defined("booth", text(1, "front"), vec![]),
        gate(),
        type_definition("booth", vec![], vec![entry]),
    ])
}

/// The constant (2) is the default of a type that is defined last.
pub fn edit_default(fee: i64) -> Manifest {
    Manifest::new(vec![
        defined("booth", text(1, "front"), vec![]),
        gate(),
        booth(parameter("fee", Some(int(2, fee)))),
    ])
}

/// The constant (2) stands in a parent's body, behind the child that reads it.
pub fn edit_parent(fee: i64) -> Manifest {
    Manifest::new(vec![
        include("child"),
        gate(),
        class_definition("child", Some(parent("shop")), vec![], vec![front(var("fee"))]),
        shop_with(fee),
    ])
}

/// The constant (2) decides in a class that is defined last whether it assigns a
/// fee of its own (4); the top has one (3).
pub fn edit_condition(own: bool) -> Manifest {
    let body = vec![
        if_else(boolean(2, own), vec![assign("fee", int(4, 55))], vec![]),
        front(var("fee")),
    ];
    Manifest::new(vec![
        assign("fee", int(3, 40)),
        include("shop"),
        gate(),
        class_definition("shop", None, vec![], body),
    ])
}

/// 1,024 classes, as many as there can be strings, behind an include of the
/// last: 65,535 bytes, filled by ifs in the bodies and by the first name.
fn many_definitions() -> Case {
    let make = |ifs: usize, padding: usize| {
        let name = |at: usize| match at {
            0 => "c".to_string() + &"0".repeat(4 + padding),
            _ => format!("c{at:04}"),
        };
        let class = |at: usize| {
            let share = ifs / 1024 + usize::from(at < ifs % 1024);
            let test = |_| if_else(boolean((at % 256) as u8, true), vec![], vec![]);
            class_definition(name(at), None, vec![], (0..share).map(test).collect())
        };
        let mut items = vec![include(name(1023))];
        items.extend((0..1024).map(class));
        Manifest::new(items).build().bytes
    };
    let room = 65_535 - make(0, 0).len();
    Case::of(make(room / 14, room % 14))
}

/// 65,535 steps, every type behind the declaration that begins them.
fn steps_first() -> Manifest {
    let mut manifest = many_steps();
    if let Some(first) = manifest.items.pop() {
        manifest.items.insert(0, first);
    }
    manifest
}

/// 300 classes, each with a variable, read 4,900 times by each of 1,024 bodies;
/// all definitions stand behind what runs.
fn many_class_reads() -> Manifest {
    let name = |at: usize| format!("c{:03}", at % 300);
    let class = |at: usize| {
        let body = vec![assign("v", boolean((at % 256) as u8, true))];
        class_definition(name(at), None, vec![], body)
    };
    let mut items: Vec<Field> = (0..300).map(|at| include(name(at))).collect();
    items.extend((0..300).map(class));
    let leaves = (0..4900).map(|at| class_var(name(at * 7), "v")).collect();
    reversed_definitions(repeated(10, items, vec![assign("y", balanced(leaves))]))
}

/// Behind 65,535 steps a type is defined again: 8 without any of them.
fn twice_behind_steps() -> Manifest {
    let mut manifest = steps_first();
    manifest.items.push(refused(kind("t00")));
    manifest
}
