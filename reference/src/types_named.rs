//! Named cases with a list of types: each rule of the list at its border, and
//! what the list decides in each call.

use crate::any_case::AnyCase;
use crate::assemble::*;
use crate::case::Case;
use crate::special::whole_schedule;
use crate::text_case::TextCase;
use crate::types::{list_of, list_of_eight, MOST_LETTERS, MOST_NAMES};
use crate::why_named::part_value;

/// A name and how its case is made.
type TypesNamed = (&'static str, fn() -> AnyCase);

/// Cases of the list itself, each with a manifest that a sound one accepts.
const OF_THE_LIST: [TypesNamed; 33] = [
    ("list-empty", || small(vec![])),
    ("list-one-byte", || small(vec![2])),
    ("list-two-bytes", || small(vec![2, 0])),
    ("list-one-byte-behind", || small(behind_kiosk(&[2]))),
    ("list-two-bytes-behind", || small(behind_kiosk(&[2, 0]))),
    ("list-other-tag", || small(behind_kiosk(&[3, 0, 1, b'z']))),
    ("list-tag-of-a-table", || small(behind_kiosk(&[1, 0, 1, b'z']))),
    ("list-in-a-table", || small(in_a_table())),
    ("list-cut-by-one", || small(cut_by(1))),
    ("list-cut-by-two", || small(cut_by(2))),
    ("list-past-end", || small(behind_kiosk(&[2, 0, 2, b'z']))),
    ("list-past-end-high-byte", || {
        small(behind_kiosk(&[2, 1, 1, b'z']))
    }),
    ("list-past-end-first", || {
        small(vec![2, 0, 6, b'k', b'i', b'o', b's', b'k'])
    }),
    ("list-no-letter", || small(behind_kiosk(&[2, 0, 0]))),
    ("list-no-letter-first", || {
        small([&[2, 0, 0][..], &kiosk_alone()].concat())
    }),
    ("list-32-letters", || small(with_long(MOST_LETTERS))),
    ("list-33-letters", || small(with_long(MOST_LETTERS + 1))),
    ("list-256-letters", || small(with_long(256))),
    ("list-upper-case", || small(list_of(&["kiosk", "kiosK"]))),
    ("list-digit", || small(list_of(&["kiosk", "plan9"]))),
    ("list-underscore", || small(list_of(&["kiosk", "plan_b"]))),
    ("list-below-a", || small(list_of(&["kiosk", "p`"]))),
    ("list-above-z", || small(list_of(&["kiosk", "p{"]))),
    ("list-byte-255", || small(list_of(&[&b"kiosk"[..], b"p\xFF"]))),
    ("list-equal", || small(list_of(&["kiosk", "kiosk"]))),
    ("list-falling", || small(list_of(&["kiosk", "gate"]))),
    ("list-prefix-first", || {
        small(list_of(&["kios", "kiosk", "kiosks"]))
    }),
    ("list-prefix-behind", || small(list_of(&["kiosk", "kios"]))),
    ("list-1-name", || small(kiosk_alone())),
    ("list-64-names", || small(many(MOST_NAMES))),
    ("list-65-names", || small(many(MOST_NAMES + 1))),
    ("list-two-faults", || small(list_of(&["gate", "Kiosk", "a", ""]))),
    ("list-65th-faulty", || {
        small([many(MOST_NAMES), vec![2, 0, 0]].concat())
    }),
];

/// Cases of what is built in and what is not.
const OF_TYPES: [TypesNamed; 22] = [
    ("the-eight", || compiling(list_of_eight(), whole_schedule(false))),
    ("none-in-the-table", || {
        compiling(booths(), Manifest::new(vec![assign("x", int(1, 2))]))
    }),
    ("none-in-the-table-25", || compiling(booths(), resource("kiosk"))),
    ("listed-type", || compiling(booths(), resource("booth"))),
    ("listed-defined", || {
        compiling(booths(), with_definition(kind("booth"), "booth"))
    }),
    ("listed-defined-class", || {
        compiling(booths(), with_definition(class("booth"), "booth"))
    }),
    ("listed-defined-no-step", || {
        no_step(booths(), with_definition(kind("booth"), "booth"))
    }),
    ("listed-defined-later", || {
        compiling(booths(), defined_later("booth"))
    }),
    ("kiosk-defined", || compiling(booths(), kiosk_defined())),
    ("kiosk-class", || compiling(booths(), kiosk_class())),
    ("kiosk-defined-and-25", || {
        compiling(booths(), with_definition(kind("kiosk"), "kiosk"))
    }),
    ("keyword-listed", || {
        compiling(list_of(&["class"]), resource("class"))
    }),
    ("eight-lacking", || {
        compiling(list_of(&["booth", "gate"]), resource("kiosk"))
    }),
    ("prefix-of-listed", || compiling(booths(), resource("boot"))),
    ("extension-of-listed", || compiling(booths(), resource("booths"))),
    ("prefix-defined", || {
        compiling(booths(), with_definition(kind("boot"), "booth"))
    }),
    ("extension-defined", || {
        compiling(booths(), with_definition(kind("booths"), "booth"))
    }),
    ("27-of-listed", || compiling(booths(), only_27("booth"))),
    ("read-listed", || compiling(booths(), read("booth", "front"))),
    ("read-listed-absent", || {
        compiling(booths(), read("booth", "back"))
    }),
    ("read-lacking", || compiling(booths(), read("kiosk", "front"))),
    ("read-kiosk-defined", || compiling(booths(), read_kiosk_defined())),
];

/// Cases of the other calls, and of the order of refusals.
const OF_CALLS: [TypesNamed; 25] = [
    ("convert-the-eight", || converting(list_of_eight(), BOTH)),
    ("convert-listed", || converting(booths(), BOTH)),
    ("convert-kiosk-alone", || converting(kiosk_alone(), BOTH)),
    ("convert-neither", || {
        converting(list_of(&["boot", "booths", "kios", "kiosks"]), BOTH)
    }),
    ("convert-read", || {
        converting(booths(), "$x = kiosk['a'][b]\n$y = booth['a'][b]")
    }),
    ("convert-defined", || {
        converting(booths(), "define booth { }\ndefine kiosk { }")
    }),
    ("convert-empty", || converting(booths(), "")),
    ("print-the-eight", || printing(list_of_eight(), resource("kiosk"))),
    ("print-listed", || printing(booths(), resource("booth"))),
    ("print-25-lacking", || printing(booths(), resource("kiosk"))),
    ("print-27-listed", || printing(booths(), only_27("booth"))),
    ("print-27-kiosk", || printing(booths(), kiosk_defined())),
    ("print-keyword-listed", || {
        printing(list_of(&["class"]), resource("class"))
    }),
    ("print-label-first", || printing(booths(), labels_fall_first())),
    ("why-the-eight", || {
        asking(list_of_eight(), "kiosk", resource("kiosk"))
    }),
    ("why-listed", || asking(booths(), "booth", resource("booth"))),
    ("why-eight-lacking", || {
        asking(booths(), "kiosk", resource("kiosk"))
    }),
    ("why-kiosk-defined", || asking(booths(), "kiosk", kiosk_defined())),
    ("why-none-in-the-table", || {
        asking(booths(), "booth", Manifest::default())
    }),
    ("28-after-1", || small(vec![]).with_lengths([65_535, 65_535])),
    ("28-before-2", || small(vec![]).with_bytes(vec![])),
    ("28-before-3", || {
        small(behind_kiosk(&[2, 0])).with_bytes(vec![2, 0, 0])
    }),
    ("28-before-24", || converting(behind_kiosk(&[2]), "}")),
    ("28-before-26", || {
        printing(list_of(&["booth", "a"]), resource("kiosk"))
    }),
    ("28-before-27", || {
        asking(list_of(&["booth", "booth"]), "wall", resource("booth"))
    }),
];

/// Every named case, in order.
pub fn all_types_named() -> impl Iterator<Item = TypesNamed> {
    OF_THE_LIST.into_iter().chain(OF_TYPES).chain(OF_CALLS)
}

/// The named case, if there is one.
pub fn types_named(name: &str) -> Option<AnyCase> {
    let (_, make) = all_types_named().find(|(known, _)| *known == name)?;
    Some(make())
}

/// A resource of the list's type and one of the eight's.
const BOTH: &str = "booth { 'a': }\nkiosk { 'a': }\n";

// Calls.

pub fn compiling(list: Vec<u8>, manifest: Manifest) -> AnyCase {
    AnyCase::Compile(Case {
        types: Some(list),
        ..Case::of(manifest.build().bytes)
    })
}

/// With limit 0, which refuses a step and not what is checked before.
fn no_step(list: Vec<u8>, manifest: Manifest) -> AnyCase {
    AnyCase::Compile(Case {
        types: Some(list),
        limit: 0,
        ..Case::of(manifest.build().bytes)
    })
}

pub fn converting(list: Vec<u8>, text: &str) -> AnyCase {
    AnyCase::Text(TextCase {
        types: Some(list),
        ..TextCase::converting(text)
    })
}

pub fn printing(list: Vec<u8>, manifest: Manifest) -> AnyCase {
    AnyCase::Text(TextCase {
        types: Some(list),
        ..TextCase::printing(manifest.build().bytes)
    })
}

/// Why label 7 counts for the price of "front".
pub fn asking(list: Vec<u8>, kind: &str, manifest: Manifest) -> AnyCase {
    let mut case = part_value().case();
    case.types = Some(list);
    case.kind = kind.into();
    case.manifest = manifest.build().bytes;
    AnyCase::Why(case)
}

/// A compile with the list that needs only the type kiosk.
pub fn small(list: Vec<u8>) -> AnyCase {
    compiling(list, resource("kiosk"))
}

// Lists.

fn booths() -> Vec<u8> {
    list_of(&["booth"])
}

fn kiosk_alone() -> Vec<u8> {
    list_of(&["kiosk"])
}

/// A sound field, then these bytes.
fn behind_kiosk(bytes: &[u8]) -> Vec<u8> {
    [&kiosk_alone(), bytes].concat()
}

/// As it would stand in a manifest: "not inside a 01".
fn in_a_table() -> Vec<u8> {
    Manifest::default().with("kiosk").build().bytes
}

fn cut_by(bytes: usize) -> Vec<u8> {
    let mut list = list_of(&["gate", "kiosk"]);
    list.truncate(list.len() - bytes);
    list
}

/// The kiosk, and behind it a name of so many letters.
fn with_long(letters: usize) -> Vec<u8> {
    list_of(&["kiosk".to_string(), "z".repeat(letters)])
}

/// So many names, the kiosk among them.
pub fn many(names: usize) -> Vec<u8> {
    let letter = |at: usize| char::from(b'a' + at as u8);
    let mut list: Vec<String> = (0..names - 1)
        .map(|at| format!("n{}{}", letter(at / 26), letter(at % 26)))
        .collect();
    list.insert(0, "kiosk".to_string());
    list_of(&list)
}

// Manifests.

/// A 25 of that type: the price of "front" is 40, with label 7.
fn resource(kind: &str) -> Manifest {
    Manifest::new(vec![entry(kind)])
}

fn entry(kind: &str) -> Field {
    built_in(kind, text(1, "front"), vec![given("price", int(7, 40))])
}

fn only_27(kind: &str) -> Manifest {
    Manifest::new(vec![defined(kind, text(1, "front"), vec![])])
}

fn kind(name: &str) -> Field {
    type_definition(name, vec![], vec![])
}

fn class(name: &str) -> Field {
    class_definition(name, None, vec![], vec![])
}

/// The definition, then a 25 of that type.
fn with_definition(definition: Field, kind: &str) -> Manifest {
    Manifest::new(vec![definition, entry(kind)])
}

/// The definition behind its use.
fn defined_later(name: &str) -> Manifest {
    Manifest::new(vec![entry(name), kind(name)])
}

/// "kiosk" as a type that is defined, and a 27 of it.
fn kiosk_defined() -> Manifest {
    let body = vec![built_in("booth", var("title"), vec![given("price", int(2, 40))])];
    let used = defined("kiosk", text(3, "front"), vec![]);
    Manifest::new(vec![type_definition("kiosk", vec![], body), used]).with("title")
}

fn kiosk_class() -> Manifest {
    let body = vec![entry("booth")];
    Manifest::new(vec![
        class_definition("kiosk", None, vec![], body),
        include("kiosk"),
    ])
}

/// A booth "front", and a read of the price of a type and title.
fn read(kind: &str, title: &str) -> Manifest {
    let read = attribute_of(kind, "price", text(2, title));
    Manifest::new(vec![entry("booth"), assign("x", read)])
}

/// "A defined type is known, and never in the catalog".
fn read_kiosk_defined() -> Manifest {
    let mut manifest = read("kiosk", "front");
    manifest.items.push(kind("kiosk"));
    manifest
}

/// A label that falls, then a 25 of a type that the list lacks.
fn labels_fall_first() -> Manifest {
    Manifest::new(vec![
        assign("x", int(2, 1)),
        assign("y", int(1, 1)),
        entry("kiosk"),
    ])
}
