//! What each call does with a list, and the order of refusals: "1; 28; 24 of a
//! given text's length; 24; ...".

use super::*;
use crate::assemble::*;
use crate::case::Case;
use crate::converter::convert;
use crate::printer::print;
use crate::schedule::schedule;
use crate::text_case::TextCase;
use crate::types::list_of;
use crate::types_named::{asking, compiling, converting, printing, types_named};

/// A sound list, and one whose second field is at fault, at 8.
fn sound() -> Vec<u8> {
    list_of(&["booth"])
}

fn faulty() -> Vec<u8> {
    list_of(&["booth", "booth"])
}

fn entry(kind: &str) -> Field {
    built_in(kind, text(1, "front"), vec![given("price", int(7, 40))])
}

/// One call of each sort, about a manifest of one resource or its text.
fn calls(list: Vec<u8>) -> [AnyCase; 4] {
    let manifest = || Manifest::new(vec![entry("booth")]);
    [
        compiling(list.clone(), manifest()),
        converting(list.clone(), "booth { front: }"),
        printing(list.clone(), manifest()),
        asking(list, "booth", manifest()),
    ]
}

/// "checked next after 1".
#[test]
fn memory_first() {
    for case in calls(faulty()) {
        let [output, _] = case.lengths();
        for memory in [0, 1, 65_535] {
            refuses(&case.with_lengths([output, memory]), 1, 0);
        }
        for memory in [65_536, 65_537, 70_000] {
            refuses(&case.with_lengths([output, memory]), 28, 8);
        }
    }
    for case in calls(Vec::new()) {
        refuses(&case, 28, 0);
        refuses(&case.with_lengths([0, 65_535]), 1, 0);
    }
}

/// "also before 24", and so before all that comes behind: 2 of no bytes and of
/// too many, 3, 24 of a text's length.
#[test]
fn before_all_others() {
    let long = vec![b' '; 65_536];
    for case in calls(faulty()) {
        for bytes in [&[][..], &[2], b"}", &long] {
            refuses(&case.with_bytes(bytes.to_vec()), 28, 8);
        }
        refuses(&case.with_lengths([0, 65_536]), 28, 8);
    }
    for case in calls(sound()) {
        let number = match case.call() {
            "convert" => 24,
            _ => 2,
        };
        refuses(&case.with_bytes(long.clone()), number, 0);
    }
}

/// A sound list lets each of the calls pass.
#[test]
fn accepted() {
    for case in calls(sound()) {
        assert_eq!(case.answer().expect("clean").number(), 0, "{}", case.call());
    }
}

/// "Not lending a list is another call and means the eight": there the booth is
/// no built-in type.
#[test]
fn no_list() {
    let expected = ["refused 9", "ok 0100", "refused 26", "refused 9"];
    for (case, expected) in calls(sound()).into_iter().zip(expected) {
        let line = answer_to(&case.with_types(None));
        assert!(line.starts_with(expected), "{}: {line}", case.call());
    }
}

/// The calls that take no list: a converted kiosk is a 25, a printed booth 26.
#[test]
fn calls_without_a_list() {
    let text = b"kiosk { a: }";
    let of_case = TextCase::converting(&text[..]).answer();
    assert_eq!(convert(text, 65_535, 65_536), of_case);
    let manifest = Manifest::new(vec![entry("booth")]).build().bytes;
    let refused = print(&manifest, 65_535, 65_536).expect_err("a booth");
    assert_eq!(refused.number, 26);
}

/// "the schedule printer keeps the eight".
#[test]
fn schedules() {
    let printed = |kind: &str| {
        let manifest = Manifest::new(vec![entry(kind)]).build().bytes;
        let input = [&b"desk\n"[..], &manifest].concat();
        String::from_utf8_lossy(&schedule(&input)).into_owned()
    };
    assert_eq!(printed("kiosk"), "kiosk front price 40 2 1,7\nsteps 1\n");
    assert!(printed("booth").starts_with("refused 9 at "));
}

/// "25 if the type list holds the name, else 27"; a read's tag is no question of
/// lists.
#[test]
fn converted_tags() {
    let text = "booth { 'a': }\nkiosk { 'a': }\n";
    let tags = |names: &[&str]| {
        let case = TextCase {
            types: Some(list_of(names)),
            ..TextCase::converting(text)
        };
        let manifest = case.answer().expect("a text");
        let fields = crate::walk::fields(&manifest);
        let resources = fields.iter().filter(|field| field.depth == 1);
        resources.map(|field| field.tag).skip(1).collect::<Vec<u8>>()
    };
    assert_eq!(tags(&["booth"]), [0x25, 0x27]);
    assert_eq!(tags(&["kiosk"]), [0x27, 0x25]);
    assert_eq!(tags(&["booth", "kiosk"]), [0x25, 0x25]);
    assert_eq!(tags(&["boot", "booths", "kios", "kiosks"]), [0x27, 0x27]);
}

/// "26 ... a 25 whose type is not in the list, a 27 whose type is": at the
/// lowest such field.
#[test]
fn printed_tags() {
    let resource = |tag: u8, kind: &str| Field::new(tag).name(kind).field(text(1, "front"));
    let built = Manifest::new(vec![
        resource(0x25, "booth"),
        resource(0x27, "kiosk").at("27 of kiosk"),
        resource(0x27, "booth").at("27"),
        resource(0x25, "kiosk").at("25"),
    ]);
    let place = |mark: &str| usize::from(built.build().place(mark));
    refuses(&printing(sound(), built.clone()), 26, place("27"));
    refuses(
        &printing(list_of(&["booth", "kiosk"]), built.clone()),
        26,
        place("27 of kiosk"),
    );
    // Without it the 25 stands where the 27 stood.
    let mut other = built.clone();
    other.items.remove(2);
    refuses(&printing(sound(), other), 26, place("27"));
}

/// 8 "at the first item, by place, whose name ... is a built-in type's; before
/// any step, also with limit 0": by the list alone.
#[test]
fn defined() {
    let kind = |name: &str| type_definition(name, vec![], vec![]);
    let class = |name: &str| class_definition(name, None, vec![], vec![]);
    let manifest = Manifest::new(vec![
        assign("x", var("unset")),
        kind("kiosk"),
        class("gate"),
        class("booth").at("8"),
        kind("wall"),
    ]);
    let place = usize::from(manifest.build().place("8"));
    refuses(&compiling(sound(), manifest.clone()), 8, place);
    let mut all = calls(sound())[0].with_bytes(manifest.build().bytes);
    if let AnyCase::Compile(case) = &mut all {
        case.limit = 0;
    }
    refuses(&all, 8, place);
    refuses(&asking(sound(), "kiosk", manifest), 8, place);
}

/// A `kiosk` that is defined is used as any type; its 25 is 9.
#[test]
fn kiosk_of_ones_own() {
    let body = vec![built_in("booth", var("title"), vec![])];
    let definition = type_definition("kiosk", vec![], body);
    let used = crate::assemble::defined("kiosk", text(3, "a"), vec![]);
    let manifest = Manifest::new(vec![definition.clone(), used]).with("title");
    assert!(answer_to(&compiling(sound(), manifest.clone())).starts_with("ok 2 4000"));
    let eight = AnyCase::Compile(Case::of(manifest.build().bytes));
    assert!(answer_to(&eight).starts_with("refused 8 "));
    let wrong = Manifest::new(vec![definition, entry("kiosk").at("25")]);
    let place = usize::from(wrong.build().place("25"));
    refuses(&compiling(sound(), wrong), 9, place);
}

/// R18 by the list: a type that is neither built in nor defined is 9, a defined
/// one 19, a listed one is read.
#[test]
fn attribute_reads() {
    let read = |kind: &str| assign("x", attribute_of(kind, "price", text(2, "front")).at("18"));
    let refused = |items: Vec<Field>, number: u8| {
        let manifest = Manifest::new(items);
        let place = usize::from(manifest.build().place("18"));
        refuses(&compiling(sound(), manifest), number, place);
    };
    refused(vec![read("kiosk")], 9);
    refused(vec![read("boot")], 9);
    refused(vec![read("booth")], 19);
    refused(vec![read("kiosk"), type_definition("kiosk", vec![], vec![])], 19);
    refused(
        vec![read("kiosk"), class_definition("kiosk", None, vec![], vec![])],
        9,
    );
    let manifest = Manifest::new(vec![entry("booth"), read("booth")]);
    assert!(answer_to(&compiling(sound(), manifest)).starts_with("ok 2 "));
}

/// A question about a resource whose type only the list has; and 27 after all
/// refusals of the compile.
#[test]
fn questions() {
    let manifest = || Manifest::new(vec![entry("booth")]);
    let place = 19 + 8 + 3 + 2 + 6 + 5;
    assert_eq!(
        answer_to(&asking(sound(), "booth", manifest())),
        format!("among 5 {place}")
    );
    refuses(&asking(sound(), "kiosk", manifest()), 27, 0);
    let lacking = Manifest::new(vec![entry("kiosk").at("25")]);
    let place = usize::from(lacking.build().place("25"));
    refuses(&asking(sound(), "kiosk", lacking), 9, place);
}

/// The trail is of tags and not of lists: a branch with a 27 joins it, also with
/// one that the list makes wrong and that is not taken.
#[test]
fn trail() {
    let branch = |tag: u8| {
        let inner = Field::new(tag).name("booth").field(text(2, "no"));
        let test = if_else(boolean(9, false), vec![inner], vec![]);
        answer_to(&compiling(sound(), Manifest::new(vec![test, entry("booth")])))
    };
    // Type 0, title 1, then the set; label 1 is bit 1 of its first byte, and 9 of
    // its second.
    assert!(branch(0x25).starts_with("ok 2 4000540000000102000000"));
    assert!(branch(0x27).starts_with("ok 2 4000540000000102020000"));
}

/// The named case of document 01's schedule with the eight as a list.
#[test]
fn eight_as_a_list() {
    let case = types_named("the-eight").expect("a named case");
    assert_eq!(case.answer(), case.with_types(None).answer());
}
