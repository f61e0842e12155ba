//! Reading the fields: refusals 3, 4 and 5, readings 1 to 6.

use super::*;

fn raw(tag: u8) -> Field {
    Field::new(tag)
}

/// A true constant under nots, so that the given field stands at depth 33.
fn at_depth_33(field: Field) -> Manifest {
    let value = (2..33).fold(field, |inner, _| not(inner));
    items(vec![assign("x", value)])
}

/// R1: "First what its header shows ... Then its depth". At depth 33 a tag that
/// may not stand there and a false fixed length are 3; a fault in the body is
/// not met, for "a field too deep isn't entered".
#[test]
fn r1_header_then_depth_then_body() {
    refuse(at_depth_33(raw(0x20).at("x")), 3, "x");
    refuse(at_depth_33(raw(0x12).bytes(&[1, 1, 1]).at("x")), 3, "x");
    refuse(at_depth_33(raw(0x12).bytes(&[1, 1]).length(3).at("x")), 3, "x");
    refuse(at_depth_33(raw(0x12).bytes(&[1, 2]).at("x")), 4, "x");
    refuse(at_depth_33(raw(0x17).at("x")), 4, "x");
}

/// R1: 4 is the first fault met, though a 3 stands after it; and a 3 before it
/// comes first: "3 and 4 are sought in one reading from the first byte".
#[test]
fn r1_first_fault_met() {
    let mut deep_first = at_depth_33(boolean(1, true).at("deep"));
    deep_first.items.push(raw(0x02));
    refuse(deep_first, 4, "deep");
    let mut wrong_first = at_depth_33(boolean(1, true));
    wrong_first.items.insert(0, raw(0x02).at("wrong"));
    refuse(wrong_first, 3, "wrong");
}

/// R1: the tags with one length only. Each stands where it may, one byte too
/// long and one too short.
#[test]
fn r1_fixed_lengths() {
    let within: [(u8, usize, fn(Field) -> Field); 10] = [
        (0x10, 9, |field| assign("x", field)),
        (0x11, 3, |field| assign("x", field)),
        (0x12, 2, |field| assign("x", field)),
        (0x13, 2, |field| assign("x", field)),
        (0x14, 2, |field| assign("x", field)),
        (0x15, 4, |field| assign("x", field)),
        (0x1B, 0, |field| case(int(1, 1), vec![(field, vec![])])),
        (0x29, 2, |field| field),
        (0x31, 2, |field| raw(0x30).field(field).field(block(vec![]))),
        (0x35, 2, |field| {
            class_definition("c", Some(field), vec![], vec![])
        }),
    ];
    for (tag, length, around) in within {
        for wrong in [length + 1, length.wrapping_sub(1)] {
            if wrong > length + 1 {
                continue;
            }
            let field = raw(tag).bytes(&vec![0; wrong]).at("field");
            refuse(items(vec![around(field)]), 3, "field");
        }
        // With its own length it is no 3: all names are 0, in a table of one
        // string or more.
        let field = raw(tag).bytes(&vec![0; length]).at("field");
        let answer = answer_limited(&items(vec![around(field)]).with("x"), u16::MAX);
        assert!(
            !matches!(answer, Answer::Refused { number: 3, .. }),
            "{tag:x}: {answer:?}"
        );
    }
}

/// R2: "a length that runs past the surroundings is met at the header: a
/// truncated manifest gives the outermost field that overruns".
#[test]
fn r2_truncated() {
    let whole = items(vec![
        assign("a", int(1, 1)),
        if_else(boolean(1, true), vec![assign("x", int(2, 2))], vec![]).at("if"),
    ])
    .build();
    // Cut anywhere in the if after its header: 3 at the if.
    let from = usize::from(whole.place("if"));
    for end in from + 3..whole.bytes.len() {
        let answer = Case::of(whole.bytes[..end].to_vec()).compile().expect("clean").0;
        assert_eq!(
            answer,
            Answer::Refused {
                number: 3,
                place: whole.place("if")
            }
        );
    }
    // "One or two bytes left where a field could begin are a field cut short".
    for end in [from + 1, from + 2] {
        let answer = Case::of(whole.bytes[..end].to_vec()).compile().expect("clean").0;
        assert_eq!(
            answer,
            Answer::Refused {
                number: 3,
                place: whole.place("if")
            }
        );
    }
    // Cut in the table: 3 at the 01, which is at 0.
    for end in 1..10 {
        let answer = Case::of(whole.bytes[..end].to_vec()).compile().expect("clean").0;
        assert_eq!(answer, Answer::Refused { number: 3, place: 0 });
    }
}

/// R2: an inner length past its surroundings is 3 at that inner field; one or
/// two bytes at the end of a block are 3 at the first of them.
#[test]
fn r2_inside() {
    let past = items(vec![if_else(
        boolean(1, true),
        vec![assign("x", int(2, 2)).length(100).at("past")],
        vec![],
    )]);
    refuse(past, 3, "past");
    for extra in [&[0x21][..], &[0x21, 0]] {
        let built = items(vec![node_default(vec![include("c").at("last")])]);
        let mut built = built.build();
        // The include is the last field of the block of the node.
        let after = built.place("last") + 5;
        built.bytes.extend_from_slice(extra);
        for (place, tag) in &built.fields {
            if matches!(tag, 0x30 | 0x20) {
                built.bytes[place + 2] += extra.len() as u8;
            }
        }
        let answer = Case::of(built.bytes).compile().expect("clean").0;
        assert_eq!(
            answer,
            Answer::Refused {
                number: 3,
                place: after
            }
        );
    }
}

/// R3: "A tag that may not stand at its position is 3 at that inner field".
#[test]
fn r3_wrong_tags() {
    let yes = || boolean(1, true);
    let wrong = |tag: u8| raw(tag).at("wrong");
    let faulty = vec![
        assign("x", not(yes()).field(yes().at("wrong"))),
        if_else(yes(), vec![], vec![]).field(block(vec![]).at("wrong")),
        raw(0x25).name("kiosk").field(given("x", yes()).at("wrong")),
        raw(0x30).field(block(vec![]).at("wrong")),
        raw(0x34)
            .name("c")
            .field(parameter("p", None))
            .field(parent("c").at("wrong"))
            .field(block(vec![])),
        raw(0x34)
            .name("c")
            .field(parent("c"))
            .field(parent("c").at("wrong"))
            .field(block(vec![])),
        raw(0x30)
            .field(raw(0x31).name("x"))
            .field(default().at("wrong"))
            .field(block(vec![])),
        raw(0x30)
            .field(default())
            .field(raw(0x31).name("x").at("wrong"))
            .field(block(vec![])),
        raw(0x30)
            .field(default())
            .field(default().at("wrong"))
            .field(block(vec![])),
        node_default(vec![]).field(block(vec![]).at("wrong")),
        assign("x", yes()).field(yes().at("wrong")),
        assign("x", binary(AND, yes(), yes()).field(yes().at("wrong"))),
        assign("x", attribute_of("kiosk", "x", yes()).field(yes().at("wrong"))),
        raw(0x33).at("wrong"),
        type_definition("t", vec![], vec![]).field(parameter("p", None).at("wrong")),
        raw(0x32)
            .name("t")
            .field(parent("t").at("wrong"))
            .field(block(vec![])),
        type_definition(
            "t",
            vec![parameter("p", Some(yes())).field(yes().at("wrong"))],
            vec![],
        ),
        type_definition("t", vec![parameter("p", Some(var("x").at("wrong")))], vec![]),
        case(yes(), vec![(var("x").at("wrong"), vec![])]),
        assign("x", select(yes(), vec![(var("x").at("wrong"), yes())])),
        case(yes(), vec![]).field(yes().at("wrong")),
        assign(
            "x",
            select(yes(), vec![(default(), yes())]).field(yes().at("wrong")),
        ),
        assign("x", wrong(0x1B)),
        assign("x", wrong(0x1A)),
        assign("x", wrong(0x20)),
        if_else(yes(), vec![wrong(0x30)], vec![]),
        if_else(yes(), vec![wrong(0x32)], vec![]),
        if_else(yes(), vec![wrong(0x34)], vec![]),
        if_else(yes(), vec![wrong(0x20)], vec![]),
        if_else(yes(), vec![wrong(0x24)], vec![]),
        if_else(yes(), vec![wrong(0x26)], vec![]),
        class_with("c", vec![wrong(0x27)]),
        built_in("kiosk", yes(), vec![wrong(0x12)]),
    ];
    for field in faulty {
        refuse(items(vec![field]), 3, "wrong");
    }
    let no_items = [
        0x00, 0x02, 0x10, 0x13, 0x19, 0x1A, 0x1B, 0x20, 0x24, 0x26, 0x2A, 0x31, 0x33, 0x35, 0x40, 0xFF,
    ];
    for tag in no_items {
        refuse(items(vec![wrong(tag)]), 3, "wrong");
    }
}

/// R3: a missing part is "3 at the field that lacks it, met at its end, after
/// any fault inside its earlier parts".
#[test]
fn r3_missing_parts() {
    let yes = || boolean(1, true);
    let lacking = vec![
        assign("x", raw(0x17).at("lacks")),
        assign("x", raw(0x16).at("lacks")),
        assign("x", raw(0x16).bytes(&[0]).at("lacks")),
        assign("x", raw(0x16).bytes(&[0]).field(yes()).at("lacks")),
        assign("x", raw(0x18).name("kiosk").at("lacks")),
        assign("x", raw(0x18).name("kiosk").bytes(&[0]).at("lacks")),
        assign("x", raw(0x18).name("kiosk").name("x").at("lacks")),
        assign("x", raw(0x19).at("lacks")),
        assign("x", raw(0x19).field(yes()).at("lacks")),
        assign("x", raw(0x19).field(yes()).field(raw(0x1A).at("lacks"))),
        assign(
            "x",
            raw(0x19)
                .field(yes())
                .field(raw(0x1A).field(default()).at("lacks")),
        ),
        raw(0x21).at("lacks"),
        raw(0x21).bytes(&[0]).at("lacks"),
        raw(0x21).name("x").at("lacks"),
        raw(0x22).at("lacks"),
        raw(0x22).field(yes()).at("lacks"),
        raw(0x22).field(yes()).field(block(vec![])).at("lacks"),
        raw(0x23).at("lacks"),
        raw(0x23).field(yes()).field(raw(0x24).at("lacks")),
        raw(0x23)
            .field(yes())
            .field(raw(0x24).field(default()).at("lacks")),
        raw(0x25).bytes(&[0]).at("lacks"),
        raw(0x25).name("kiosk").at("lacks"),
        raw(0x27).name("kiosk").at("lacks"),
        raw(0x28).at("lacks"),
        raw(0x28).name("c").field(raw(0x26).name("x").at("lacks")),
        raw(0x30).at("lacks"),
        raw(0x30).field(default()).at("lacks"),
        raw(0x30).field(raw(0x31).name("x")).at("lacks"),
        raw(0x32).at("lacks"),
        raw(0x32).name("t").at("lacks"),
        raw(0x32).name("t").field(raw(0x33).bytes(&[0]).at("lacks")),
        raw(0x34).name("c").field(parent("c")).at("lacks"),
        raw(0x34).name("c").field(parameter("p", None)).at("lacks"),
    ];
    for field in lacking {
        refuse(items(vec![field]), 3, "lacks");
    }
    // The fault in the condition comes before the blocks that aren't there.
    let inner_first = raw(0x22).field(raw(0x12).bytes(&[1, 2]).at("inner"));
    refuse(items(vec![inner_first]), 3, "inner");
}

/// R4: operator and boolean bytes, met at that byte: before any fault in the
/// operands, after the header.
#[test]
fn r4_operator_and_boolean() {
    for byte in [7, 8, 255] {
        let field = raw(0x16).bytes(&[byte]).field(raw(0x02)).at("operator");
        refuse(items(vec![assign("x", field)]), 3, "operator");
    }
    refuse(
        items(vec![assign("x", raw(0x12).bytes(&[1, 2]).at("boolean"))]),
        3,
        "boolean",
    );
    // Every operator byte to 6 is listed; 1 op 1 is 15 for "and" and "or" only.
    for byte in 0..=6 {
        let operator = items(vec![assign("x", binary(byte, int(1, 1).at("left"), int(1, 1)))]);
        match byte {
            AND | OR => refuse(operator, 15, "left"),
            _ => check(operator, &["steps 1"]),
        }
    }
    // The order in a 34 is name, 35, 33s, block.
    let ordered = class_definition("c", Some(parent("d")), vec![parameter("p", None)], vec![]);
    check(items(vec![ordered]), &["steps 0"]);
}

/// R5: strings of 255 bytes and 1,024 strings are allowed, one more is not.
#[test]
fn r5_table_limits() {
    check(items(vec![]).with("x".repeat(255)), &["steps 0"]);
    let long = raw(0x01).field(raw(0x02).bytes(&[b'x'; 256]).at("long"));
    refuse(items(vec![]).with_table(long), 3, "long");

    let strings = |count: usize| -> Vec<Field> {
        (0..count)
            .map(|at| raw(0x02).bytes(format!("{at:04}").as_bytes()))
            .collect()
    };
    check(
        items(vec![]).with_table(raw(0x01).fields(strings(1024))),
        &["steps 0"],
    );
    let many = raw(0x01)
        .fields(strings(1024))
        .field(raw(0x02).bytes(b"9999").at("many"));
    refuse(items(vec![]).with_table(many), 3, "many");
    // The 1,025th is met before a fault after it and after a fault before it.
    let later = raw(0x01)
        .fields(strings(1024))
        .field(raw(0x02).at("many"))
        .field(raw(0x03));
    refuse(items(vec![]).with_table(later), 3, "many");
    let mut earlier = strings(1030);
    earlier[5] = raw(0x03).at("tag");
    refuse(items(vec![]).with_table(raw(0x01).fields(earlier)), 3, "tag");
}

/// R5: "A manifest that does not begin with a 01, or has a second one, is 3 at
/// that field. No item at all is fine."
#[test]
fn r5_first_field() {
    refuse(
        items(vec![]).with_table(assign("x", int(1, 1)).at("first")),
        3,
        "first",
    );
    refuse(items(vec![raw(0x01).at("second")]), 3, "second");
    refuse(items(vec![include("c"), raw(0x01).at("second")]), 3, "second");
    check(items(vec![]), &["steps 0"]);
    refuse(
        items(vec![]).with_table(raw(0x01).field(raw(0x10).at("inside"))),
        3,
        "inside",
    );
}

fn table_of(strings: &[&[u8]], faulty: usize) -> Field {
    let marked = |(at, string): (usize, &&[u8])| {
        let field = raw(0x02).bytes(string);
        if at == faulty {
            field.at("later")
        } else {
            field
        }
    };
    raw(0x01).fields(strings.iter().enumerate().map(marked))
}

/// R6: "each against the one before it, at the later"; "strictly rising by
/// bytes, a prefix first".
#[test]
fn r6_strings_rise() {
    check(
        items(vec![]).with_table(table_of(&[b"", b"\0", b"a", b"ab", b"b", b"\xFF"], 9)),
        &["steps 0"],
    );
    refuse(items(vec![]).with_table(table_of(&[b"a", b"a"], 1)), 5, "later");
    refuse(items(vec![]).with_table(table_of(&[b"ab", b"a"], 1)), 5, "later");
    refuse(items(vec![]).with_table(table_of(&[b"a", b""], 1)), 5, "later");
    // c after b rises again, and d, b falls; b, a falls first.
    refuse(
        items(vec![]).with_table(table_of(&[b"b", b"a", b"d", b"b"], 1)),
        5,
        "later",
    );
    // Bytes are compared as numbers 0 to 255: 0x80 is above 0x7F.
    refuse(
        items(vec![]).with_table(table_of(&[b"\x80", b"\x7F"], 1)),
        5,
        "later",
    );
    // A string fault stands before every name fault.
    let both = items(vec![raw(0x29).bytes(&[9, 9])]).with_table(table_of(&[b"b", b"a"], 1));
    refuse(both, 5, "later");
    // 3 is sought over the whole manifest before 5.
    let three = items(vec![raw(0x02).at("three")]).with_table(table_of(&[b"b", b"a"], 1));
    refuse(three, 3, "three");
}

/// R6: "each field that itself holds a name past the table", wherever a name
/// may stand; items that never run count too.
#[test]
fn r6_names_past_the_table() {
    // The table has the strings a and x: 2 is the first number past it.
    let past = &[0, 2];
    let yes = || boolean(1, true);
    let faulty = vec![
        assign("x", raw(0x11).bytes(&[1]).bytes(past).at("past")),
        assign("x", raw(0x13).bytes(past).at("past")),
        assign("x", raw(0x14).bytes(past).at("past")),
        assign("x", raw(0x15).bytes(past).name("x").at("past")),
        assign("x", raw(0x15).name("x").bytes(past).at("past")),
        assign("x", raw(0x18).bytes(past).name("x").field(yes()).at("past")),
        assign("x", raw(0x18).name("x").bytes(past).field(yes()).at("past")),
        raw(0x21).bytes(past).field(yes()).at("past"),
        raw(0x25).bytes(past).field(yes()).at("past"),
        raw(0x27).bytes(past).field(yes()).at("past"),
        raw(0x25)
            .name("x")
            .field(yes())
            .field(raw(0x26).bytes(past).field(yes()).at("past")),
        raw(0x28).bytes(past).at("past"),
        raw(0x29).bytes(past).at("past"),
        raw(0x30)
            .field(raw(0x31).bytes(past).at("past"))
            .field(block(vec![])),
        raw(0x32).bytes(past).field(block(vec![])).at("past"),
        raw(0x34).bytes(past).field(block(vec![])).at("past"),
        raw(0x34)
            .name("x")
            .field(raw(0x35).bytes(past).at("past"))
            .field(block(vec![])),
        raw(0x32)
            .name("x")
            .field(raw(0x33).bytes(past).at("past"))
            .field(block(vec![])),
        raw(0x32)
            .name("x")
            .field(parameter("x", Some(raw(0x11).bytes(&[1, 0, 2]).at("past"))))
            .field(block(vec![])),
        // In a pattern, in a branch not taken, in a node item not chosen.
        case(yes(), vec![(raw(0x11).bytes(&[1, 0, 2]).at("past"), vec![])]),
        if_else(yes(), vec![], vec![raw(0x29).bytes(past).at("past")]),
        raw(0x30)
            .field(raw(0x31).name("x"))
            .field(block(vec![raw(0x29).bytes(past).at("past")])),
    ];
    for field in faulty {
        refuse(items(vec![field]).with("a").with("x"), 5, "past");
    }
    // By rising offset: the field around comes before the one in it, and the
    // innermost field that itself holds the name is the place.
    let outer = raw(0x21).bytes(past).field(raw(0x13).bytes(past)).at("outer");
    refuse(items(vec![outer]).with("a").with("x"), 5, "outer");
    let first = vec![
        assign("x", raw(0x13).bytes(past).at("first")),
        raw(0x29).bytes(past),
    ];
    refuse(items(first).with("a").with("x"), 5, "first");
    // An empty table has no number 0.
    refuse(items(vec![raw(0x29).bytes(&[0, 0]).at("past")]), 5, "past");
    // 5 comes before anything runs: limit 0 would be 6.
    let before = items(vec![assign("x", yes()), raw(0x29).bytes(past).at("past")]).with("a");
    refuse_limited(before, 0, 5, "past");
}
