//! Refusal 26 and what comes before it.

use super::*;

/// The manifest is refused 26 at the field with that mark, for that reason.
#[track_caller]
fn unprintable(manifest: Manifest, mark: &str, why: &str) {
    let built = manifest.build();
    let place = built.place(mark);
    assert_ne!(place, u16::MAX, "no field has the mark {mark}");
    let refused = TextCase::printing(built.bytes).answer().expect_err("it prints");
    assert_eq!((refused.number, refused.place, refused.why), (26, place, why));
}

#[track_caller]
fn printable(items: Vec<Field>) {
    let manifest = Manifest::new(items).build().bytes;
    let written = TextCase::printing(manifest).answer();
    assert!(written.is_ok(), "{written:?}");
}

const BELOW: &str = "a label below the one before";

/// "a constant whose label is below that of the constant before it".
#[test]
fn labels_that_fall() {
    for later in [int(4, 1).at("c"), text(4, "a").at("c"), boolean(4, true).at("c")] {
        let items = vec![assign("x", int(5, 1)), assign("y", later)];
        unprintable(Manifest::new(items), "c", BELOW);
    }
    printable(vec![assign("x", int(5, 1)), assign("y", int(5, 1))]);
    // Below the one before, though above an earlier one.
    let items = vec![
        assign("x", int(3, 1)),
        assign("x", int(9, 1)),
        assign("x", int(5, 1).at("c")),
        assign("x", int(4, 1)),
    ];
    unprintable(Manifest::new(items), "c", BELOW);
}

/// The order is that of the fields: patterns, defaults and titles are among
/// them.
#[test]
fn labels_of_every_place() {
    let fives = |items: Vec<Field>| {
        let mut all = vec![assign("first", int(5, 1))];
        all.extend(items);
        Manifest::new(all)
    };
    let low = || int(4, 1).at("c");
    for item in [
        case(var("y"), vec![(low(), vec![])]),
        case(var("y"), vec![(default(), vec![assign("x", low())])]),
        case(low(), vec![]),
        assign("x", select(var("y"), vec![(low(), int(6, 1))])),
        assign("x", select(int(6, 1), vec![(low(), int(6, 1))])),
        assign("x", select(var("y"), vec![(int(6, 1), low())])),
        assign("x", binary(ADD, int(5, 1), low())),
        assign("x", not(low())),
        assign("x", attribute_of("u", "a", low())),
        built_in("kiosk", low(), vec![]),
        built_in("kiosk", int(5, 1), vec![given("a", low())]),
        class_with("k", vec![given("a", low())]),
        type_definition("u", vec![parameter("y", Some(low()))], vec![]),
        class_definition("k", None, vec![parameter("y", Some(low()))], vec![]),
        node_default(vec![assign("x", low())]),
        if_else(low(), vec![], vec![]),
        if_else(int(6, 1), vec![assign("x", int(7, 1))], vec![assign("x", low())]),
    ] {
        unprintable(fives(vec![item]), "c", BELOW);
    }
}

/// Every field that holds a name, but for 11 and 31, with each kind of name
/// that the notation cannot spell.
#[test]
fn names_that_cannot_be_spelled() {
    let holders: [fn(&str) -> Field; 16] = [
        |name| assign("x", var(name).at("f")),
        |name| assign("x", top_var(name).at("f")),
        |name| assign("x", class_var(name, "y").at("f")),
        |name| assign("x", class_var("a", name).at("f")),
        |name| assign("x", attribute_of(name, "b", int(0, 1)).at("f")),
        |name| assign("x", attribute_of("a", name, int(0, 1)).at("f")),
        |name| assign(name, int(0, 1)).at("f"),
        |name| built_in(name, int(0, 1), vec![]).at("f"),
        |name| built_in("kiosk", int(0, 1), vec![given(name, int(0, 1)).at("f")]),
        |name| defined(name, int(0, 1), vec![]).at("f"),
        |name| class_with(name, vec![]).at("f"),
        |name| include(name).at("f"),
        |name| type_definition(name, vec![], vec![]).at("f"),
        |name| type_definition("u", vec![parameter(name, None).at("f")], vec![]),
        |name| class_definition(name, None, vec![], vec![]).at("f"),
        |name| class_definition("k", Some(parent(name).at("f")), vec![], vec![]),
    ];
    for holder in holders {
        let check = |name: &str, why: &str| unprintable(Manifest::new(vec![holder(name)]), "f", why);
        check("", "an empty name");
        for keyword in [
            "and", "case", "class", "default", "define", "else", "false", "if", "include", "inherits",
            "node", "or", "true",
        ] {
            check(keyword, "a keyword for a name");
        }
        for other in [
            "Fee", "fEe", "a-b", "a::b", "_a", "9a", "7", " a", "a ", "a\n", "$a", "\u{e9}", "\0",
        ] {
            check(other, "other bytes in a name");
        }
    }
}

/// Names that look odd and are names.
#[test]
fn names_that_can_be_spelled() {
    for name in ["a", "z9", "a_", "iff", "unless", "elsif", "title", "in"] {
        printable(vec![
            include(name),
            assign(name, var(name)),
            defined(name, int(0, 1), vec![]),
        ]);
    }
    printable(vec![include("n".repeat(255))]);
}

/// "a field other than 11 and 31": those may hold every string; so may a string
/// that nothing names.
#[test]
fn strings_of_every_kind() {
    for string in ["", "if", "Fee", "a-b", "\u{e9}\n", "9"] {
        printable(vec![assign("x", text(0, string)), node(&[string], vec![])]);
        let unused = Manifest::new(vec![include("a")]).with(string).build().bytes;
        assert_eq!(TextCase::printing(unused).answer(), Ok(b"include a\n".to_vec()));
    }
}

/// "a 25 whose type is not in the list, a 27 whose type is".
#[test]
fn types_of_25_and_27() {
    for kind in [
        "kiosk", "tablet", "printer", "scanner", "gate", "screen", "plan", "wall",
    ] {
        printable(vec![built_in(kind, int(0, 1), vec![])]);
        let wrong = defined(kind, int(0, 1), vec![]).at("f");
        unprintable(Manifest::new(vec![wrong]), "f", "a 27 of a built-in type");
    }
    for kind in ["kiosks", "u", "title"] {
        printable(vec![defined(kind, int(0, 1), vec![])]);
        let wrong = built_in(kind, int(0, 1), vec![]).at("f");
        unprintable(Manifest::new(vec![wrong]), "f", "a 25 of no built-in type");
    }
    // Elsewhere built-in types are names like others.
    printable(vec![
        include("kiosk"),
        assign("wall", attribute_of("u", "gate", int(0, 1))),
    ]);
    printable(vec![
        type_definition("kiosk", vec![], vec![]),
        class_with("plan", vec![]),
    ]);
}

/// "at the lowest field": of several faults the one that stands first.
#[test]
fn lowest_field() {
    // The statement stands before the constant in it.
    let items = vec![assign("x", int(5, 1)), assign("If", int(4, 1)).at("f")];
    unprintable(Manifest::new(items), "f", "other bytes in a name");
    // The title stands before the attribute.
    let attributes = vec![given("", int(6, 1))];
    let items = vec![
        assign("x", int(5, 1)),
        built_in("kiosk", int(4, 1).at("f"), attributes),
    ];
    unprintable(Manifest::new(items), "f", BELOW);
    // The 25 stands before what is in it.
    let items = vec![built_in("u", var("If"), vec![]).at("f")];
    unprintable(Manifest::new(items), "f", "a 25 of no built-in type");
    // The parent stands before the parameters, though not in the text.
    let parameters = vec![parameter("Y", None)];
    let items = vec![class_definition(
        "k",
        Some(parent("L").at("f")),
        parameters,
        vec![],
    )];
    unprintable(Manifest::new(items), "f", "other bytes in a name");
}

/// A fault in a part that never runs counts.
#[test]
fn faults_in_other_nodes() {
    let items = vec![
        node(&["a"], vec![include("b")]),
        node(
            &["c"],
            vec![if_else(boolean(0, false), vec![include("D").at("f")], vec![])],
        ),
    ];
    unprintable(Manifest::new(items), "f", "other bytes in a name");
}

/// "2 to 5; then 26": each of them comes before a 26 that stands earlier.
#[test]
fn refusals_2_to_5_come_first() {
    let number = |bytes: Vec<u8>| {
        TextCase::printing(bytes)
            .answer()
            .map_err(|refused| refused.number)
    };
    assert_eq!(number(vec![]), Err(2));
    assert_eq!(number(vec![1; 65_536]), Err(2));
    let faulty = |item: Field| Manifest::new(vec![include("If"), item]).build().bytes;
    assert_eq!(number(faulty(Field::new(0x02))), Err(3));
    let deep = (2..33).fold(int(0, 1), |inner, _| not(inner));
    assert_eq!(number(faulty(assign("x", deep))), Err(4));
    assert_eq!(number(faulty(Field::new(0x29).bytes(&[0, 9]))), Err(5));
    assert_eq!(number(faulty(include("a"))), Err(26));
    // No 8 and no 9: what is defined twice or not at all prints.
    printable(vec![type_definition("kiosk", vec![], vec![]), include("nothing")]);
    printable(vec![
        include("a"),
        type_definition("a", vec![], vec![]),
        type_definition("a", vec![], vec![]),
    ]);
}

/// "Last 26 at 0": a field's fault comes before the text's length.
#[test]
fn fields_before_length() {
    let mut items: Vec<Field> = (0..300).map(|_| include("n".repeat(255))).collect();
    items.push(include("If").at("f"));
    let manifest = Manifest::new(items);
    let mut case = TextCase::printing(manifest.build().bytes);
    case.output = 0;
    let refused = case.answer().expect_err("it prints");
    assert_eq!((refused.number, refused.place), (26, manifest.build().place("f")));
}

/// Depth 32 prints, and the text has no more than 32 brackets open.
#[test]
fn deepest_trees_return() {
    let right = (2..32).fold(int(0, 1), |inner, _| binary(SUBTRACT, int(0, 1), inner));
    let left = (2..32).fold(int(0, 1), |inner, at| match at % 2 {
        0 => binary(OR, inner, int(0, 1)),
        _ => binary(DIVIDE, inner, int(0, 1)),
    });
    let arms = (0..15).fold(int(0, 1), |inner, _| select(var("y"), vec![(default(), inner)]));
    for value in [right, left, arms] {
        let manifest = Manifest::new(vec![assign("x", value)]).build().bytes;
        let written = TextCase::printing(manifest.clone()).answer().unwrap();
        assert_eq!(converted(written), Ok(manifest));
    }
}
