//! Manifests made by hand for the printer, by what becomes of them: every reason for which one is refused, and every form
//! that is printed.

use crate::assemble::*;
use crate::hand_made_texts::{forms, Group, KEYWORDS};
use crate::text_case::{Call, TextCase};

pub fn groups() -> Vec<Group> {
    let mut groups = as_compiles();
    groups.extend(labels());
    groups.extend(names());
    groups.extend(kinds());
    groups.extend(first_of_several());
    groups.extend(lengths());
    groups.extend(accepted());
    groups
}

fn printing(name: &'static str, number: u8, why: &'static str, manifests: Vec<Vec<u8>>) -> Group {
    Group {
        name,
        call: Call::Print,
        number,
        why,
        cases: manifests.into_iter().map(TextCase::printing).collect(),
    }
}

fn built(items: Vec<Field>) -> Vec<u8> {
    Manifest::new(items).build().bytes
}

/// Each a manifest of its own.
fn each(items: Vec<Field>) -> Vec<Vec<u8>> {
    items.into_iter().map(|item| built(vec![item])).collect()
}

/// Lengths that are written by hand: a field of the tag with the body.
fn field(tag: u8, body: &[u8]) -> Vec<u8> {
    let length = (body.len() as u16).to_be_bytes();
    [&[tag], &length[..], body].concat()
}

/// Refusals that a compile gives too.
fn as_compiles() -> Vec<Group> {
    let nested = |count: usize| (0..count).fold(boolean(0, true), |inner, _| not(inner));
    let a = |more: &[u8]| [&field(0x01, &field(0x02, b"a")), more].concat();
    let strings = |strings: &[&str]| {
        let fields: Vec<u8> = strings
            .iter()
            .flat_map(|string| field(0x02, string.as_bytes()))
            .collect();
        field(0x01, &fields)
    };
    let mut short = printing(
        "a memory below 65,536 bytes, to print",
        1,
        "",
        vec![built(vec![]), vec![], built(vec![include("if")])],
    );
    for (case, memory) in short.cases.iter_mut().zip([65_535, 0, 1]) {
        case.memory = memory;
    }
    vec![
        short,
        printing("a manifest of no byte", 2, "", vec![vec![]]),
        printing(
            "a manifest over 65,535 bytes, to print",
            2,
            "",
            vec![vec![0x01; 65_536]],
        ),
        printing(
            "a field that is not as listed",
            3,
            "",
            vec![
                vec![0x01],
                vec![0x01, 0],
                vec![0x01, 0, 1],
                vec![0x02, 0, 0],
                a(&[0x29]),
                a(&field(0x29, &[0])),
                a(&field(0x29, &[0, 0, 0])),
                a(&field(0x03, &[])),
                a(&field(0x21, &[&[0, 0], &field(0x12, &[0, 2])[..]].concat())),
                a(&field(0x21, &[&[0, 0], &field(0x16, &[7])[..]].concat())),
                a(&field(0x22, &field(0x13, &[0, 0]))),
                a(&field(0x30, &field(0x20, &[]))),
                built(vec![include("a"), parameter("b", None)]),
            ],
        ),
        printing(
            "a field deeper than 32, to print",
            4,
            "",
            vec![
                built(vec![assign("x", nested(31))]),
                built(vec![include("if"), assign("x", nested(40))]),
                built(vec![if_else(nested(31), vec![], vec![])]),
            ],
        ),
        printing(
            "strings that do not rise, or a name past the table",
            5,
            "",
            vec![
                a(&field(0x29, &[0, 1])),
                a(&field(0x29, &[255, 255])),
                strings(&["b", "a"]),
                strings(&["a", "a"]),
                strings(&["a", "ab", "aa"]),
                [strings(&["a", "if"]), field(0x29, &[0, 1]), field(0x29, &[0, 2])].concat(),
            ],
        ),
    ]
}

const FALLS: &str = "a label below the one before";

fn labels() -> Vec<Group> {
    let one = |label: u8| int(label, 1);
    vec![printing(
        "a label below the one before",
        26,
        FALLS,
        vec![
            built(vec![assign("x", one(1)), assign("y", one(0))]),
            built(vec![assign("x", one(255)), assign("y", text(254, "a"))]),
            built(vec![assign("x", text(7, "a")), assign("y", boolean(3, true))]),
            built(vec![assign("x", binary(ADD, one(2), one(1)))]),
            built(vec![assign("x", select(one(2), vec![(text(1, "p"), one(2))]))]),
            built(vec![assign(
                "x",
                select(var("a"), vec![(default(), one(9)), (one(8), one(9))]),
            )]),
            built(vec![if_else(one(4), vec![assign("x", one(3))], vec![])]),
            built(vec![if_else(
                var("a"),
                vec![assign("x", one(3))],
                vec![assign("x", one(2))],
            )]),
            built(vec![case(one(4), vec![(text(3, "p"), vec![])])]),
            built(vec![case(
                var("a"),
                vec![(one(4), vec![assign("x", boolean(3, false))])],
            )]),
            built(vec![built_in("kiosk", text(4, "t"), vec![given("a", one(3))])]),
            built(vec![defined(
                "booth",
                var("t"),
                vec![given("a", one(3)), given("b", one(2))],
            )]),
            built(vec![class_with(
                "c",
                vec![given("a", one(3)), given("b", one(2))],
            )]),
            built(vec![type_definition(
                "u",
                vec![parameter("a", Some(one(6))), parameter("b", Some(one(5)))],
                vec![],
            )]),
            built(vec![class_definition(
                "c",
                None,
                vec![parameter("a", Some(one(6)))],
                vec![assign("x", one(5))],
            )]),
            built(vec![
                node(&["d"], vec![assign("x", one(6))]),
                node_default(vec![assign("x", one(5))]),
            ]),
            built(vec![
                assign("x", attribute_of("wall", "a", text(2, "t"))),
                assign("y", not(boolean(1, true))),
            ]),
        ],
    )]
}

/// The name in every field that holds a name which must be spelled bare.
fn holders(name: &str) -> Vec<Field> {
    let one = || int(0, 1);
    vec![
        assign("a", var(name)),
        assign("a", top_var(name)),
        assign("a", class_var(name, "b")),
        assign("a", class_var("b", name)),
        assign("a", attribute_of(name, "b", one())),
        assign("a", attribute_of("b", name, one())),
        assign(name, one()),
        built_in(name, one(), vec![]),
        built_in("kiosk", one(), vec![given("a", one()), given(name, one())]),
        defined(name, one(), vec![]),
        class_with(name, vec![]),
        include(name),
        type_definition(name, vec![], vec![]),
        type_definition("a", vec![parameter(name, None)], vec![]),
        class_definition(name, None, vec![], vec![]),
        class_definition("a", Some(parent(name)), vec![], vec![]),
    ]
}

/// Each of the names in a holder of its own, so that each holder has at least one.
fn held(names: &[&str]) -> Vec<Vec<u8>> {
    let count = names.len().max(holders("a").len());
    (0..count)
        .map(|at| {
            built(vec![
                holders(names[at % names.len()]).swap_remove(at % holders("a").len())
            ])
        })
        .collect()
}

fn names() -> Vec<Group> {
    let other = [
        "Fee", "a-b", "a::b", "_x", "9a", "a ", " a", "a\n", "\u{e9}", "$a", "aB", "a.b", "\0", "7", "'a'",
        "a,b", "a\u{7f}",
    ];
    vec![
        printing("an empty name", 26, "an empty name", held(&[""])),
        printing(
            "a keyword for a name",
            26,
            "a keyword for a name",
            held(&KEYWORDS),
        ),
        printing("other bytes in a name", 26, "other bytes in a name", held(&other)),
    ]
}

const BUILT_IN: [&str; 8] = [
    "kiosk", "tablet", "printer", "scanner", "gate", "screen", "plan", "wall",
];

fn kinds() -> Vec<Group> {
    let title = || text(0, "t");
    let in_block = |field: Field| node_default(vec![if_else(var("a"), vec![], vec![field])]);
    let mut wrong: Vec<Field> = BUILT_IN.map(|kind| defined(kind, title(), vec![])).into();
    wrong.push(in_block(defined("wall", title(), vec![])));
    let mut unknown: Vec<Field> = ["booth", "kiosks", "kios", "a"]
        .map(|kind| built_in(kind, title(), vec![]))
        .into();
    unknown.push(in_block(built_in("booth", title(), vec![given("if", int(0, 1))])));
    vec![
        printing(
            "a 25 of no built-in type",
            26,
            "a 25 of no built-in type",
            each(unknown),
        ),
        printing(
            "a 27 of a built-in type",
            26,
            "a 27 of a built-in type",
            each(wrong),
        ),
    ]
}

/// The lowest field at fault is told.
fn first_of_several() -> Vec<Group> {
    let falls = || binary(ADD, int(2, 1), int(1, 1));
    vec![
        printing(
            "a label that falls before other faults",
            26,
            FALLS,
            vec![built(vec![assign("x", falls()), include("if")])],
        ),
        printing(
            "a keyword before other faults",
            26,
            "a keyword for a name",
            vec![
                built(vec![include("if"), assign("x", falls()), include("")]),
                built(vec![assign("if", falls())]),
                built(vec![built_in("if", falls(), vec![])]),
                built(vec![assign("x", class_var("or", ""))]),
            ],
        ),
        printing(
            "a type before other faults",
            26,
            "a 27 of a built-in type",
            vec![built(vec![defined("wall", falls(), vec![given("", int(0, 1))])])],
        ),
    ]
}

/// A manifest whose text has so many bytes, and is itself short: its strings are of bytes that are escaped.
fn text_of(length: usize) -> Vec<u8> {
    let long = assign("x", text(0, "\\".repeat(255)));
    let size = "$x = ''\n".len() + 2 * 255;
    let count = (length - 600) / size;
    let mut left = length - count * size;
    let mut items = vec![long; count];
    // Of an include 9 bytes are no name: the word, a space, and what stands behind the name.
    let filling = |length: usize| include("n".repeat(length - 9));
    while left > 2 * 264 {
        items.push(filling(264));
        left -= 264;
    }
    items.push(filling(left / 2));
    items.push(filling(left - left / 2));
    built(items)
}

fn lengths() -> Vec<Group> {
    let mut cut = printing(
        "a text over the output",
        26,
        "a text over the output",
        vec![
            built(vec![include("a")]),
            built(vec![include("a")]),
            built(vec![assign("x", int(200, 1))]),
            built(vec![node(&["desk"], vec![include("a")])]),
        ],
    );
    for (case, output) in cut.cases.iter_mut().zip([0, 9, 206, 20]) {
        case.output = output;
    }
    vec![
        printing(
            "a text over 65,535 bytes",
            26,
            "a text over 65,535 bytes",
            vec![text_of(65_536), text_of(70_000)],
        ),
        cut,
    ]
}

/// Every operator beside every other, on the left or on the right.
fn operators(on_the_left: bool) -> Vec<u8> {
    let pair = |outer: u8, inner: u8| {
        let inner = binary(inner, var("a"), var("b"));
        match on_the_left {
            true => assign("x", binary(outer, inner, var("c"))),
            false => assign("x", binary(outer, var("c"), inner)),
        }
    };
    built(
        (0..7)
            .flat_map(|outer| (0..7).map(move |inner| pair(outer, inner)))
            .collect(),
    )
}

/// Operators, selectors and negations in each other.
fn around_operators() -> Vec<u8> {
    let chosen = || select(var("a"), vec![(default(), var("b"))]);
    let mut items = vec![
        assign("x", not(not(var("a")))),
        assign("x", not(chosen())),
        assign("x", select(chosen(), vec![(default(), chosen())])),
        assign("x", select(not(var("a")), vec![(default(), not(var("b")))])),
    ];
    for operator in 0..7 {
        let sum = || binary(operator, var("a"), var("b"));
        items.extend([
            assign("x", not(sum())),
            assign("x", binary(operator, not(var("a")), not(var("b")))),
            assign("x", binary(operator, chosen(), chosen())),
            assign("x", select(sum(), vec![(default(), sum())])),
        ]);
    }
    built(items)
}

/// Every byte in a string, and strings that look like other tokens.
fn odd_strings() -> Vec<u8> {
    let all: Vec<u8> = (0..=255).collect();
    let odd = [
        "", "if", "7", "$x", "'", "\"", "\\", "\\n", "\n", "a b", "# a", "\u{e9}", "true",
    ];
    let mut items = vec![
        assign("x", text(0, &all[..128])),
        assign("x", text(0, &all[128..])),
    ];
    items.extend(odd.map(|string| assign("x", text(0, string))));
    items.push(node(&odd, vec![]));
    built(items)
}

/// Line feeds where labels ask for them.
fn jumps() -> Vec<Vec<u8>> {
    let arms = vec![
        (text(3, "p"), int(5, 1)),
        (default(), int(5, 2)),
        (int(9, 3), var("z")),
    ];
    vec![
        built(vec![assign("x", int(255, 1))]),
        built(vec![
            include("a"),
            assign("x", int(2, 1)),
            include("b"),
            assign("y", boolean(2, true)),
            assign("z", int(4, -7)),
        ]),
        built(vec![assign("x", select(int(1, 1), arms))]),
        built(vec![node_default(vec![
            if_else(
                binary(ADD, int(1, 1), int(2, 2)),
                vec![assign("x", int(4, 1))],
                vec![assign("y", int(4, 2))],
            ),
            case(
                var("a"),
                vec![
                    (text(6, "p"), vec![]),
                    (default(), vec![include("a"), assign("x", int(8, 1))]),
                ],
            ),
            built_in(
                "kiosk",
                text(9, "t"),
                vec![
                    given("a", var("x")),
                    given("b", int(11, 1)),
                    given("c", not(int(12, 1))),
                ],
            ),
        ])]),
        built(vec![
            type_definition(
                "u",
                vec![parameter("a", Some(int(3, 1))), parameter("b", None)],
                vec![],
            ),
            class_definition(
                "c",
                Some(parent("d")),
                vec![parameter("a", None)],
                vec![assign("x", int(5, 1))],
            ),
        ]),
        built(vec![assign(
            "x",
            attribute_of("wall", "a", binary(EQUAL, var("a"), int(3, 1))),
        )]),
    ]
}

fn accepted() -> Vec<Group> {
    let manifests = forms()
        .into_iter()
        .filter_map(|text| TextCase::converting(text).answer().ok());
    let one = || built(vec![assign("x", int(0, 1))]);
    let mut fitting = printing(
        "printed: an output that is just long enough",
        0,
        "",
        vec![built(vec![]), one(), odd_strings()],
    );
    for case in &mut fitting.cases {
        case.output = case.answer().map_or(0, |text| text.len());
    }
    let mut roomy = printing(
        "printed: more output and memory than is needed",
        0,
        "",
        vec![one()],
    );
    (roomy.cases[0].output, roomy.cases[0].memory) = (70_000, 65_537);
    vec![
        printing("printed: every form", 0, "", manifests.collect()),
        printing(
            "printed: brackets",
            0,
            "",
            vec![operators(true), operators(false), around_operators()],
        ),
        printing("printed: odd strings", 0, "", vec![odd_strings()]),
        printing("printed: lines", 0, "", jumps()),
        printing(
            "printed: strings that no field names",
            0,
            "",
            vec![
                Manifest::new(vec![]).with("unused").build().bytes,
                Manifest::new(vec![include("b")])
                    .with("a")
                    .with("if")
                    .with("")
                    .build()
                    .bytes,
            ],
        ),
        printing("printed: a text of 65,535 bytes", 0, "", vec![text_of(65_535)]),
        fitting,
        roomy,
    ]
}
