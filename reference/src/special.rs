//! Named inputs: the cases of document 01, those on defaults for document 02,
//! and large ones for timing.

use crate::assemble::*;
use crate::case::Case;
use crate::named_definitions::ON_DEFINITIONS;

/// A name and how its input is made.
pub type Named = (&'static str, fn() -> Case);

/// Every named input but those on definitions, in order.
const NAMED: [Named; 63] = [
    ("schedule", || ordinary(whole_schedule(false))),
    ("schedule-peak-true", || ordinary(whole_schedule(true))),
    ("schedule-limit-4", || limited(whole_schedule(false), 4)),
    ("schedule-limit-3", || limited(whole_schedule(false), 3)),
    ("minus-7-by-2", || ordinary(arithmetic(DIVIDE, -7, 2))),
    ("7-by-minus-2", || ordinary(arithmetic(DIVIDE, 7, -2))),
    ("least-by-minus-1", || ordinary(arithmetic(DIVIDE, i64::MIN, -1))),
    ("0-by-0", || ordinary(arithmetic(DIVIDE, 0, 0))),
    ("largest-plus-1", || ordinary(arithmetic(ADD, i64::MAX, 1))),
    ("false-and", || ordinary(false_and())),
    ("branch-built-in", || ordinary(branch_built_in())),
    ("branch-include", || ordinary(branch_include())),
    ("depth-32", || ordinary(depth(32))),
    ("depth-33", || ordinary(depth(33))),
    ("level-16", || ordinary(level(16))),
    ("level-17", || ordinary(level(17))),
    ("inherit-each-other", || ordinary(inherit_each_other())),
    ("inherit-each-other-17-steps", || {
        limited(inherit_each_other(), 17)
    }),
    ("inherit-each-other-18-steps", || {
        limited(inherit_each_other(), 18)
    }),
    ("cells-512", || ordinary(cells(512))),
    ("cells-513", || ordinary(cells(513))),
    ("no-item", || ordinary(Manifest::default())),
    ("default-first-selector", || ordinary(selector(default_first(7)))),
    ("default-first-selector-no-match", || {
        ordinary(selector(default_first(8)))
    }),
    ("default-first-case", || ordinary(by_case(default_first(7)))),
    ("default-first-case-no-match", || {
        ordinary(by_case(default_first(8)))
    }),
    ("default-middle-selector", || {
        ordinary(selector(default_middle(8, 7)))
    }),
    ("default-middle-selector-match-before", || {
        ordinary(selector(default_middle(7, 7)))
    }),
    ("default-middle-selector-no-match", || {
        ordinary(selector(default_middle(8, 9)))
    }),
    ("default-middle-case", || ordinary(by_case(default_middle(8, 7)))),
    ("default-middle-case-match-before", || {
        ordinary(by_case(default_middle(7, 7)))
    }),
    ("default-middle-case-no-match", || {
        ordinary(by_case(default_middle(8, 9)))
    }),
    ("two-defaults-selector", || ordinary(selector(two_defaults(8, 9)))),
    ("two-defaults-selector-match-between", || {
        ordinary(selector(two_defaults(7, 7)))
    }),
    ("two-defaults-selector-match-behind", || {
        ordinary(selector(two_defaults(8, 7)))
    }),
    ("two-defaults-case", || ordinary(by_case(two_defaults(8, 9)))),
    ("two-defaults-case-match-between", || {
        ordinary(by_case(two_defaults(7, 7)))
    }),
    ("two-defaults-case-match-behind", || {
        ordinary(by_case(two_defaults(8, 7)))
    }),
    ("default-first-other-kinds", || {
        ordinary(selector(default_and_other_kinds()))
    }),
    ("default-first-equal-constants", || {
        ordinary(selector(default_and_equal_constants()))
    }),
    ("default-first-not-evaluated", || {
        ordinary(selector(default_without_value(7)))
    }),
    ("default-first-refused", || {
        ordinary(selector(default_without_value(8)))
    }),
    ("default-first-trail", || ordinary(default_first_trail())),
    ("two-defaults-second-not-evaluated", || {
        ordinary(selector(second_default_without_value()))
    }),
    ("two-defaults-mark", || ordinary(second_default_mark(8))),
    ("two-defaults-mark-match", || ordinary(second_default_mark(7))),
    ("two-defaults-trail", || ordinary(second_default_trail())),
    ("two-defaults-cells-512", || ordinary(second_default_cells(512))),
    ("two-defaults-cells-513", || ordinary(second_default_cells(513))),
    ("time-expression", || ordinary(large_expression())),
    ("time-variables", || ordinary(many_reads())),
    ("time-parent-chain", || ordinary(parent_chain())),
    ("time-marks", || ordinary(many_marks())),
    ("time-patterns", || ordinary(many_patterns())),
    ("time-entries", || ordinary(many_entries())),
    ("time-attribute-reads", || ordinary(attribute_reads())),
    ("time-steps", || ordinary(many_steps())),
    ("time-steps-refused", || limited(many_steps(), 65_534)),
    ("time-refused-late-3", || refused_late(Late::Field)),
    ("time-refused-late-5", || refused_late(Late::Name)),
    ("time-refused-late-8", || refused_late(Late::Again)),
    ("time-refused-late-13", || refused_late(Late::Read)),
    ("time-largest-accepted", || refused_late(Late::Never)),
];

/// Every named input, in order.
pub fn all_named() -> impl Iterator<Item = Named> {
    NAMED.into_iter().chain(ON_DEFINITIONS)
}

/// The named input, if there is one.
pub fn named(name: &str) -> Option<Case> {
    let (_, make) = all_named().find(|(known, _)| *known == name)?;
    Some(make())
}

pub fn ordinary(manifest: Manifest) -> Case {
    Case::of(manifest.build().bytes)
}

pub fn limited(manifest: Manifest, limit: u16) -> Case {
    Case {
        limit,
        ..ordinary(manifest)
    }
}

/// "A schedule, whole". The resource has the mark "kiosk".
pub fn whole_schedule(peak: bool) -> Manifest {
    Manifest::new(vec![
        assign("fee", int(1, 40)),
        assign("peak", boolean(2, peak)),
        node_default(vec![
            if_else(var("peak"), vec![assign("fee", int(3, 55))], vec![]),
            built_in(
                "kiosk",
                text(4, "front"),
                vec![given("price", var("fee")), given("screens", int(5, 2))],
            )
            .at("kiosk"),
        ]),
    ])
}

/// One operation, its result in the catalog. The operator has the mark
/// "operator".
pub fn arithmetic(operator: u8, left: i64, right: i64) -> Manifest {
    let result = binary(operator, int(2, left), int(3, right)).at("operator");
    Manifest::new(vec![built_in(
        "kiosk",
        text(1, "front"),
        vec![given("result", result)],
    )])
}

/// "false and (1 / 0 = 1) is false".
pub fn false_and() -> Manifest {
    let divided = binary(DIVIDE, int(3, 1), int(4, 0));
    let result = binary(AND, boolean(2, false), binary(EQUAL, divided, int(5, 1)));
    Manifest::new(vec![built_in(
        "kiosk",
        text(1, "front"),
        vec![given("result", result)],
    )])
}

/// "A branch holding only a built-in resource adds nothing to later values".
pub fn branch_built_in() -> Manifest {
    Manifest::new(vec![
        if_else(
            boolean(1, true),
            vec![built_in("wall", text(2, "north"), vec![])],
            vec![],
        ),
        built_in("kiosk", text(3, "front"), vec![given("price", int(4, 40))]),
    ])
}

/// "one holding an include adds its condition to all": here in the branch not
/// taken.
pub fn branch_include() -> Manifest {
    Manifest::new(vec![
        class_definition("extra", None, vec![], vec![]),
        if_else(boolean(1, true), vec![], vec![include("extra")]),
        built_in("kiosk", text(3, "front"), vec![given("price", int(4, 40))]),
    ])
}

/// A constant under enough nots to stand at the given depth, in an assignment
/// at depth 1. It has the mark "deepest".
pub fn depth(deepest: usize) -> Manifest {
    let value = (2..deepest).fold(boolean(1, true).at("deepest"), |inner, _| not(inner));
    Manifest::new(vec![assign("x", value)])
}

/// Types t00, t01, ... each of whose bodies declares the next one, the last
/// declaration being at the given level with the mark "last".
pub fn level(last: usize) -> Manifest {
    let kind = |at: usize| format!("t{at:02}");
    let declare = |at: usize| {
        let declaration = defined(kind(at), text(1, "front"), vec![]);
        if at == last {
            declaration.at("last")
        } else {
            declaration
        }
    };
    let mut items: Vec<Field> = (0..last)
        .map(|at| type_definition(kind(at), vec![], vec![declare(at + 1)]))
        .collect();
    let entry = built_in("kiosk", text(2, "end"), vec![]);
    items.push(type_definition(kind(last), vec![], vec![entry]));
    items.push(declare(0));
    Manifest::new(items)
}

/// "two classes inheriting each other". The parents have the marks "of a" and
/// "of b".
pub fn inherit_each_other() -> Manifest {
    Manifest::new(vec![
        class_definition("a", Some(parent("b").at("of a")), vec![], vec![]),
        class_definition("b", Some(parent("a").at("of b")), vec![], vec![]),
        include("a"),
    ])
}

/// As many assignments as told, then a resource. The last assignment has the
/// mark "last".
pub fn cells(count: usize) -> Manifest {
    let mut items: Vec<Field> = (1..=count)
        .map(|at| assign(format!("v{at:03}"), boolean((at % 256) as u8, true)))
        .collect();
    if let Some(last) = items.pop() {
        items.push(last.at("last"));
    }
    items.push(built_in("kiosk", text(1, "front"), vec![given("x", var("v001"))]));
    Manifest::new(items)
}

/// Patterns, each with the value it chooses.
type Choices = Vec<(Field, Field)>;

/// kiosk "front" (1), its x chosen by a selector over 7 (2).
pub fn selector(choices: Choices) -> Manifest {
    Manifest::new(vec![front(select(int(2, 7), choices))])
}

/// The same by a case over 7 (2), whose blocks assign x.
pub fn by_case(choices: Choices) -> Manifest {
    let assigning = |(pattern, value)| (pattern, vec![assign("x", value)]);
    let arms = choices.into_iter().map(assigning).collect();
    Manifest::new(vec![case(int(2, 7), arms), front(var("x"))])
}

pub fn front(value: Field) -> Field {
    built_in("kiosk", text(1, "front"), vec![given("x", value)])
}

pub fn default_first(behind: i64) -> Choices {
    vec![(default(), int(3, 30)), (int(4, behind), int(5, 50))]
}

pub fn default_middle(before: i64, behind: i64) -> Choices {
    vec![
        (int(3, before), int(4, 40)),
        (default(), int(5, 50)),
        (int(6, behind), int(7, 70)),
    ]
}

pub fn two_defaults(between: i64, behind: i64) -> Choices {
    vec![
        (default(), int(3, 30)),
        (int(4, between), int(5, 50)),
        (default(), int(6, 60)),
        (int(7, behind), int(8, 80)),
    ]
}

/// Behind the default no constant is an integer.
pub fn default_and_other_kinds() -> Choices {
    vec![
        (default(), int(3, 30)),
        (boolean(4, true), int(5, 50)),
        (text(6, "7"), int(7, 70)),
    ]
}

/// Behind the default both constants match.
pub fn default_and_equal_constants() -> Choices {
    vec![
        (default(), int(3, 30)),
        (int(4, 7), int(5, 50)),
        (int(6, 7), int(7, 70)),
    ]
}

/// The default's expression is refused 13 wherever it is evaluated, at the mark
/// "unset".
pub fn default_without_value(behind: i64) -> Choices {
    vec![
        (default(), var("unset").at("unset")),
        (int(4, behind), int(5, 50)),
    ]
}

/// The second default's expression would be refused 13 if it were evaluated.
pub fn second_default_without_value() -> Choices {
    vec![
        (default(), int(3, 30)),
        (default(), var("unset")),
        (int(4, 8), int(5, 50)),
    ]
}

/// The default's block holds an include, and the constant behind it matches.
pub fn default_first_trail() -> Manifest {
    let arms = vec![(default(), vec![include("extra")]), (int(3, 7), vec![])];
    Manifest::new(vec![
        class_definition("extra", None, vec![], vec![]),
        case(int(2, 7), arms),
        front(int(4, 40)),
    ])
}

/// A case over 7 (2) with a constant (3) between two defaults; only the second
/// default's block holds a statement. The case has the mark "case".
fn second_default(between: i64, statement: Field) -> Field {
    let arms = vec![
        (default(), vec![]),
        (int(3, between), vec![]),
        (default(), vec![statement]),
    ];
    case(int(2, 7), arms).at("case")
}

/// The second default's block assigns x, which has a value already.
pub fn second_default_mark(between: i64) -> Manifest {
    Manifest::new(vec![
        assign("x", int(4, 40)),
        second_default(between, assign("x", int(5, 50))),
        front(var("x")),
    ])
}

/// The second default's block holds an include.
pub fn second_default_trail() -> Manifest {
    Manifest::new(vec![
        class_definition("extra", None, vec![], vec![]),
        second_default(8, include("extra")),
        front(int(4, 40)),
    ])
}

/// The mark of a name in the second default's block takes the last of so many
/// cells.
pub fn second_default_cells(count: usize) -> Manifest {
    let mut manifest = cells(count - 1);
    let marking = second_default(8, assign("x", int(5, 50)));
    manifest.items.push(marking);
    manifest
}

/// Runs a type body 2^levels times: each type declares the next twice, and the
/// last one has the body.
pub fn repeated(levels: usize, mut definitions: Vec<Field>, body: Vec<Field>) -> Manifest {
    let kind = |at: usize| format!("t{at:02}");
    let declare = |at: usize| defined(kind(at), text(1, "x"), vec![]);
    definitions.extend((0..levels).map(|at| {
        let twice = vec![declare(at + 1), declare(at + 1)];
        type_definition(kind(at), vec![], twice)
    }));
    definitions.push(type_definition(kind(levels), vec![], body));
    definitions.push(declare(0));
    definitions.push(built_in("kiosk", text(2, "end"), vec![]));
    Manifest::new(definitions)
}

/// A balanced tree of "=" over the given leaves.
pub fn balanced(mut leaves: Vec<Field>) -> Field {
    while leaves.len() > 1 {
        let mut above = Vec::with_capacity(leaves.len() / 2 + 1);
        let mut rest = leaves.into_iter();
        while let Some(left) = rest.next() {
            above.push(match rest.next() {
                Some(right) => binary(EQUAL, left, right),
                None => left,
            });
        }
        leaves = above;
    }
    leaves.pop().unwrap_or_else(|| boolean(0, true))
}

/// An expression of about 64,000 bytes, evaluated 16,384 times.
fn large_expression() -> Manifest {
    let leaves = (0..7000)
        .map(|at| boolean((at % 256) as u8, at % 3 == 0))
        .collect();
    repeated(14, vec![], vec![assign("y", balanced(leaves))])
}

/// 500 variables of the top, read 5,000 times by each of 1,024 bodies.
fn many_reads() -> Manifest {
    let name = |at: usize| format!("v{:03}", at % 500);
    let assigned = (0..500).map(|at| assign(name(at), boolean((at % 256) as u8, true)));
    let leaves = (0..5000).map(|at| var(name(at * 7))).collect();
    repeated(10, assigned.collect(), vec![assign("y", balanced(leaves))])
}

/// A class under 999 parents reads a variable of the top 4,000 times.
fn parent_chain() -> Manifest {
    let class = |at: usize| format!("c{at:03}");
    let mut items = vec![assign("v", int(1, 1))];
    for at in 0..1000usize {
        let above = at.checked_sub(1).map(|before| parent(class(before)));
        let body = match at {
            999 => vec![assign("y", balanced((0..4000).map(|_| var("v")).collect()))],
            _ => vec![],
        };
        items.push(class_definition(class(at), above, vec![], body));
    }
    items.extend((0..1000).map(|at| include(class(at))));
    items.push(built_in(
        "kiosk",
        text(2, "end"),
        vec![given("y", class_var("c999", "y"))],
    ));
    Manifest::new(items)
}

/// 500 names marked by each of 8,192 bodies, by a branch not taken.
fn many_marks() -> Manifest {
    let branch = (0..500).map(|at| assign(format!("v{at:03}"), boolean(3, true)));
    repeated(
        13,
        vec![],
        vec![if_else(boolean(4, true), vec![], branch.collect())],
    )
}

/// 3,500 patterns tried by each of 4,096 bodies; with its empty block an arm is
/// 18 bytes.
fn many_patterns() -> Manifest {
    let arms = (0..3500).map(|at| (int((at % 256) as u8, at), vec![]));
    repeated(12, vec![], vec![case(int(9, -1), arms.collect())])
}

/// 1,680 resources, as many as 65,535 bytes hold.
fn many_entries() -> Manifest {
    let entry = |at: usize| {
        let kind = if at % 2 == 0 { "kiosk" } else { "wall" };
        built_in(kind, text((at % 256) as u8, format!("r{:03}", at / 2)), vec![])
    };
    Manifest::new((0..1680).map(entry).collect())
}

/// One resource with 900 attributes, read 2,300 times by each of 256 bodies.
fn attribute_reads() -> Manifest {
    let name = |at: usize| format!("a{:03}", at % 900);
    let attributes = (0..900).map(|at| given(name(at), boolean((at % 256) as u8, true)));
    let wide = built_in("gate", text(5, "wide"), attributes.collect());
    let read = |at: usize| attribute_of("gate", name(at * 7), text(6, "wide"));
    let leaves = (0..2300).map(read).collect();
    repeated(8, vec![wide], vec![assign("y", balanced(leaves))])
}

/// Exactly 65,535 steps: 32,767 declarations of types, and an assignment and an
/// if in each of the 16,384 last bodies.
pub fn many_steps() -> Manifest {
    let body = vec![
        assign("y", var("title")),
        if_else(boolean(3, true), vec![], vec![]),
    ];
    let mut manifest = repeated(14, vec![], body);
    // The resource at the end would be one step more than the 65,535.
    manifest.items.pop();
    manifest
}

/// Why the largest manifest is refused.
#[derive(Clone, Copy, PartialEq, Eq)]
enum Late {
    Field,
    Name,
    Again,
    Read,
    Never,
}

/// A manifest of 65,535 bytes whose last field has the fault: an item in front,
/// as many ifs of 14 bytes as fit, and a string that takes up what is left.
fn refused_late(fault: Late) -> Case {
    let make = |ifs: usize, padding: usize| {
        let mut items = vec![class_definition("c", None, vec![], vec![])];
        items.extend((0..ifs).map(|at| if_else(boolean((at % 256) as u8, true), vec![], vec![])));
        items.push(match fault {
            Late::Never => include("c"),
            Late::Field => include("c").length(3),
            Late::Name => Field::new(0x29).bytes(&[0xFF, 0xFF]),
            Late::Again => class_definition("c", None, vec![], vec![]),
            Late::Read => assign("y", var("none")),
        });
        Manifest::new(items).with("z".repeat(padding)).build().bytes
    };
    let room = 65_535 - make(0, 0).len();
    Case::of(make(room / 14, room % 14))
}
