//! Random manifests of particular shapes, each aimed at rules that a random
//! program seldom comes near.

use crate::arrange::{arrange, scatter};
use crate::assemble::*;
use crate::program::{any_constant, place_defaults, stray_statement};
use crate::random::Random;

/// One of the shapes, its definitions anywhere.
pub fn shape(random: &mut Random) -> Manifest {
    let number = random.weighted(&[5, 5, 6, 4, 4, 10, 1, 1, 16, 9, 7, 8, 12]);
    let mut manifest = numbered(number, random);
    arrange(random, &mut manifest);
    manifest
}

/// The shape of that number.
fn numbered(number: usize, random: &mut Random) -> Manifest {
    match number {
        0 => deep(random),
        1 => counting(random),
        2 => links(random),
        3 => many_cells(random),
        4 => edges(random),
        5 => class_graph(random),
        6 => wide_catalog(random),
        7 => large_table(random),
        8 => crowded(random),
        9 => marked_reads(random),
        10 => bases(random),
        11 => choices(random),
        _ => joined(random),
    }
}

fn depth_of(field: &Field) -> usize {
    let inner = field.parts.iter().map(|part| match part {
        Part::Field(inner) => depth_of(inner),
        _ => 0,
    });
    1 + inner.max().unwrap_or(0)
}

/// Fields nested to about depth 32, sometimes with a fault beside them.
fn deep(random: &mut Random) -> Manifest {
    let target = random.between(30, 34);
    let mut value = match random.below(8) {
        0 => Field::new(random.pick(&[0x20, 0x1B, 0x02, 0x17])),
        1 => Field::new(0x12).bytes(&[random.label(), 1, 0]),
        2 => Field::new(0x12).bytes(&[random.label(), 2]),
        _ => boolean(random.label(), true),
    };
    for _ in 0..random.below(target) {
        value = match random.below(6) {
            0 => binary(EQUAL, value, boolean(random.label(), true)),
            1 => binary(AND, boolean(random.label(), true), value),
            2 => select(boolean(random.label(), false), vec![(default(), value)]),
            3 => select(value, vec![(default(), boolean(random.label(), true))]),
            _ => not(value),
        };
    }
    let mut statement = assign("x", value);
    while depth_of(&statement) + 2 <= target {
        let test = boolean(random.label(), random.chance(700));
        statement = match random.below(5) {
            0 if depth_of(&statement) + 3 <= target => case(test, vec![(default(), vec![statement])]),
            1 => if_else(test, vec![], vec![statement]),
            _ => if_else(test, vec![statement], vec![]),
        };
    }
    let mut items = vec![
        statement,
        built_in("kiosk", text(random.label(), "front"), vec![]),
    ];
    if random.chance(200) {
        items.insert(random.below(3), faulty_field(random));
    }
    Manifest::new(items)
}

/// A statement with a part missing, too many, or of the wrong sort.
fn faulty_field(random: &mut Random) -> Field {
    let label = random.label();
    match random.below(6) {
        0 => Field::new(0x17),
        1 => assign(
            "y",
            Field::new(0x16)
                .bytes(&[7])
                .field(int(label, 1))
                .field(int(label, 2)),
        ),
        2 => assign("y", Field::new(0x12).bytes(&[label, 2])),
        3 => assign("y", int(label, 1)).field(int(label, 2)),
        4 => Field::new(0x22).field(boolean(label, true)).field(block(vec![])),
        _ => Field::new(0x25)
            .name("kiosk")
            .field(given("price", int(label, 1))),
    }
}

/// A type that declares itself with a number falling to zero: level 16 or 17.
fn counting(random: &mut Random) -> Manifest {
    let start = random.between(12, 18) as i64;
    let label = |random: &mut Random| random.label();
    let again = defined(
        "count",
        var("title"),
        vec![given(
            "left",
            binary(SUBTRACT, var("left"), int(label(random), 1)),
        )],
    );
    let entry = built_in(
        "gate",
        var("title"),
        vec![given("left", var("left")), given("seen", var("seen"))],
    );
    let test = binary(GREATER, var("left"), int(label(random), 0));
    let mut bottom = vec![entry];
    if random.chance(300) {
        bottom.push(stray_statement(random));
    }
    let mut body = vec![
        if_else(
            boolean(label(random), random.chance(500)),
            vec![assign("seen", int(label(random), 1))],
            vec![],
        ),
        if_else(test, vec![again], bottom),
    ];
    if random.chance(300) {
        body.reverse();
    }
    let first = defined(
        "count",
        text(label(random), "front"),
        vec![given("left", int(label(random), start))],
    );
    let mut items = vec![
        assign("seen", int(label(random), 7)),
        type_definition("count", vec![parameter("left", None)], body),
    ];
    match random.below(3) {
        0 => {
            items.push(class_definition("outer", None, vec![], vec![first]));
            items.push(include("outer"));
        }
        1 => items.push(node_default(vec![first])),
        _ => items.push(first),
    }
    Manifest::new(items)
}

/// Definitions in a chain of about 17, each reaching the next by its parent, an
/// include, a class with attributes or a type.
fn links(random: &mut Random) -> Manifest {
    let length = random.between(8, 18);
    let mut items = Vec::new();
    let mut statement = end_of_links(random);
    let mut above: Option<String> = None;
    for at in 0..length {
        let name = format!("c{at:02}");
        let inherits = above.take().map(parent);
        let mut body = vec![statement.clone()];
        if inherits.is_some() {
            body = vec![assign("own", any_constant(random))];
        }
        if random.chance(200) {
            let test = boolean(random.label(), random.chance(800));
            body = vec![if_else(test, body, vec![])];
        }
        if inherits.is_none() && random.chance(250) {
            items.push(type_definition(&name, vec![], body));
            statement = defined(&name, text(random.label(), "link"), vec![]);
            continue;
        }
        items.push(class_definition(&name, inherits, vec![], body));
        statement = match random.below(2) {
            0 => include(&name),
            _ => class_with(&name, vec![]),
        };
        if random.chance(450) {
            above = Some(name);
        }
    }
    items.push(statement);
    items.push(built_in("kiosk", text(random.label(), "last"), vec![]));
    Manifest::new(items)
}

fn end_of_links(random: &mut Random) -> Field {
    if random.chance(300) {
        return stray_statement(random);
    }
    let price = given("price", any_constant(random));
    built_in("wall", text(random.label(), "end"), vec![price])
}

/// About 512 cells, of values, of marks, in classes and in type bodies.
fn many_cells(random: &mut Random) -> Manifest {
    let target = random.between(508, 514);
    let in_class = random.below(40);
    let in_body = random.between(1, 40);
    let marked = random.below(200);
    // Sometimes no cell is left for the body, so that its title or its parameter
    // is the 513th.
    let body_share = if random.chance(300) {
        random.below(3)
    } else {
        in_body
    };
    let plain = target - in_class - body_share - marked;
    let name = |at: usize| format!("v{at:03}");
    let mut items: Vec<Field> = (0..plain)
        .map(|at| assign(name(at), boolean(random.label(), true)))
        .collect();
    let class_body = (0..in_class)
        .map(|at| assign(name(at), int(random.label(), 1)))
        .collect();
    items.push(class_definition("many", None, vec![], class_body));
    // The body has its title and a parameter besides; the title only if the
    // table has that string.
    let with_title = random.chance(500);
    let inner = in_body - 1 - usize::from(with_title && in_body > 1);
    let mut type_body: Vec<Field> = (0..inner)
        .map(|at| assign(name(at), int(random.label(), 2)))
        .collect();
    if random.chance(500) {
        type_body = vec![if_else(
            boolean(random.label(), random.chance(500)),
            type_body,
            vec![],
        )];
    }
    items.push(type_definition(
        "body",
        vec![parameter("p", Some(int(random.label(), 3)))],
        type_body,
    ));
    items.push(include("many"));
    let test = boolean(random.label(), random.chance(500));
    let branch = (plain..plain + marked).map(|at| assign(name(at), boolean(random.label(), true)));
    items.push(if_else(test, branch.collect(), vec![]));
    for at in 0..random.between(1, 3) {
        items.push(defined("body", text(random.label(), format!("t{at}")), vec![]));
    }
    if random.chance(300) {
        items.push(assign("extra", int(random.label(), 1)));
    }
    items.push(built_in(
        "kiosk",
        text(random.label(), "front"),
        vec![given("x", var(name(0)))],
    ));
    let manifest = Manifest::new(items);
    match with_title {
        true => manifest.with("title"),
        false => manifest,
    }
}

/// Integers near the limits of 64 bits.
fn edges(random: &mut Random) -> Manifest {
    let edge = |random: &mut Random| {
        let near = random.below(3) as i64;
        match random.below(6) {
            0 => i64::MIN + near,
            1 => i64::MAX - near,
            2 => near - 1,
            3 => (i64::MAX / 2 + 1).wrapping_sub(near),
            4 => (i64::MIN / 2) + near,
            _ => near - 4,
        }
    };
    let mut items = Vec::new();
    for at in 0..random.between(1, 3) {
        let operator = random.pick(&[ADD, SUBTRACT, DIVIDE, DIVIDE, GREATER, EQUAL]);
        let (left, right) = (edge(random), edge(random));
        let mut result = binary(operator, int(random.label(), left), int(random.label(), right));
        if operator <= DIVIDE && random.chance(300) {
            let by = edge(random);
            result = binary(
                random.pick(&[ADD, SUBTRACT, DIVIDE]),
                result,
                int(random.label(), by),
            );
        }
        let title = format!("r{at}");
        items.push(built_in(
            "plan",
            text(random.label(), title),
            vec![given("result", result)],
        ));
    }
    Manifest::new(items)
}

/// A few classes that include and inherit one another at random: looking
/// again, loops, classes declared during their parent's declaration.
fn class_graph(random: &mut Random) -> Manifest {
    const NAMES: [&str; 4] = ["a", "b", "c", "d"];
    let mut items = vec![assign("on", boolean(random.label(), random.chance(500)))];
    for name in NAMES {
        let above = random.chance(550).then(|| parent(random.pick(&NAMES)));
        let mut body = vec![assign("own", any_constant(random))];
        if random.chance(500) {
            body.push(built_in(
                "wall",
                text(random.label(), name),
                vec![given("on", var("on"))],
            ));
        }
        for _ in 0..random.below(3) {
            body.push(class_use(random, &NAMES));
        }
        if random.chance(300) {
            body.push(assign("seen", class_var(random.pick(&NAMES), "own")));
        }
        if random.chance(200) {
            let name = random.pick(&["on", "own", "free"]);
            body.push(if_else(
                var("on"),
                vec![assign(name, any_constant(random))],
                vec![],
            ));
        }
        if random.chance(300) {
            body.reverse();
        }
        let parameters = match random.below(4) {
            0 => vec![parameter("p", Some(any_constant(random)))],
            1 if random.chance(200) => vec![parameter("p", None)],
            _ => vec![],
        };
        items.push(class_definition(name, above, parameters, body));
    }
    let uses: Vec<Field> = (0..random.between(1, 3))
        .map(|_| class_use(random, &NAMES))
        .collect();
    match random.chance(400) {
        true => items.push(node_default(uses)),
        false => items.extend(uses),
    }
    let class = random.pick(&NAMES);
    items.push(built_in(
        "kiosk",
        text(random.label(), "front"),
        vec![given("on", var("on"))],
    ));
    if random.chance(300) {
        items.push(built_in(
            "kiosk",
            text(random.label(), "back"),
            vec![given("own", class_var(class, "own"))],
        ));
    }
    Manifest::new(items)
}

fn class_use(random: &mut Random, names: &[&str]) -> Field {
    let name = random.pick(names);
    let declaration = match random.below(4) {
        0 => class_with(name, vec![]),
        1 if random.chance(500) => class_with(name, vec![given("p", any_constant(random))]),
        _ => include(name),
    };
    match random.below(4) {
        0 => if_else(var("on"), vec![declaration], vec![]),
        1 => case(
            var("on"),
            vec![(boolean(random.label(), random.chance(500)), vec![declaration])],
        ),
        _ => declaration,
    }
}

/// A type whose resource has many attributes, declared until the catalog is
/// near 65,535 bytes or past them.
fn wide_catalog(random: &mut Random) -> Manifest {
    let attributes = random.between(150, 300);
    let times = 65_535 / (39 + attributes * 44) + random.below(2);
    let attribute = |at: usize, random: &mut Random| given(format!("a{at:03}"), any_constant(random));
    let body = (0..attributes).map(|at| attribute(at, random)).collect();
    let mut items = vec![type_definition(
        "wide",
        vec![],
        vec![built_in("plan", var("title"), body)],
    )];
    items.extend((0..times).map(|at| defined("wide", text(random.label(), format!("t{at}")), vec![])));
    if random.chance(200) {
        // One resource alone past 65,535 bytes, if 21 didn't come first.
        let many = (0..1400)
            .map(|at| given(format!("a{:03}", at % 700), int(1, 1)))
            .collect();
        items.push(built_in("wall", text(random.label(), "much"), many));
    }
    Manifest::new(items)
}

/// The table's limits: 1,024 strings, 255 bytes.
fn large_table(random: &mut Random) -> Manifest {
    let mut manifest = Manifest::new(vec![built_in("kiosk", text(random.label(), "front"), vec![])]);
    match random.below(4) {
        0 => {
            let count = random.between(1021, 1024);
            for at in 0..count {
                manifest.strings.push(format!("s{at:04}").into_bytes());
            }
        }
        1 => manifest.strings.push(vec![b'x'; random.between(254, 257)]),
        2 => manifest.strings.push(Vec::new()),
        _ => manifest.items.clear(),
    }
    manifest
}

/// One statement with several things wrong at once, often at level 16 or 17.
fn crowded(random: &mut Random) -> Manifest {
    let mut items = vec![
        type_definition(
            "booth",
            vec![
                parameter("fee", None),
                parameter("open", Some(boolean(random.label(), true))),
            ],
            vec![built_in(
                "plan",
                var("title"),
                vec![given("fee", var("fee")), given("open", var("open"))],
            )],
        ),
        type_definition(
            "twice",
            vec![parameter("fee", Some(int(1, 1))), parameter("fee", None)],
            vec![],
        ),
        type_definition("titled", vec![parameter("title", Some(text(2, "t")))], vec![]),
        class_definition(
            "billing",
            None,
            vec![parameter("fee", Some(int(random.label(), 3)))],
            vec![assign("twofold", binary(ADD, var("fee"), var("fee")))],
        ),
        class_definition("needs", None, vec![parameter("fee", None)], vec![]),
        class_definition(
            "child",
            Some(parent("needs")),
            vec![parameter("fee", None)],
            vec![],
        ),
        class_definition("orphan", Some(parent("nowhere")), vec![], vec![]),
        class_definition("odd", Some(parent("booth")), vec![], vec![]),
        class_definition(
            "heir",
            Some(parent("billing")),
            vec![],
            vec![assign("own", var("fee"))],
        ),
        class_definition(
            "again",
            Some(parent("looper")),
            vec![parameter("fee", Some(int(4, 4)))],
            vec![],
        ),
        class_definition("looper", None, vec![], vec![include("again")]),
        built_in(
            "wall",
            text(random.label(), "there"),
            vec![given("price", int(random.label(), 5))],
        ),
    ];
    if random.chance(500) {
        items.push(include("billing"));
    }
    if random.chance(150) {
        items.push(class_with("needs", vec![given("fee", int(random.label(), 8))]));
    }
    let mut statements: Vec<Field> = (0..random.between(1, 2))
        .map(|_| crowded_statement(random))
        .collect();
    if random.chance(300) {
        let test = boolean(random.label(), true);
        statements = vec![if_else(test, statements, vec![])];
    }
    let below = random.pick(&[0, 0, 0, 1, 15, 16, 16, 17, 17]);
    for at in (0..below).rev() {
        let name = format!("l{at:02}");
        items.push(type_definition(&name, vec![], statements));
        statements = vec![defined(&name, text(random.label(), "down"), vec![])];
    }
    items.extend(statements);
    Manifest::new(items)
}

fn crowded_statement(random: &mut Random) -> Field {
    const DEFINED: [&str; 8] = [
        "booth", "booth", "booth", "twice", "titled", "wall", "billing", "nowhere",
    ];
    const CLASSES: [&str; 11] = [
        "billing", "billing", "needs", "child", "orphan", "odd", "heir", "again", "again", "booth", "nowhere",
    ];
    match random.below(6) {
        0 => {
            let kind = random.pick(&["wall", "wall", "gate", "booth", "nowhere"]);
            let title = crowded_title(random);
            built_in(kind, title, crowded_attributes(random, &["price", "fee", "open"]))
        }
        1 | 2 => {
            let kind = random.pick(&DEFINED);
            let title = crowded_title(random);
            defined(
                kind,
                title,
                crowded_attributes(random, &["fee", "open", "open", "title", "price"]),
            )
        }
        3 => {
            let class = random.pick(&CLASSES);
            class_with(class, crowded_attributes(random, &["fee", "fee", "price"]))
        }
        4 => include(random.pick(&CLASSES)),
        _ => {
            let title = crowded_title(random);
            let kind = random.pick(&["wall", "gate", "booth", "billing", "nowhere"]);
            let value = match random.below(3) {
                0 => attribute_of(kind, random.pick(&["price", "fee"]), title),
                1 => class_var(random.pick(&CLASSES), random.pick(&["fee", "own", "twofold"])),
                _ => select(title, vec![(text(random.label(), "there"), any_constant(random))]),
            };
            assign("z", value)
        }
    }
}

fn crowded_title(random: &mut Random) -> Field {
    match random.below(8) {
        0 => int(random.label(), 1),
        1 => var("unset"),
        2 | 3 => text(random.label(), "there"),
        4 => select(
            boolean(random.label(), true),
            vec![(default(), text(random.label(), "new"))],
        ),
        _ => text(random.label(), "new"),
    }
}

fn crowded_attributes(random: &mut Random, names: &[&str]) -> Vec<Field> {
    let mut name = random.pick(names);
    let mut attributes = Vec::new();
    for _ in 0..random.weighted(&[3, 5, 5, 1]) {
        let value = match random.below(14) {
            0 => var("unset"),
            1 => binary(DIVIDE, int(random.label(), 1), int(random.label(), 0)),
            2 => attribute_of("wall", "price", text(random.label(), "there")),
            _ => any_constant(random),
        };
        attributes.push(given(name, value));
        if random.chance(600) {
            name = random.pick(names);
        }
    }
    attributes
}

/// The same variable at the top and in the node, read by classes and type
/// bodies declared from either: parents and bases.
fn bases(random: &mut Random) -> Manifest {
    let wall = |random: &mut Random, title: &str| {
        built_in("wall", text(random.label(), title), vec![given("x", var("x"))])
    };
    let body = |random: &mut Random, title: &str| {
        let mut statements = vec![wall(random, title)];
        for _ in 0..random.below(3) {
            let use_of = match random.below(4) {
                0 => defined("t", text(random.label(), format!("{title} t")), vec![]),
                1 => include("above"),
                _ => include("inner"),
            };
            statements.insert(random.below(2), use_of);
        }
        statements
    };
    let mut items = vec![assign("x", int(random.label(), 1))];
    items.push(class_definition(
        "inner",
        None,
        vec![],
        vec![wall(random, "inner")],
    ));
    let of_above = vec![if_else(
        boolean(random.label(), random.chance(300)),
        vec![assign("x", int(random.label(), 3))],
        body(random, "above"),
    )];
    items.push(class_definition("above", None, vec![], of_above));
    let of_child = body(random, "child");
    items.push(class_definition("child", Some(parent("above")), vec![], of_child));
    let gate = built_in("gate", var("title"), vec![given("x", var("x"))]);
    items.push(type_definition("t", vec![], vec![gate, include("inner")]));
    if random.chance(500) {
        items.push(include(random.pick(&["above", "above", "inner", "child"])));
    }
    let setting = assign("x", int(random.label(), 2));
    let mut inside = vec![match random.below(3) {
        0 => if_else(boolean(random.label(), random.chance(500)), vec![setting], vec![]),
        _ => setting,
    }];
    for at in 0..random.between(1, 2) {
        inside.push(match random.below(4) {
            0 => defined("t", text(random.label(), format!("node {at}")), vec![]),
            1 => include("above"),
            _ => include("child"),
        });
    }
    items.push(node_default(inside));
    items.push(include(random.pick(&["child", "inner"])));
    Manifest::new(items)
}

/// The same few names assigned and read in every scope, mostly under
/// conditions: marks, paths and the trail.
fn marked_reads(random: &mut Random) -> Manifest {
    let mut items = vec![
        assign("on", boolean(random.label(), random.chance(500))),
        assign("x", int(random.label(), 1)),
        class_definition("quiet", None, vec![], vec![]),
    ];
    let parent_body = marked_body(random, "up");
    items.push(class_definition("upper", None, vec![], parent_body));
    let child_body = marked_body(random, "low");
    items.push(class_definition(
        "lower",
        Some(parent("upper")),
        vec![],
        child_body,
    ));
    let type_body = marked_body(random, "typed");
    items.push(type_definition("body", vec![], type_body));
    let uses = [
        include("upper"),
        include("lower"),
        defined("body", text(random.label(), "b"), vec![]),
    ];
    let mut inside: Vec<Field> = (0..random.between(1, 3)).map(|_| random.pick(&uses)).collect();
    inside.dedup_by(|a, b| a.tag == 0x27 && b.tag == 0x27);
    inside.extend(marked_body(random, "own"));
    match random.chance(600) {
        true => items.push(node_default(inside)),
        false => items.extend(inside),
    }
    items.push(built_in(
        "kiosk",
        text(random.label(), "last"),
        vec![given("x", var("x"))],
    ));
    Manifest::new(items)
}

fn marked_body(random: &mut Random, title: &str) -> Vec<Field> {
    let mut body = Vec::new();
    let mut assigned = false;
    for at in 0..random.between(1, 5) {
        let test = match random.below(3) {
            0 => boolean(random.label(), false),
            1 => binary(GREATER, var("x"), int(random.label(), 1)),
            _ => var("on"),
        };
        let setting = assign("x", int(random.label(), at as i64));
        let other = random.pick(&["y", "z"]);
        let nested = if_else(
            boolean(random.label(), false),
            vec![assign(other, int(random.label(), 2))],
            vec![],
        );
        body.push(match random.below(6) {
            0 if !assigned => {
                assigned = true;
                if_else(test, vec![setting], vec![nested])
            }
            1 => if_else(boolean(random.label(), false), vec![setting], vec![nested]),
            2 => case(var("x"), vec![(int(random.label(), at as i64), vec![nested])]),
            3 => if_else(boolean(random.label(), false), vec![include("quiet")], vec![]),
            _ => {
                let attributes = vec![given("x", var("x")), given("top", top_var("x"))];
                built_in(
                    random.pick(&["gate", "plan"]),
                    text(random.label(), format!("{title}{at}")),
                    attributes,
                )
            }
        });
    }
    body
}

/// Cases and selectors over so few values that a constant before a default, one
/// behind it and none are each chosen often; what they assign and declare shows
/// in what is read after them.
fn choices(random: &mut Random) -> Manifest {
    let mut items = vec![
        assign("x", few(random)),
        assign("y", any_constant(random)),
        class_definition("quiet", None, vec![], vec![]),
    ];
    for at in 0..random.between(1, 4) {
        items.push(match random.chance(500) {
            true => choosing_case(random, at),
            false => built_in(
                "gate",
                text(random.label(), format!("selected{at}")),
                vec![given("x", choosing_selector(random))],
            ),
        });
    }
    items.push(built_in(
        "kiosk",
        text(random.label(), "last"),
        vec![given("x", var("x")), given("y", var("y"))],
    ));
    Manifest::new(items)
}

/// One of few constants, mostly of one kind.
fn few(random: &mut Random) -> Field {
    match random.below(10) {
        0 => boolean(random.label(), true),
        1 => text(random.label(), "last"),
        _ => int(random.label(), random.below(3) as i64),
    }
}

fn choosing_selector(random: &mut Random) -> Field {
    let mut arms: Vec<(Field, Field)> = (0..random.between(1, 4))
        .map(|_| (few(random), any_constant(random)))
        .collect();
    if !random.chance(100) {
        let first = any_constant(random);
        let second = random.chance(250).then(|| var("unset"));
        place_defaults(random, &mut arms, first, second);
    }
    select(var("x"), arms)
}

/// A second default's block never runs, so it may assign what has a value.
fn choosing_case(random: &mut Random, at: usize) -> Field {
    let mut arms: Vec<(Field, Vec<Field>)> = (0..random.between(1, 4))
        .map(|arm| (few(random), choice(random, &format!("chosen{at}-{arm}"))))
        .collect();
    if !random.chance(200) {
        let first = choice(random, &format!("default{at}"));
        let second = random
            .chance(250)
            .then(|| vec![assign(random.pick(&["x", "y"]), any_constant(random))]);
        place_defaults(random, &mut arms, first, second);
    }
    case(var("x"), arms)
}

/// A block that shows that it ran, marks a name, adds to the trail or is empty.
fn choice(random: &mut Random, title: &str) -> Vec<Field> {
    match random.below(5) {
        0 => vec![],
        1 => vec![include("quiet")],
        2 => vec![assign(title, any_constant(random))],
        _ => vec![built_in("wall", text(random.label(), title), vec![])],
    }
}

const OFFICES: [&str; 4] = ["office", "north", "east", "south"];

/// Desk files joined in any order: what one defines others use, by every form
/// that names a class or a type.
fn joined(random: &mut Random) -> Manifest {
    let mut definitions = office_classes(random);
    definitions.extend(desk_types(random));
    let mut items = vec![
        assign("on", boolean(random.label(), random.chance(500))),
        assign("rate", int(random.label(), 1)),
    ];
    let mut declared = Vec::new();
    let mut uses: Vec<Field> = (0..random.between(2, 6))
        .map(|at| desk_use(random, at, &mut declared))
        .collect();
    if random.chance(300) {
        uses = vec![node_default(uses)];
    }
    items.extend(uses);
    items.extend(definitions);
    let mut manifest = Manifest::new(items);
    scatter(random, &mut manifest);
    manifest
}

/// Each class may inherit one before it; its body shows what it reads.
fn office_classes(random: &mut Random) -> Vec<Field> {
    let mut classes = Vec::new();
    for (at, name) in OFFICES.into_iter().enumerate() {
        let inherits = at > 0 && random.chance(600);
        let above = inherits.then(|| parent(OFFICES[random.below(at)]));
        let mut body = vec![
            assign("rate", binary(ADD, var("fee"), int(random.label(), 1))),
            built_in(
                "wall",
                text(random.label(), name),
                vec![given("rate", var("rate"))],
            ),
        ];
        if random.chance(400) {
            let booth = defined("booth", text(random.label(), format!("of {name}")), vec![]);
            body.push(maybe_on(random, booth));
        }
        let fee = parameter("fee", Some(int(random.label(), at as i64)));
        classes.push(class_definition(name, above, vec![fee], body));
    }
    classes
}

/// A type that shows its fee, and one that declares it.
fn desk_types(random: &mut Random) -> [Field; 2] {
    let plan = built_in("plan", var("title"), vec![given("fee", var("fee"))]);
    let booth = defined("booth", var("title"), vec![given("fee", var("rate"))]);
    let fee = |random: &mut Random| vec![parameter("fee", Some(int(random.label(), 9)))];
    let (of_booth, of_corner) = (fee(random), fee(random));
    [
        type_definition("booth", of_booth, vec![maybe_on(random, plan)]),
        type_definition("corner", of_corner, vec![maybe_on(random, booth)]),
    ]
}

fn maybe_on(random: &mut Random, statement: Field) -> Field {
    match random.below(4) {
        0 => if_else(var("on"), vec![statement], vec![]),
        1 => if_else(boolean(random.label(), true), vec![statement], vec![]),
        _ => statement,
    }
}

/// A declaration, or a read of a class that is mostly declared already; now and
/// then an 18 of a type, which is always refused.
fn desk_use(random: &mut Random, at: usize, declared: &mut Vec<&'static str>) -> Field {
    let title = text(random.label(), format!("use {at}"));
    let class = random.pick(&OFFICES);
    match random.below(12) {
        0..=3 => {
            declared.push(class);
            let used = include(class);
            maybe_on(random, used)
        }
        4 | 5 if !declared.contains(&class) => {
            declared.push(class);
            class_with(class, vec![given("fee", int(random.label(), 30))])
        }
        6 | 7 => {
            let used = defined(random.pick(&["booth", "corner"]), title, vec![]);
            maybe_on(random, used)
        }
        8 if random.chance(700) => {
            let read = attribute_of(random.pick(&["booth", "corner"]), "fee", title.clone());
            built_in("gate", title, vec![given("fee", read)])
        }
        _ => {
            let class = match declared.is_empty() || random.chance(60) {
                true => class,
                false => random.pick(declared),
            };
            built_in("gate", title, vec![given("rate", class_var(class, "rate"))])
        }
    }
}
