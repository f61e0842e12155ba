//! Random texts near each limit of the notation.

use crate::random::Random;
use crate::text_random::{join, manifest, some_spacing, Spacing};

/// A text near one of the limits.
pub fn near_limit(random: &mut Random) -> Vec<u8> {
    match random.weighted(&[12, 5, 5, 1, 5, 5, 1, 1]) {
        0 => deep(random),
        1 => many_brackets(random),
        2 => long_words(random),
        3 => many_strings(random),
        4 => many_lines(random),
        5 => large_numbers(random),
        6 => long_text(random),
        _ => long_manifest(random),
    }
}

/// Fields nested to depth 31 to 34 by one kind of nesting or several.
fn deep(random: &mut Random) -> Vec<u8> {
    let target = random.between(31, 34);
    let kind = random.below(14);
    let mut nested = Nested {
        random,
        target,
        kind,
        text: Vec::new(),
    };
    if nested.random.chance(200) {
        nested.add("node default {");
        nested.statement(3);
        nested.add("}");
    } else {
        nested.statement(1);
    }
    nested.text
}

struct Nested<'r> {
    random: &'r mut Random,
    target: usize,
    /// 0 to 2 for statements, 3 to 10 for expressions, others for a mixture.
    kind: usize,
    text: Vec<u8>,
}

impl Nested<'_> {
    fn add(&mut self, text: &str) {
        self.text.extend_from_slice(text.as_bytes());
        if self.random.chance(200) {
            self.text.push(self.random.pick(b" \n"));
        }
    }

    /// A statement of that depth that reaches the target.
    fn statement(&mut self, depth: usize) {
        let kind = match self.kind {
            0..=2 => self.kind,
            3..=10 => 3,
            _ => self.random.below(4),
        };
        match kind {
            0 if depth + 2 <= self.target => {
                self.add("if true {");
                self.statement(depth + 2);
                self.add("}");
            }
            1 if depth + 2 <= self.target => {
                self.add("if $a { } else {");
                self.statement(depth + 2);
                self.add("}");
            }
            2 if depth + 3 <= self.target => {
                self.add("case 1 { a: {");
                self.statement(depth + 3);
                self.add("} }");
            }
            _ => self.last_statement(depth),
        }
    }

    fn last_statement(&mut self, depth: usize) {
        match self.random.below(8) {
            0 => self.add("include a "),
            1 => {
                self.add("class { a: b => ");
                self.expression(depth + 2);
                self.add("}");
            }
            2 => {
                self.add("kiosk { 't': b => ");
                self.expression(depth + 2);
                self.add("}");
            }
            3 => {
                self.add("booth { ");
                self.expression(depth + 1);
                self.add(": }");
            }
            4 => {
                self.add("case ");
                self.expression(depth + 1);
                self.add("{ default: { } }");
            }
            5 => {
                self.add("if ");
                self.expression(depth + 1);
                self.add("{ }");
            }
            _ => {
                self.add("$x = ");
                self.expression(depth + 1);
                self.add(" ");
            }
        }
    }

    fn leaf(&mut self) {
        let leaf = self
            .random
            .pick(&["1", "true", "a", "$x", "$::a::x", "-7", "(1)", "'s'"]);
        self.add(leaf);
    }

    /// An expression of that depth that reaches the target.
    fn expression(&mut self, depth: usize) {
        if depth >= self.target {
            return self.leaf();
        }
        let kind = match self.kind {
            3..=10 => self.kind,
            _ => self.random.between(3, 10),
        };
        match kind {
            3 => {
                self.add("!");
                self.bracketed(depth + 1);
            }
            4 => self.chain(depth, &[" + 1", " - 7", " +(2)", " -$x"]),
            5 => self.chain(depth, &[" and $x", " and a"]),
            6 => self.chain(depth, &[" ? { a => 1 }", " ? { default => 1 }"]),
            7 => {
                self.add("1 + (");
                self.expression(depth + 1);
                self.add(")");
            }
            8 => {
                self.add("1 ? { default => ");
                self.expression(depth + 2);
                self.add("}");
            }
            9 => {
                self.add("wall[");
                self.expression(depth + 1);
                self.add("][a]");
            }
            _ => {
                self.add("(");
                self.expression(depth + 1);
                self.add(") == 7");
            }
        }
    }

    /// The operand of a `!`, which needs brackets if it is no operand.
    fn bracketed(&mut self, depth: usize) {
        if self.kind == 3 && !self.random.chance(50) {
            return self.expression(depth);
        }
        self.add("(");
        self.expression(depth);
        self.add(")");
    }

    /// Operators, each of which pushes what stands left of it one deeper.
    fn chain(&mut self, depth: usize, operators: &[&str]) {
        self.leaf();
        for _ in depth..self.target {
            let operator = self.random.pick(operators);
            self.add(operator);
        }
    }
}

/// 31 to 34 round brackets open at one time.
fn many_brackets(random: &mut Random) -> Vec<u8> {
    let mut opening = String::new();
    let mut closing = String::new();
    let mut others = random.below(4);
    for _ in 0..random.between(31, 34) {
        opening.push('(');
        closing.insert(0, ')');
        if others > 0 && random.chance(150) {
            others -= 1;
            let (before, behind) = random.pick(&[
                ("1 + ", ""),
                ("wall[", "][a]"),
                ("(1) > ", ""),
                ("true and ", ""),
                ("1 ? { 2 => ", "}"),
                ("!", ""),
            ]);
            opening.push_str(before);
            closing.insert_str(0, behind);
        }
    }
    let before = random.pick(&[
        "$x = ",
        "$x = (1) + ((2)) + ",
        "define u ($y = 1) { } $x = ",
        "node ('a') { } if ",
        "kiosk { ",
        "case ",
    ]);
    let behind = match before {
        "node ('a') { } if " => "{ }",
        "kiosk { " => ": a => ((1)) }",
        "case " => "{ }",
        _ => " $y = (1)",
    };
    format!("{before}{opening}$z{closing}{behind}").into_bytes()
}

/// Words, names in variables and strings of 254 to 257 bytes.
fn long_words(random: &mut Random) -> Vec<u8> {
    let length = random.between(254, 257);
    let first = random.pick(&["x", "if", "true", "a_"]);
    let word = format!("{first}{}", "w".repeat(length - first.len()));
    let other = format!("y{}", "v".repeat(random.between(254, 257) - 1));
    let escaped = format!("{}{}", "\\n".repeat(3), "s".repeat(length - 3));
    let mut text = match random.below(16) {
        0 => format!("${word} = 1"),
        1 => format!("$x = ${word}"),
        2 => format!("$x = $::{word}"),
        3 => format!("$x = $::{word}::x"),
        4 => format!("$x = $::a::{word}"),
        5 => format!("$x = $::{word}::{other}"),
        6 => format!("$x = '{word}'"),
        7 => format!("$x = \"{escaped}\""),
        8 => format!("$x = {word}"),
        9 => format!("{word} {{ a: }}"),
        10 => format!("kiosk {{ a: {word} => 1 }}"),
        11 => format!("node {word} {{ }}"),
        12 => format!("node 'a', '{word}', \"{escaped}\" {{ }}"),
        13 => format!("class {word} inherits {other} {{ }}"),
        14 => format!("define u (${word} = {other}) {{ }}"),
        _ => format!("$x = {word}[{other}][a]"),
    };
    if random.chance(200) {
        text.push_str(random.pick(&[" }", " $", "A", "::x"]));
    }
    text.into_bytes()
}

/// 1,023 to 1,026 different strings, some of them twice.
fn many_strings(random: &mut Random) -> Vec<u8> {
    let count = random.between(1023, 1026);
    let form = random.below(6);
    let mut text = match form {
        0 | 1 => "$s0 = 1 ? { ".to_string(),
        _ => String::new(),
    };
    let mut at = 1;
    while at < count {
        let again = random.below(at);
        let more = match form {
            0 => format!("s{at} => s{again}, "),
            1 => format!("'s{at}' => $s{again}, "),
            2 => format!("$s{at} = s0 "),
            3 => format!("node 's{at}', s{again} {{ }} "),
            4 => format!("include s{at} "),
            _ => {
                at += 1;
                format!("$s0 = $::s{at}::s{} ", at - 1)
            }
        };
        text.push_str(&more);
        at += 1;
    }
    text.push_str(random.pick(&["", "} $s0 = s1", "}", "include s0"]));
    text.into_bytes()
}

/// Constants and other things on lines 254 to 258.
fn many_lines(random: &mut Random) -> Vec<u8> {
    let mut text = Vec::new();
    let lines = random.between(254, 258);
    let form = random.below(4);
    if form == 3 {
        text.extend_from_slice(b"$s = '");
    }
    for _ in 0..lines.min(200) {
        match form {
            0 => text.push(b'\n'),
            1 => text.extend_from_slice(b"# c\n"),
            2 => text.extend_from_slice(b" \r\n"),
            _ => text.push(b'\n'),
        }
    }
    if form == 3 {
        text.extend_from_slice(b"' ");
    }
    text.extend(vec![b'\n'; lines.saturating_sub(200)]);
    for _ in 0..random.between(1, 4) {
        let statement = random.pick(&[
            "$x = 1 ",
            "$x = $y ",
            "$x = -1 ",
            "$x = $y + 'a\nb' + \n2",
            "node 'a', b { } ",
            "include a ",
            "kiosk { $x: \n a => true } ",
            "kiosk { gold: a => false } ",
            "define u ($x = \n7) { }\n",
            "case $x { \n 1: { } default: { } } ",
            "$x = $y ? {\n default => gold } ",
            "$x = wall[$y][a] ",
            "$x = wall['t'][a] ",
            "\n",
            "# 1\n",
        ]);
        text.extend_from_slice(statement.as_bytes());
    }
    if random.chance(200) {
        text.extend_from_slice(random.pick(&[&b"}"[..], b"A", b"$x = ", b"'"]));
    }
    text
}

/// Numbers around what 64 bits hold, and others that are spelled wrong.
fn large_numbers(random: &mut Random) -> Vec<u8> {
    let number = random.pick(&[
        "9223372036854775806",
        "9223372036854775807",
        "9223372036854775808",
        "9223372036854775809",
        "9223372036854775810",
        "18446744073709551615",
        "18446744073709551616",
        "18446744073709551617",
        "10000000000000000000",
        "99999999999999999999999999999999999999999",
        "0",
        "00",
        "07",
        "7_0",
        "7a",
        "7A",
        "0x10",
    ]);
    let sign = random.pick(&["", "-", "-", "- ", "+", "--"]);
    let number = format!("{sign}{number}");
    let text = match random.below(12) {
        0 => format!("$x = {number}"),
        1 => format!("$x = 1 {number}"),
        2 => format!("$x = 1 - {number}"),
        3 => format!("$x = 1-{number}+2"),
        4 => format!("$x = $y{number}"),
        5 => format!("$x = ({number}) {number}"),
        6 => format!("case {number} {{ {number}: {{ }} {number}: {{ }} }}"),
        7 => format!("define u ($x = {number}, $y = {number}) {{ }}"),
        8 => format!("$x = 'a'{number}"),
        9 => format!("$x = wall[{number}][a] {number}"),
        10 => format!("$x = !{number} ? {{ {number} => {number} }}"),
        _ => format!("kiosk {{ a {number}: b => true {number}, c => gold {number} }}"),
    };
    text.into_bytes()
}

/// A text of 65,534 to 65,536 bytes, what it holds at its beginning or end.
fn long_text(random: &mut Random) -> Vec<u8> {
    let length = random.between(65_534, 65_536);
    let count = random.between(0, 5);
    let tokens = manifest(random, count);
    let mut text = join(random, &tokens, Spacing::Plain);
    if random.chance(200) {
        text.extend_from_slice(random.pick(&[&b" $x = "[..], b" }", b" A", b" '"]));
    }
    let room = length.saturating_sub(text.len());
    let unit: &[u8] = random.pick(&[
        &b" "[..],
        b" ",
        b"$a = true ",
        b"# comment\n",
        b"include a\n",
        b"!",
    ]);
    let mut padding: Vec<u8> = unit.repeat(room / unit.len());
    padding.resize(room, b' ');
    match random.chance(500) {
        true => [padding, text].concat(),
        false => [text, padding].concat(),
    }
}

/// Statements whose manifest has 65,533 to 65,538 bytes.
fn long_manifest(random: &mut Random) -> Vec<u8> {
    let length = random.between(65_533, 65_538);
    // A statement and how many bytes it becomes.
    let (statement, size) = random.pick(&[
        ("$a=1 ", 17),
        ("$a=true ", 10),
        ("$a=a ", 11),
        ("if a{}", 15),
        ("a{a:}", 11),
        ("a{a:a=>1}", 28),
    ]);
    // The table with "a" and the last string, and the last statement.
    let others = 3 + 4 + 3 + 11;
    let count = (length - others - 10) / size;
    let last = length - others - count * size;
    let text = format!("{}$a='{}'", statement.repeat(count), "z".repeat(last));
    text.into_bytes()
}

/// A random text that follows the grammar.
pub fn ordinary(random: &mut Random) -> Vec<u8> {
    let count = random.weighted(&[1, 6, 6, 4, 2, 1]);
    let tokens = manifest(random, count);
    let spacing = some_spacing(random);
    let mut text = match random.below(8) {
        0 => vec![b'\n'; random.below(256)],
        _ => Vec::new(),
    };
    text.extend(join(random, &tokens, spacing));
    text
}
