//! Texts made by hand, by what becomes of them: every reason for which a text is refused, and every form that is
//! accepted. This list and the one of `hand_made_trees` name all reasons; `tools/text_cases.rs` says which of them have
//! no stored case.

use crate::hand_made_trees;
use crate::text_case::{Call, TextCase};

/// Cases of one reason.
pub struct Group {
    /// The reason, or the sort of what is accepted.
    pub name: &'static str,
    pub call: Call,
    /// 0 for what is accepted.
    pub number: u8,
    /// The words that `reference/` has for the reason; none for numbers 1 to 5.
    pub why: &'static str,
    pub cases: Vec<TextCase>,
}

/// Every group, those of the printer last.
pub fn groups() -> Vec<Group> {
    let mut groups = malformed();
    groups.extend(overlong());
    groups.extend(misplaced());
    groups.extend(limits());
    groups.extend(lengths());
    groups.extend(late());
    groups.extend(accepted());
    groups.extend(hand_made_trees::groups());
    groups
}

/// The texts of a list that has bars between them: no text of the notation has a bar outside of a string.
fn texts(list: &str) -> Vec<String> {
    list.split(" | ").map(String::from).collect()
}

/// Texts that are refused 24, for the reason that `reference/` names so.
fn plain<T: Into<Vec<u8>>>(why: &'static str, texts: Vec<T>) -> Group {
    outside(why, why, texts)
}

/// Texts that are refused 24.
fn outside<T: Into<Vec<u8>>>(name: &'static str, why: &'static str, texts: Vec<T>) -> Group {
    converting(name, 24, why, texts)
}

fn converting<T: Into<Vec<u8>>>(name: &'static str, number: u8, why: &'static str, texts: Vec<T>) -> Group {
    Group {
        name,
        call: Call::Convert,
        number,
        why,
        cases: texts.into_iter().map(TextCase::converting).collect(),
    }
}

pub const KEYWORDS: [&str; 13] = [
    "and", "case", "class", "default", "define", "else", "false", "if", "include", "inherits", "node", "or",
    "true",
];

/// "the first token that is malformed", of each kind.
fn malformed() -> Vec<Group> {
    vec![
        plain(
            "a byte that begins no token",
            vec![
                &b"A"[..],
                b"$x = 1;",
                b"@",
                b"$x = fooBar",
                b"$x = 12A",
                b"_x",
                b"$x = 1 < 2",
                b"$x = a.b",
                b"include aB",
                b"$x = \xc3\xa9",
                b"\0",
                b"\xff",
                b"\x0b",
                b"\x0c$x = 1",
                b"$x = 7 % 2",
                b"$x = `a`",
                b"\\n",
                b"$x = 2 * 3",
                b"|",
                b"&",
                b"~",
                b"^",
                b"\x7f",
                b"# a comment\n  \t\r ;",
                b"$x = 1 # a\n\n  A",
            ],
        ),
        plain(
            "a string never closed",
            texts(
                "\
                 ' | \" | $x = 'a | $x = \"a' | $x = 'a\\' | $x = 'a\\ | node 'a', 'b { } | \
                 $x = 'a\n# ' \n'\n",
            ),
        ),
        plain(
            "a wrong escape",
            vec![
                "$x = '\\t'",
                "$x = \"\\$\"",
                "$x = 'a\\N'",
                "$x = 'a\\\nb'",
                "node 'a\\0' { }",
                "$x = '\\ ",
                "$x = \"\\u{e9}\"",
            ],
        ),
        plain(
            "a variable without a name",
            texts(
                "\
                 $ | $ x = 1 | $1 | $A | $_x | $: | $:x | $:: | $::1 | $::A | $x = $::a:: | $x = $::a::1 | \
                 $x = $::a:: x | $x = $::a::_x | $x = 1 + $ | $$x",
            ),
        ),
        plain(
            "a variable with a keyword",
            KEYWORDS
                .iter()
                .flat_map(|word| [format!("$x = 1 ${word}"), format!("$x = $::{word}")])
                .chain(["$x = $::if::a", "$x = $::a::if", "$x = $::a::default"].map(String::from))
                .collect(),
        ),
        plain(
            "a letter behind digits",
            vec![
                "$x = 12a",
                "$x = 0x10",
                "$x = 1_",
                "$x = -7b",
                "$x = 1and 2",
                "$x = 007a",
                "$x = 99999999999999999999a",
                "1a",
            ],
        ),
        plain(
            "a zero before other digits",
            texts(
                "\
                 $x = 007 | $x = 00 | $x = -01 | 01 | $x = 1 - 07 | $x = 099999999999999999999",
            ),
        ),
        plain(
            "a number outside 64 bits",
            texts(
                "\
                 $x = 9223372036854775808 | $x = -9223372036854775809 | $x = 1 -9223372036854775808 | \
                 $x = 18446744073709551616 | $x = 18446744073709551617 | \
                 case 1 { 99999999999999999999: { } } | define u ($x = -10000000000000000000) { }",
            ),
        ),
    ]
}

/// Tokens that are too long.
fn overlong() -> Vec<Group> {
    let x = |count: usize| "x".repeat(count);
    vec![
        plain(
            "a word over 255 bytes",
            vec![
                format!("$a = {}", x(256)),
                format!("{} {{ a: }}", x(256)),
                format!("include {}", x(300)),
                format!("if{}", x(254)),
                format!("node {} {{ }}", x(256)),
            ],
        ),
        plain(
            "a variable over 255 bytes",
            vec![
                format!("${}", x(256)),
                format!("$a = $::{}", x(256)),
                format!("$a = $::{}::x", x(256)),
                format!("$a = $::x::{}", x(256)),
                format!("$a = $::{}::{}", x(255), x(257)),
            ],
        ),
        plain(
            "a string over 255 bytes",
            vec![
                format!("$a = '{}'", x(256)),
                format!("$a = \"{}\"", "\\n".repeat(256)),
                format!("node '{}' {{ }}", x(256)),
                format!("$a = '{}'", "\n".repeat(256)),
            ],
        ),
    ]
}

/// Tokens that stand where the grammar has another.
fn misplaced() -> Vec<Group> {
    vec![
        outside(
            "a token that may not stand there, at the top",
            "a token that may not stand there",
            texts(
                "\
                 } | { | 1 | \
                 'a' | ( | ) | [ | ] | : | , | = | == | => | + | - | / | > | ! | ? | and | or | true | false | \
                 default | else | inherits | $::x = 1 | $::a::x = 1 | $x = 1 } | include a, | -1 | - | \
                 else { } | 1 + 1",
            ),
        ),
        outside(
            "a token that may not stand there, in a statement",
            "a token that may not stand there",
            texts(
                "\
                 $x == 1 | $x 1 | $x => 1 | $x = = 1 | $x = } | $x = if | $a::x = 1 | $x = $a::x | \
                 if { } | if 1 else { } | if 1 { } else 1 | if 1 { } else if 2 { } | if 1 { node a { } } | \
                 if 1 { define u { } } | if 1 { class a { } } | if 1 1 | if $y = 2 = { } | unless $x { } | \
                 elsif $x { } | case { } | case 1 { 1 { } } | case 1 { 1: 2 } | case 1 { $x: { } } | \
                 case 1 { -: { } } | case 1 { 1: { }, 2: { } } | case 1 { a[1][b]: { } } | \
                 case 1 { (1): { } } | case 1 ( | kiosk 'a' | kiosk { } | kiosk { : } | kiosk { 'a' } | \
                 kiosk { 'a': , } | kiosk { 'a': 1 => 2 } | kiosk { 'a': 'b' => 2 } | kiosk { 'a': b = 2 } | \
                 kiosk { 'a': b => 1 c => 2 } | kiosk { 'a': b => 1,, } | kiosk { 'a': if => 1 } | \
                 kiosk { 'a': b => } | kiosk { 'a': b => default } | kiosk['a'][b] | class { } | \
                 class { 'a': } | class { a } | class { a: 1 } | class { a: b => 1 c => 2 } | \
                 include 'a' | include $x | include if | include a::b | $x = 1 $y } | a = 1",
            ),
        ),
        outside(
            "a token that may not stand there, in an item",
            "a token that may not stand there",
            texts(
                "\
                 node { } | node 1 { } | node $x { } | node if { } | node a b { } | node a, { } | \
                 node (a,) { } | node () { } | node (a { } | node a) { } | node (default) { } | \
                 node default, a { } | node a, default { } | node ((a)) { } | node a[ { } | node a 1 | \
                 node default default { } | define { } | define 'u' { } | define if { } | define u (x) { } | \
                 define u ($x $y) { } | define u ($x,,) { } | define u (,) { } | define u ($x = $y) { } | \
                 define u ($x = 1 + 2) { } | define u ($x = (1)) { } | define u ($x = a[1][b]) { } | \
                 define u ($x == 1) { } | define u ($::x) { } | define u ($x = default) { } | \
                 define u inherits a { } | class 'a' { } | class a inherits { } | class a inherits 'b' { } | \
                 class a inherits b ($x) { } | class a inherits b, c { } | class a () () { } | class a: { } | \
                 class if { } | class 1 { }",
            ),
        ),
        outside(
            "a token that may not stand there, in an expression",
            "a token that may not stand there",
            texts(
                "\
                 $x = 1 + } | $x = + 7 | $x = - 7 | $x = +7 | $x = 1 + + 2 | $x = 1 2 | $x = 1 'a' | \
                 $x = 'a' 'b' | $x = ! and | $x = () | $x = (1 } | $x = (1 2) | $x = (1)) | $x = 1 ! 2 | \
                 $x = 1 != 2 | $x = 1 >= 2 | $x = 1 => 2 | $x = 1 === 2 | $x = a[] | $x = a[1] 1 | \
                 $x = a[1] + 2 | $x = a[1][2] | $x = a[1]['b'] | $x = a[1][b[ | $x = $y[1][b] | $x = 'a'[1][b] | \
                 $x = 1[1][b] | $x = a[1][b][c] | $x = [1] | $x = {} | $x = 1 ? 2 | $x = 1 ? { } | \
                 $x = 1 ? { 1 } | $x = 1 ? { 1: 2 } | $x = 1 ? { $y => 2 } | $x = 1 ? { 1 => 2 3 => 4 } | \
                 $x = 1 ? { 1 => 2,, } | $x = 1 ? { , } | $x = 1 ? { 1 => 2 } + 1 | $x = 1 ? { 1 => 2 } == 1 | \
                 $x = 1 ? { 1 => 2 } > 1 | $x = 1 ? { 1 => 2 } / 1 | $x = 1 ? { 1 => 2 } - 1 | \
                 $x = 1 ? { a[1][b] => 2 } | $x = default | $x = else | $x = node | $x = 1 or or 2 | \
                 $x = and 1 | $x = / 2 | $x = 1 ==> 2 | $x = $::a::x::y | $x = a::b | $x = --7 | $x = 1 -- | \
                 $x = true false",
            ),
        ),
        plain("the text ends too early",
            texts(
                "\
                 $x | $x = | $x = 1 + | $x = 1 and | $x = ! | $x = ( | $x = (1 | $x = a[ | $x = a[1 | \
                 $x = a[1] | $x = a[1][ | $x = a[1][b | $x = 1 ? | $x = 1 ? { | $x = 1 ? { 1 | \
                 $x = 1 ? { 1 => | $x = 1 ? { 1 => 2 | $x = 1 ? { 1 => 2, | $x = 1 - | if | if 1 | if 1 { | \
                 if 1 { } else | if 1 { } else { | case | case 1 | case 1 { | case 1 { default | case 1 { 1: | \
                 case 1 { 1: { | case 1 { 1: { } | kiosk | kiosk { | kiosk { 1 | kiosk { 1: | kiosk { 1: a | \
                 kiosk { 1: a => | kiosk { 1: a => 1 | kiosk { 1: a => 1, | class | class { | class { a | \
                 class { a: | class a | class a ( | class a () | class a ($x | class a ($x = | \
                 class a ($x = 1 | class a ($x, | class a inherits | class a inherits b | class a { | include | \
                 node | node a | node a, | node ( | node (a | node (a) | node default | node a { | define | \
                 define u | define u ( | define u { | include a include # a\n\n",
            ),
        ),
    ]
}

/// A text around another: so many times the opening, then the middle, then as many times the closing.
fn around(opening: &str, count: usize, middle: &str, closing: &str) -> String {
    format!("{}{middle}{}", opening.repeat(count), closing.repeat(count))
}

/// So many strings as the patterns of one selector.
fn strings(count: usize) -> String {
    let arms: String = (2..count).map(|at| format!("s{at}=>$s,")).collect();
    format!("$s=$t?{{{arms}}}")
}

/// Limits of nesting and of strings.
fn limits() -> Vec<Group> {
    vec![
        plain(
            "a field deeper than 32",
            vec![
                around("if 1 {", 16, "include a", "}"),
                around("if 1 {", 15, "if !1 { }", "}"),
                around("if $x { } else {", 16, "$x = 1", "}"),
                around("case 1 { 1: {", 11, "", "} }"),
                around("case 1 { a: {", 10, "case 1 { default: { } }", "} }"),
                format!("$x = {}1", "!".repeat(31)),
                format!("$x = {}(-1)", "!".repeat(31)),
                format!("$x = {}", around("a[", 31, "$y", "][b]")),
                format!("$x = {}", around("1 ? { 1 => ", 15, "a[1][b]", "}")),
                format!("$x = {}", around("1 ? { default => ", 15, "!2", "}")),
                format!("$x = {}", around("1 + (", 30, "!2", ")")),
                around("if 1 {", 15, "kiosk { 1: a => !1 }", "}"),
                around("if 1 {", 15, "class { b: a => $x + 1 }", "}"),
                format!("node default {{ {} }}", around("if 1 {", 15, "include a", "}")),
            ],
        ),
        plain(
            "an operator that pushes its left below 32",
            vec![
                format!("$x = 1{}", " + 1".repeat(31)),
                format!("$x = a{}", " and b".repeat(31)),
                format!("$x = $y{}", " ? { 1 => 2 }".repeat(31)),
                format!("$x = ({}) > 2", around("1 + (", 30, "1 + 2", ")")),
                format!("$x = {}1 or 2", "!".repeat(30)),
                around("if 1 {", 15, "if 1 == 2 { }", "}"),
                around("if 1 {", 14, "kiosk { 1: a => 1 + 2 - 3 }", "}"),
            ],
        ),
        plain(
            "the 33rd open bracket",
            vec![
                format!("$x = {}", around("(", 33, "1", ")")),
                format!("$x = (1) + {}", around("(", 33, "1", ")")),
                format!("if {} {{ }}", around("(", 33, "$y", ")")),
                format!("node (a) {{ $x = {} }}", around("(", 34, "1", ")")),
                format!("$x = {}", around("(", 20, "a[((((((((((((( $y", ")")),
            ],
        ),
        plain(
            "the 1,025th string",
            vec![
                format!("{} $u = 1", strings(1024)),
                format!("{} $s = $::t::u", strings(1024)),
                format!("{} $s = $::u::v", strings(1023)),
                format!("{} node t, s5, 'u v' {{ }}", strings(1024)),
            ],
        ),
    ]
}

/// Statements whose manifest has so many bytes, and a last string that makes up for what is missing.
fn manifest_of(length: usize) -> String {
    // A chain of 30 operands: 8 + 30 * 12 + 29 * 4 bytes for `$a=`.
    let statement = format!("$a=1{} ", "+1".repeat(29));
    let size = 5 + 30 * 12 + 29 * 4;
    // The table with "a" and the last string, and the last statement.
    let others = 3 + 4 + 3 + 11;
    let count = (length - others) / size;
    let left = length - others - count * size;
    let (small, left) = (left / 17, left % 17);
    format!(
        "{}{}$a='{}'",
        statement.repeat(count),
        "$a=1 ".repeat(small),
        "z".repeat(left)
    )
}

fn with_output(text: &str, output: usize) -> TextCase {
    TextCase {
        output,
        ..TextCase::converting(text)
    }
}

fn with_memory(text: &str, memory: usize) -> TextCase {
    TextCase {
        memory,
        ..TextCase::converting(text)
    }
}

/// Lengths: of the text, of the manifest, of output and memory.
fn lengths() -> Vec<Group> {
    vec![
        plain("a text over 65,535 bytes", vec![" ".repeat(65_536)]),
        outside(
            "a text of 65,535 bytes is read to its end, which has the largest place",
            "the text ends too early",
            vec![format!("$x ={}", " ".repeat(65_531))],
        ),
        plain(
            "a manifest over 65,535 bytes",
            vec![manifest_of(65_536), manifest_of(70_000)],
        ),
        Group {
            cases: vec![
                with_output("", 2),
                with_output("", 0),
                with_output("$x = 1", 23),
                with_output("include a", 3),
                with_output("node default { kiosk { 'front': price => 40 } }", 60),
            ],
            ..outside::<&str>("a manifest over the output", "a manifest over the output", vec![])
        },
        Group {
            cases: vec![
                with_memory("$x = 1", 65_535),
                with_memory("}", 0),
                with_memory("", 1),
                with_memory(&" ".repeat(200), 65_000),
            ],
            ..converting::<&str>("a memory below 65,536 bytes, to convert", 1, "", vec![])
        },
    ]
}

/// Constants on line 256 and later.
fn late() -> Vec<Group> {
    let below = |lines: usize, text: &str| format!("{}{text}", "\n".repeat(lines));
    let sorts = texts(
        "\
         $x = 1 | $x = -1 | $x = 'a' | $x = \"a\" | $x = gold | $x = true | $x = false | if $y + 7 { } | \
         case 1 { } | case $y { 1: { } } | case $y { default: { $x = 1 } } | $x = $y ? { default => 2 } | \
         $x = $y ? { 3 => $y } | kiosk { front: } | kiosk { $y: a => 'b' } | class { a: b => 7 } | \
         $x = wall['t'][a] | define u ($x = 7) { } | class a ($x, $y = 1) { } | node 'a' { $x = !false } | \
         $x = 1 $y = 2",
    );
    let mut texts: Vec<String> = sorts.iter().map(|text| below(256, text)).collect();
    texts.extend([
        below(300, "$x = 1"),
        format!("$s = '{}'\n$x = 1", "\n".repeat(255)),
        format!("{}$x = 1", "#\n".repeat(256)),
        format!("{}$x = 1", "\r\n".repeat(256)),
        format!("$a = 1{}$x = 2", "\n".repeat(256)),
        format!("{}$x = $y\n + 1", "\n".repeat(255)),
    ]);
    let mut before_output = converting(
        "a constant past line 255 is told before a manifest over the output",
        25,
        "a constant past line 255",
        vec![below(256, "$x = 1 + 2")],
    );
    before_output.cases[0].output = 5;
    vec![
        converting("a constant past line 255", 25, "a constant past line 255", texts),
        before_output,
        outside(
            "a token at fault is told before a constant past line 255",
            "a token that may not stand there",
            vec![below(256, "$x = 1 }"), below(256, "$x = 'a' $y == 2")],
        ),
        outside(
            "an end too early is told before a constant past line 255",
            "the text ends too early",
            vec![below(256, "$x = 1 +")],
        ),
        outside(
            "a malformed token is told before a constant past line 255",
            "a byte that begins no token",
            vec![below(256, "$x = 1 ;")],
        ),
        converting(
            "accepted: names, devices and variables past line 255",
            0,
            "",
            vec![below(
                300,
                "node 'a', b { include c $x = $y + $::z } define u ($p) { } class c ($q) inherits d { kiosk { $t: a => $::c::v } }",
            )],
        ),
        converting("accepted: a constant on line 255", 0, "", vec![below(255, "$x = 1 # and then\n\n$y = $x")]),
    ]
}

/// Texts of every form.
pub fn forms() -> Vec<String> {
    let mut forms = texts(
        "\
         # nothing | # | $x = 1 | $x=1 | $x\n=\n1 | $x = 0 | $x = -0 | $x = -7 | $x = 1-7 | $x = 1 -7 | \
         $x = 1 - -7 | $x = 9223372036854775807 | $x = -9223372036854775808 | $x = true | $x = false | \
         $x = gold | $x = 'gold' | $x = \"gold\" | $x = '' | $x = 'it\\'s \\\"so\\\" \\\\ \\n \"' | \
         $x = \"it's \\'so\\' \\\"\" | $x = 'a\nb' $y = 2 | $x = '$y #{}' | $x = '\u{e9}\0\u{7f}' | $x = $y | \
         $x = $::y | $x = $::a::y | $x = !$y | $x = !!true | $x = !(1 + 2) | $x = (1) | $x = ((1) + 2) | \
         $x = 1 + 2 - 3 | $x = 1 - (2 - 3) | $x = 12 / 2 / 3 | $x = 1 + 2 / 3 | $x = (1 + 2) / 3 | \
         $x = 1 > 2 == true | $x = (1 > 2) == true | $x = 1 == 2 == 3 | $x = 1 = 2 | $x = 1 > 2 > 3 | \
         $x = $a and $b or $c and $d | $x = $a or ($b or $c) | $x = $a and ($b or $c) | \
         $x = ($a or $b) and $c | $x = $y ? { 1 => 2 } | $x = $y ? { 1 => 2, } | \
         $x = $y ? { a => 1, 'b c' => 2, true => 3, -1 => 4, default => 5 } | \
         $x = 1 + $y ? { 1 => 2 } ? { 2 => 3 } and $z | $x = $a and $y ? { default => 1 } | \
         $x = ($y ? { 1 => 2 }) + 1 | $x = wall['north'][from] | $x = wall[$t + 1][a] > 7 | \
         $x = a[b[c][d]][e] | if $x { } | if $x { } else { } | if $x { $y = 1 } else { $y = 2 include a } | \
         if (1 = 2) { if a { } } | case $x { } | \
         case $x { 1: { } gold: { include a } 'b': { } default: { } false: { } } | \
         kiosk { 'a': } tablet { a: } printer { 1: } scanner { $x: } gate { !$x: } screen { a[b][c]: } plan { (1): } wall { 'w': } | \
         kiosk { $title: price => 1, } | kiosk { 'front': price => $p, open => true, price => 3 } | \
         booth { 'b': a => 1, b => c } | class { a: } | class { a: b => 1, c => $d, } | include a include b | \
         node 'hill-desk' { } | node a, 'b', \"c\" { $x = 1 } | node ('a', b) { } | node default { } | \
         define u { } define v () { } | define u ($x, $y = 7, $z = gold,) { kiosk { $x: y => $y } } | \
         class a { } class b inherits a { } class c ($x = 'd') inherits b { } class e ($y = true, $z = -1) { include c }",
    );
    forms.extend(["", " \t\r\n", "\n\n# a\n"].map(String::from));
    forms
}

/// What stands in docs/NOTATION.md.
const PAGE: &str = "$fee = 40
node 'desk' { if $peak { $fee = 55 }
  kiosk { 'front':
    price => $fee, screens => 2 } }
";

fn accepted() -> Vec<Group> {
    let x = |count: usize| "x".repeat(count);
    let at_limits = vec![
        format!("$x = {}", around("(", 32, "1", ")")),
        around("if 1 {", 15, "$x = 1", "}"),
        format!("$x = 1{}", " + 1".repeat(30)),
        format!("$x = {}1", "!".repeat(30)),
        strings(1024),
        format!("${} = {} + '{}'", x(255), x(255), "\\\\".repeat(255)),
        format!("$x = $::{}::{}", x(255), "y".repeat(255)),
        manifest_of(65_535),
    ];
    let mut fitting = converting(
        "accepted: an output that is just long enough",
        0,
        "",
        vec!["", "$x = 1", "include a", PAGE],
    );
    for case in &mut fitting.cases {
        case.output = case.answer().map_or(0, |manifest| manifest.len());
    }
    let mut roomy = converting(
        "accepted: more output and memory than is needed",
        0,
        "",
        vec!["$x = 1", PAGE],
    );
    for case in &mut roomy.cases {
        (case.output, case.memory) = (70_000, 65_537);
    }
    vec![
        converting(
            "accepted: every form",
            0,
            "",
            forms().into_iter().chain([PAGE.to_string()]).collect(),
        ),
        converting("accepted: at the limits", 0, "", at_limits),
        fitting,
        roomy,
    ]
}
