//! The texts that are converted and the manifests that are printed to be timed.

use crate::text_answer::LONGEST;
use crate::text_case::{Call, TextCase};
use crate::text_generate::text_cases;
use crate::text_named::text_named;

/// A name and what is converted or printed, one case after the other.
pub type TextRow = (String, Vec<TextCase>);

pub fn rows() -> Vec<TextRow> {
    let mut rows = mixed();
    rows.extend(short());
    rows.extend(long());
    rows.extend(growth());
    rows
}

/// Random texts and manifests, whole and by what becomes of them.
fn mixed() -> Vec<TextRow> {
    let all: Vec<TextCase> = text_cases(20_240, 4000)
        .filter(|case| case.memory == 65_536)
        .collect();
    let part = |name: &str, call: Call, wanted: fn(&TextCase) -> bool| {
        let cases = all.iter().filter(|case| case.call == call && wanted(case));
        (format!("mixed random {name}"), cases.cloned().collect())
    };
    vec![
        part("texts: all", Call::Convert, |_| true),
        part("texts: accepted", Call::Convert, |case| case.answer().is_ok()),
        part("texts: refused", Call::Convert, |case| case.answer().is_err()),
        part("manifests printed: all", Call::Print, |_| true),
        part("manifests printed: accepted", Call::Print, |case| {
            case.answer().is_ok()
        }),
        part("manifests printed: refused", Call::Print, |case| {
            case.answer().is_err()
        }),
    ]
}

fn one(name: &str, case: TextCase) -> TextRow {
    (name.to_string(), vec![case])
}

fn named(name: &str) -> TextCase {
    match text_named(name) {
        Some(case) => case,
        None => panic!("the program made apart has no text {name}"),
    }
}

/// The manifest of a text.
fn printing(text: &[u8]) -> TextCase {
    match TextCase::converting(text).answer() {
        Ok(manifest) => TextCase::printing(manifest),
        Err(refused) => panic!("a text to be timed is refused: {refused:?}"),
    }
}

/// The manifest of the text and of one more statement, whose constant has a label below the others.
fn printing_refused(text: &[u8]) -> TextCase {
    let mut case = printing(&[text, b"\n$x = 7"].concat());
    // The label stands before the eight bytes of the number, at the manifest's end.
    let label = case.bytes.len() - 9;
    case.bytes[label] = 0;
    case
}

/// About 2 KB as people write them, and nothing.
fn short() -> Vec<TextRow> {
    let chain = named("convert-gym-chain").bytes;
    let refused = [&chain[..], b"}"].concat();
    vec![
        one("text: a chain of gyms", TextCase::converting(chain.clone())),
        one(
            "text: a chain of gyms, refused at the end",
            TextCase::converting(refused),
        ),
        one("text: nothing", TextCase::converting("")),
        one("printed: a chain of gyms", printing(&chain)),
        one(
            "printed: a chain of gyms, refused at the end",
            printing_refused(&chain),
        ),
        one("printed: nothing", printing(b"")),
    ]
}

/// As long as may be; what grows to this length is among the rows of growth.
fn long() -> Vec<TextRow> {
    let refused = named("convert-refused-late");
    let cut = TextCase {
        bytes: refused.bytes[..LONGEST - 1].to_vec(),
        ..refused.clone()
    };
    vec![
        one("text: 65,534 bytes, small statements", cut),
        one("text: 65,535 bytes, refused at the end", refused),
        one(
            "text: one expression of every operator",
            named("convert-expression"),
        ),
        one(
            "text: 65,535 bytes of comments",
            TextCase::converting("# none\n".repeat(9363)[..LONGEST].to_string()),
        ),
        one(
            "text: 65,535 opening brackets, refused at the 33rd",
            TextCase::converting(format!("$x = {}", "(".repeat(LONGEST - 5))),
        ),
        one(
            "printed: one expression of every operator",
            named("print-expression"),
        ),
        one("printed: small statements", named("print-statements")),
        one(
            "printed: small statements, refused at the end",
            named("print-refused-late"),
        ),
        one(
            "printed: 127 strings of 250 line feeds",
            printing(line_feeds().as_bytes()),
        ),
    ]
}

/// Strings whose text is twice as long as they are.
fn line_feeds() -> String {
    let statement = |at: usize| format!("$x = '{}{at}'", "\\n".repeat(250));
    (100..227).map(|at| statement(at) + " ").collect()
}

/// A text of nearly that length: what stands before, then as many of these in a row as fit, then what stands behind.
fn repeated(length: usize, before: &str, unit: fn(usize) -> String, behind: &str) -> String {
    let mut text = before.to_string();
    for at in 0.. {
        let more = unit(at);
        if text.len() + more.len() + behind.len() > length {
            break;
        }
        text.push_str(&more);
    }
    text + behind
}

/// A name, what stands before and behind, and what is repeated. Spaces make each text as long as its manifest, or longer.
type Growing = (&'static str, &'static str, fn(usize) -> String, &'static str);

const GROWING: [Growing; 6] = [
    ("statements", "", |_| format!("{:28}", "$fee = $rate + 40"), ""),
    (
        "arms",
        "$x = $y ? { ",
        |at| format!("{:40}", format!("{at} => $y + $z / $::fee,")),
        "default => 1 }",
    ),
    // The numbers jump about, so that sorting has work to do.
    (
        "strings",
        "$x = $y ? { ",
        |at| {
            format!(
                "{:70}",
                format!("'{:04} {}' => $y,", at * 7919 % 1009, "p".repeat(45))
            )
        },
        "}",
    ),
    ("nested conditions", "", nested, ""),
    (
        "attributes",
        "kiosk { $title: ",
        |at| format!("{:40}", format!("a{:03} => wall['w'][b] - 1,", at % 900)),
        "}",
    ),
    (
        "devices",
        "node a",
        |at| format!(", 'device-{:03}'", at % 900),
        " { }",
    ),
];

/// Conditions nested nearly as deep as may be, and one constant in the innermost.
fn nested(_: usize) -> String {
    let levels = 13;
    format!(
        "{}$x = !!!($y + 1) {}",
        "if $the_gate_is_open { ".repeat(levels),
        "} ".repeat(levels)
    )
}

/// Half as long as may be, and as long as may be.
fn growth() -> Vec<TextRow> {
    let sizes = [("32 KB", LONGEST / 2), ("64 KB", LONGEST)];
    let mut rows = Vec::new();
    for (name, before, unit, behind) in GROWING {
        for (size, length) in sizes {
            let text = repeated(length, before, unit, behind);
            rows.push(one(
                &format!("growth: text, {size} of {name}"),
                TextCase::converting(text),
            ));
        }
        for (size, length) in sizes {
            let text = repeated(length, before, unit, behind);
            rows.push(one(
                &format!("growth: printed, {size} of {name}"),
                printing(text.as_bytes()),
            ));
        }
    }
    rows
}
