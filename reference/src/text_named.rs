//! Named inputs of the converter and the printer, for timing.

use crate::text_answer::LONGEST;
use crate::text_case::TextCase;

/// A name and how its input is made.
type TextNamed = (&'static str, fn() -> TextCase);

/// Every named input, in order: texts, and the manifests they become.
pub const TEXT_NAMED: [TextNamed; 14] = [
    ("convert-gym-chain", || TextCase::converting(gym_chain())),
    ("convert-statements", || TextCase::converting(statements())),
    ("convert-expression", || TextCase::converting(expression())),
    ("convert-strings", || TextCase::converting(strings())),
    ("convert-deep", || TextCase::converting(deep())),
    ("convert-attributes", || TextCase::converting(attributes())),
    ("convert-refused-late", || TextCase::converting(refused_late())),
    ("print-gym-chain", || printing(gym_chain())),
    ("print-statements", || printing(statements())),
    ("print-expression", || printing(expression())),
    ("print-strings", || printing(strings())),
    ("print-deep", || printing(deep())),
    ("print-attributes", || printing(attributes())),
    ("print-refused-late", || refused_late_tree()),
];

/// The named input, if there is one.
pub fn text_named(name: &str) -> Option<TextCase> {
    let (_, make) = TEXT_NAMED.iter().find(|(known, _)| *known == name)?;
    Some(make())
}

/// The manifest of a text. One that is refused shows as an empty manifest.
fn printing(text: String) -> TextCase {
    TextCase::printing(TextCase::converting(text).answer().unwrap_or_default())
}

/// As many of these in a row as 65,000 bytes of text hold.
fn repeated(unit: impl Fn(usize) -> String) -> String {
    let mut text = String::new();
    for at in 0.. {
        let more = unit(at);
        if text.len() + more.len() > 65_000 {
            break;
        }
        text.push_str(&more);
    }
    text
}

/// A chain of gyms as people write it, about 2 KB.
fn gym_chain() -> String {
    let mut text = String::from(
        "# what holds for all gyms of the chain
$opens = 7
$fee = 40
$peak = false

define entrance ($hours = 14, $sign = 'welcome') {
  gate { $title: from => $::opens, until => $::opens + $hours, sign => $sign }
}

class standard ($screens = 1) {
  $plan = 'basic'
  plan { 'day': price => $::fee }
  plan { 'month': price => $::fee / 2 + 1 }
}

class premium ($wall) inherits standard {
  $plan = gold
  wall { $wall: resets => $plan ? { gold => 30, silver => 45, default => 60 } }
}
",
    );
    for (at, city) in ["hill", "harbor", "station", "old-mill", "stadium"]
        .iter()
        .enumerate()
    {
        text.push_str(&format!(
            "
node '{city}-desk', '{city}-gate' {{
  class {{ premium: wall => 'overhang {at}', screens => {at} + 2 }}
  entrance {{ '{city}': hours => 1{at} }}
  case $::premium::plan {{
    gold: {{ $price = $fee - {at} }}
    default: {{ $price = $fee }}
  }}
  if $peak and $price > 30 {{ $open = true }} else {{ $open = gate['{city}'][from] > 7 }}
  kiosk {{ 'front': price => $price, open => $open, screens => $::standard::screens }}
}}
"
        ));
    }
    text.push_str("\nnode default { include standard }\n");
    text
}

/// Many small statements, their manifest near its limit.
fn statements() -> String {
    repeated(|at| match at % 4 {
        0 => "$fee = $rate + 40    ".to_string(),
        1 => "include standard     ".to_string(),
        2 => "if $peak { $a = $b } ".to_string(),
        _ => "kiosk { $x: a => $y }\t".to_string(),
    })
}

/// One expression: a selector with an expression of every operator in each arm.
fn expression() -> String {
    let arms = repeated(|at| {
        let arm = "($opening_hour + 1) / ($closing_hour - 7) > $fee == !$is_open and $::standard::member or $peak_hours_only";
        // Labels end at 255, so that not every arm has its line.
        let end = if at % 10 == 9 { "\n" } else { " " };
        format!("{at} => {arm},{end}")
    });
    format!("$x = $y ? {{\n{arms}}}\n")
}

/// Nearly as many strings as a table holds.
fn strings() -> String {
    let mut text = String::from("$x = $y ? {\n");
    for at in 0..1000usize {
        // A number that jumps about, so that sorting has work to do.
        let string = format!("{:04} \\' {}", at * 7919 % 1009, "p".repeat(39));
        let end = if at % 4 == 3 { "\n" } else { " " };
        text.push_str(&format!("        '{string}' => $y,{end}"));
    }
    text.push_str("}\n");
    text
}

/// Conditions nested nearly as deep as may be, over and over.
fn deep() -> String {
    repeated(|_| {
        let levels = 13;
        let opening = "if $the_gate_is_open { ".repeat(levels);
        let closing = "} ".repeat(levels);
        format!("{opening}$x = !!!($y + 1){closing}")
    })
}

/// One resource with many attributes.
fn attributes() -> String {
    let list = repeated(|at| format!("a{:03} => kiosk['front'][price] - {at}, ", at % 900));
    format!("kiosk {{ $title: {list}}}")
}

/// A text of 65,535 bytes whose end is at fault.
fn refused_late() -> String {
    let mut text = statements();
    let room = LONGEST - text.len() - 1;
    text.push_str(&" ".repeat(room));
    text.push('}');
    text
}

/// A manifest that prints but for its last field, whose label is below.
fn refused_late_tree() -> TextCase {
    let mut case = printing(format!("\n$first = 1 {} $x = 7", statements()));
    if let Some(at) = case.bytes.len().checked_sub(9) {
        case.bytes[at] = 0;
    }
    case
}
