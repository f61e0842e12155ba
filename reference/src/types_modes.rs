//! What the arguments ask of lists of types.

use crate::any_case::AnyCase;
use crate::types_generate::types_cases;
use crate::types_named::{all_types_named, types_named};
use crate::types_tally::Tally;
use std::io::{self, BufRead, BufWriter, Write};

fn broken(error: io::Error) -> String {
    error.to_string()
}

/// Answers each line, of whatever sort.
pub fn batch() -> Result<(), String> {
    let mut out = BufWriter::new(io::stdout().lock());
    for (at, line) in io::stdin().lock().lines().enumerate() {
        let told = |message: String| format!("line {}: {message}", at + 1);
        let answer = answered(&line.map_err(broken)?).map_err(told)?;
        writeln!(out, "{answer}").map_err(broken)?;
    }
    out.flush().map_err(broken)
}

/// The answer's line; each case must have a list.
pub fn answered(line: &str) -> Result<String, String> {
    let case = AnyCase::from_line(line)?;
    match case.types() {
        Some(_) => Ok(case.answer()?.line()),
        None => Err("no list before the case".to_string()),
    }
}

pub fn generate(seed: u64, count: u64) -> io::Result<()> {
    let mut out = BufWriter::new(io::stdout().lock());
    for case in types_cases(seed, count) {
        writeln!(out, "{}", case.line())?;
    }
    out.flush()
}

pub fn histogram(seed: u64, count: u64) -> Result<(), String> {
    let tally = Tally::of(seed, count)?;
    let share = |times: u64| 100.0 * times as f64 / count.max(1) as f64;
    let mut out = BufWriter::new(io::stdout().lock());
    for ((call, number), times) in &tally.answers {
        let answer = match number {
            0 => "accepted".to_string(),
            _ => format!("refused {number}"),
        };
        writeln!(out, "{call} {answer}: {times} ({:.2}%)", share(*times)).map_err(broken)?;
    }
    writeln!(out, "what they show, the reasons of 28 among it:").map_err(broken)?;
    for ((call, thing), times) in &tally.things {
        writeln!(out, "  {call}, {thing}: {times} ({:.2}%)", share(*times)).map_err(broken)?;
    }
    out.flush().map_err(broken)
}

pub fn list_names() -> io::Result<()> {
    let mut out = io::stdout().lock();
    for (name, _) in all_types_named() {
        writeln!(out, "{name}")?;
    }
    Ok(())
}

pub fn print_named(name: &str) -> Result<(), String> {
    let case = types_named(name).ok_or_else(|| format!("no case of that name: {name}"))?;
    writeln!(io::stdout().lock(), "{}", case.line()).map_err(broken)
}
