//! What the arguments ask of the text notation.

use crate::compile::LEAST_MEMORY;
use crate::converter::convert;
use crate::printer::print;
use crate::text_answer::{Written, LONGEST};
use crate::text_case::{written_line, Call, TextCase};
use crate::text_generate::text_cases;
use crate::text_named::{text_named, TEXT_NAMED};
use crate::text_trips;
use std::collections::BTreeMap;
use std::io::{self, BufRead, BufWriter, Read, Write};
use std::time::Instant;

fn broken(error: io::Error) -> String {
    error.to_string()
}

fn find(name: &str) -> Result<TextCase, String> {
    text_named(name).ok_or_else(|| format!("no input of that name: {name}"))
}

/// Converts or prints standard input. A refusal is a line of standard error
/// and exit status 1.
pub fn one(call: Call) -> Result<(), String> {
    let mut input = Vec::new();
    io::stdin().lock().read_to_end(&mut input).map_err(broken)?;
    let written = match call {
        Call::Convert => convert(&input, LONGEST, LEAST_MEMORY),
        Call::Print => print(&input, LONGEST, LEAST_MEMORY),
    };
    match written {
        Ok(bytes) => io::stdout().lock().write_all(&bytes).map_err(broken),
        Err(refused) => {
            eprintln!("refused {} at {}", refused.number, refused.place);
            std::process::exit(1)
        }
    }
}

/// Answers each line.
pub fn batch() -> Result<(), String> {
    let mut out = BufWriter::new(io::stdout().lock());
    for (at, line) in io::stdin().lock().lines().enumerate() {
        let case = TextCase::from_line(&line.map_err(broken)?)
            .map_err(|message| format!("line {}: {message}", at + 1))?;
        writeln!(out, "{}", written_line(&case.answer())).map_err(broken)?;
    }
    out.flush().map_err(broken)
}

pub fn generate(seed: u64, count: u64) -> io::Result<()> {
    let mut out = BufWriter::new(io::stdout().lock());
    for case in text_cases(seed, count) {
        writeln!(out, "{}", case.line())?;
    }
    out.flush()
}

/// How often each answer occurs: by call, number and why.
pub fn tally(seed: u64, count: u64) -> BTreeMap<(&'static str, u8, &'static str), u64> {
    let mut tally = BTreeMap::new();
    for case in text_cases(seed, count) {
        let (number, why) = match case.answer() {
            Ok(_) => (0, ""),
            Err(refused) => (refused.number, refused.why),
        };
        let call = match case.call {
            Call::Convert => "convert",
            Call::Print => "print",
        };
        *tally.entry((call, number, why)).or_insert(0) += 1;
    }
    tally
}

pub fn histogram(seed: u64, count: u64) -> io::Result<()> {
    let mut out = BufWriter::new(io::stdout().lock());
    for ((call, number, why), times) in tally(seed, count) {
        let share = 100.0 * times as f64 / count.max(1) as f64;
        let answer = match (number, why) {
            (0, _) => "ok".to_string(),
            (_, "") => format!("refused {number}"),
            _ => format!("refused {number}, {why}"),
        };
        writeln!(out, "{call} {answer}: {times} ({share:.2}%)")?;
    }
    out.flush()
}

pub fn round_trip(seed: u64, count: u64) -> Result<(), String> {
    let started = Instant::now();
    let (trees, texts) = text_trips::compare(seed, count)?;
    let seconds = started.elapsed().as_secs_f64();
    writeln!(
        io::stdout().lock(),
        "{trees} trees and {texts} texts compared in {seconds:.1} seconds"
    )
    .map_err(broken)
}

pub fn list_names() -> io::Result<()> {
    let mut out = io::stdout().lock();
    for (name, _) in TEXT_NAMED {
        writeln!(out, "{name}")?;
    }
    Ok(())
}

pub fn print_named(name: &str) -> Result<(), String> {
    let line = find(name)?.line();
    writeln!(io::stdout().lock(), "{line}").map_err(broken)
}

pub fn time_all() -> Result<(), String> {
    TEXT_NAMED.iter().try_for_each(|(name, _)| time(name))
}

pub fn time(name: &str) -> Result<(), String> {
    let case = find(name)?;
    let started = Instant::now();
    let written = std::hint::black_box(case.answer());
    let nanoseconds = started.elapsed().as_nanos();
    let given = case.bytes.len();
    writeln!(
        io::stdout().lock(),
        "{name}: {nanoseconds} nanoseconds, {given} bytes in, {}",
        in_short(&written)
    )
    .map_err(broken)
}

fn in_short(written: &Written) -> String {
    match written {
        Ok(bytes) if bytes.len() <= LONGEST => format!("{} bytes out", bytes.len()),
        other => written_line(other),
    }
}
