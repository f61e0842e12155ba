//! What the arguments ask of questions.

use crate::why_case::{why_line, WhyCase};
use crate::why_generate::why_cases;
use crate::why_named::{why_named, WHY_NAMED};
use crate::why_tally::Tally;
use std::io::{self, BufRead, BufWriter, Write};
use std::time::Instant;

fn broken(error: io::Error) -> String {
    error.to_string()
}

fn find(name: &str) -> Result<WhyCase, String> {
    let asking = why_named(name).ok_or_else(|| format!("no question of that name: {name}"))?;
    Ok(asking.case())
}

/// Answers each line.
pub fn batch() -> Result<(), String> {
    let mut out = BufWriter::new(io::stdout().lock());
    for (at, line) in io::stdin().lock().lines().enumerate() {
        let case = WhyCase::from_line(&line.map_err(broken)?)
            .map_err(|message| format!("line {}: {message}", at + 1))?;
        writeln!(out, "{}", why_line(&case.answer())).map_err(broken)?;
    }
    out.flush().map_err(broken)
}

pub fn generate(seed: u64, count: u64) -> io::Result<()> {
    let mut out = BufWriter::new(io::stdout().lock());
    for case in why_cases(seed, count) {
        writeln!(out, "{}", case.line())?;
    }
    out.flush()
}

pub fn histogram(seed: u64, count: u64) -> io::Result<()> {
    let tally = Tally::of(seed, count);
    let share = |times: u64, of: u64| 100.0 * times as f64 / of.max(1) as f64;
    let mut out = BufWriter::new(io::stdout().lock());
    for (answer, times) in &tally.answers {
        writeln!(out, "{answer}: {times} ({:.2}%)", share(*times, count))?;
    }
    for (number, times) in &tally.refused {
        writeln!(out, "refused {number}: {times} ({:.2}%)", share(*times, count))?;
    }
    writeln!(out, "of those among:")?;
    for (situation, times) in &tally.situations {
        writeln!(out, "  {situation} {:.2}%", share(*times, tally.among))?;
    }
    writeln!(out, "in their manifests:")?;
    for (form, times) in &tally.forms {
        writeln!(out, "  {form} {:.2}%", share(*times, tally.among))?;
    }
    out.flush()
}

pub fn list_names() -> io::Result<()> {
    let mut out = io::stdout().lock();
    for (name, _) in WHY_NAMED {
        writeln!(out, "{name}")?;
    }
    Ok(())
}

pub fn print_named(name: &str) -> Result<(), String> {
    let line = find(name)?.line();
    writeln!(io::stdout().lock(), "{line}").map_err(broken)
}

pub fn time_all() -> Result<(), String> {
    WHY_NAMED.iter().try_for_each(|(name, _)| time(name))
}

pub fn time(name: &str) -> Result<(), String> {
    let case = find(name)?;
    let started = Instant::now();
    let answer = std::hint::black_box(case.answer());
    let nanoseconds = started.elapsed().as_nanos();
    writeln!(
        io::stdout().lock(),
        "{name}: {nanoseconds} nanoseconds, manifest {} bytes, {}",
        case.manifest.len(),
        why_line(&answer)
    )
    .map_err(broken)
}
