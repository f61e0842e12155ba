//! What the program's arguments ask for.

use crate::answer::Answer;
use crate::case::{answer_line, Case};
use crate::catalog;
use crate::compile::compile;
use crate::default_last;
use crate::generate::cases;
use crate::labels::Labels;
use crate::schedule::schedule;
use crate::special::{all_named, named};
use crate::text_case::Call;
use crate::text_modes;
use crate::types_modes;
use crate::used_early;
use crate::walk;
use crate::why_modes;
use std::collections::BTreeMap;
use std::io::{self, BufRead, BufWriter, Read, Write};
use std::time::{Duration, Instant};

const USAGE: &str = "use: reference schedule | batch | default-last | used-early | \
                     generate SEED COUNT | histogram SEED COUNT | time SEED COUNT | \
                     named NAME | named --list | time-named [NAME] | convert | print | text-batch | \
                     text-generate SEED COUNT | text-histogram SEED COUNT | \
                     round-trip SEED COUNT | text-named NAME | text-named --list | \
                     time-text [NAME] | why-batch | why-generate SEED COUNT | \
                     why-histogram SEED COUNT | why-named NAME | why-named --list | \
                     time-why [NAME] | types-batch | types-generate SEED COUNT | \
                     types-histogram SEED COUNT | types-named NAME | types-named --list";

pub fn run(arguments: &[String]) -> Result<(), String> {
    let words: Vec<&str> = arguments.iter().map(String::as_str).collect();
    let done = match words[..] {
        ["schedule"] => print_schedule(),
        ["batch"] => return batch(),
        ["default-last"] => return print_telling(default_last::tells),
        ["used-early"] => return print_telling(used_early::tells),
        ["generate", seed, count] => generate(number(seed)?, number(count)?),
        ["histogram", seed, count] => return histogram(number(seed)?, number(count)?),
        ["time", seed, count] => return time(number(seed)?, number(count)?),
        ["named", "--list"] => list_names(),
        ["named", name] => print_named(&find(name)?),
        ["time-named"] => return all_named().try_for_each(|(name, _)| time_named(name)),
        ["time-named", name] => return time_named(name),
        ["convert"] => return text_modes::one(Call::Convert),
        ["print"] => return text_modes::one(Call::Print),
        ["text-batch"] => return text_modes::batch(),
        ["text-generate", seed, count] => text_modes::generate(number(seed)?, number(count)?),
        ["text-histogram", seed, count] => text_modes::histogram(number(seed)?, number(count)?),
        ["round-trip", seed, count] => return text_modes::round_trip(number(seed)?, number(count)?),
        ["text-named", "--list"] => text_modes::list_names(),
        ["text-named", name] => return text_modes::print_named(name),
        ["time-text"] => return text_modes::time_all(),
        ["time-text", name] => return text_modes::time(name),
        ["why-batch"] => return why_modes::batch(),
        ["why-generate", seed, count] => why_modes::generate(number(seed)?, number(count)?),
        ["why-histogram", seed, count] => why_modes::histogram(number(seed)?, number(count)?),
        ["why-named", "--list"] => why_modes::list_names(),
        ["why-named", name] => return why_modes::print_named(name),
        ["time-why"] => return why_modes::time_all(),
        ["time-why", name] => return why_modes::time(name),
        ["types-batch"] => return types_modes::batch(),
        ["types-generate", seed, count] => types_modes::generate(number(seed)?, number(count)?),
        ["types-histogram", seed, count] => return types_modes::histogram(number(seed)?, number(count)?),
        ["types-named", "--list"] => types_modes::list_names(),
        ["types-named", name] => return types_modes::print_named(name),
        _ => return Err(USAGE.to_string()),
    };
    done.map_err(broken)
}

fn number(word: &str) -> Result<u64, String> {
    word.parse().map_err(|_| format!("no number: {word}"))
}

fn broken(error: io::Error) -> String {
    error.to_string()
}

/// Writes a line; a reader that has gone away is an error, not a panic.
fn say(line: String) -> Result<(), String> {
    writeln!(io::stdout().lock(), "{line}").map_err(broken)
}

fn find(name: &str) -> Result<Case, String> {
    named(name).ok_or_else(|| format!("no input of that name: {name}"))
}

fn print_schedule() -> io::Result<()> {
    let mut input = Vec::new();
    io::stdin().lock().read_to_end(&mut input)?;
    io::stdout().lock().write_all(&schedule(&input))
}

/// Writes for each case of standard input the line it is given, if any.
fn each_case(line_of: impl Fn(&Case) -> Result<Option<String>, String>) -> Result<(), String> {
    let mut out = BufWriter::new(io::stdout().lock());
    for (at, line) in io::stdin().lock().lines().enumerate() {
        let line = line.map_err(broken)?;
        let told = |message: String| format!("line {}: {message}", at + 1);
        let answer = Case::from_line(&line)
            .and_then(|case| line_of(&case))
            .map_err(told)?;
        if let Some(answer) = answer {
            writeln!(out, "{answer}").map_err(broken)?;
        }
    }
    out.flush().map_err(broken)
}

/// Answers each line, checking the bytes lent on the way.
fn batch() -> Result<(), String> {
    each_case(|case| {
        let (answer, catalog) = case.compile()?;
        Ok(Some(answer_line(&answer, &catalog)))
    })
}

/// Writes again the lines of those cases that tell that a rule is kept.
fn print_telling(tells: fn(&Case) -> bool) -> Result<(), String> {
    each_case(|case| Ok(tells(case).then(|| case.line())))
}

fn generate(seed: u64, count: u64) -> io::Result<()> {
    let mut out = BufWriter::new(io::stdout().lock());
    for case in cases(seed, count) {
        writeln!(out, "{}", case.line())?;
    }
    out.flush()
}

fn list_names() -> io::Result<()> {
    let mut out = io::stdout().lock();
    for (name, _) in all_named() {
        writeln!(out, "{name}")?;
    }
    Ok(())
}

fn print_named(case: &Case) -> io::Result<()> {
    writeln!(io::stdout().lock(), "{}", case.line())
}

/// How often each outcome occurs, and what the accepted ones hold.
#[derive(Default)]
pub struct Tally {
    pub accepted: u64,
    /// By number; 0 is not used.
    pub refused: [u64; 24],
    pub with_entries: u64,
    pub with_several_labels: u64,
    /// Those accepted that hold a 27, 28 or 29, and of these the ones that use a
    /// definition before it stands.
    pub declaring: u64,
    pub declaring_early: u64,
    /// By the tag of the first such use, accepted or not.
    pub early: BTreeMap<u8, u64>,
    entries: u64,
    attributes: u64,
    labels: u64,
    steps: u64,
}

impl Tally {
    pub fn of(seed: u64, count: u64) -> Result<Tally, String> {
        let mut tally = Tally::default();
        for case in cases(seed, count) {
            let (answer, bytes) = case.compile()?;
            tally.add(&answer, &bytes)?;
            tally.add_early(&case, &answer);
        }
        Ok(tally)
    }

    fn add(&mut self, answer: &Answer, bytes: &[u8]) -> Result<(), String> {
        match answer {
            Answer::Refused { number, .. } => self.refused[usize::from(*number).min(23)] += 1,
            Answer::Catalog { steps, .. } => {
                self.accepted += 1;
                self.steps += u64::from(*steps);
                let entries = catalog::entries(bytes).ok_or("the output is no catalog")?;
                self.entries += entries.len() as u64;
                let mut all = Labels::EMPTY;
                for entry in &entries {
                    self.attributes += entry.attributes.len() as u64;
                    all.join(entry.labels);
                    for (_, worth) in &entry.attributes {
                        all.join(worth.labels);
                    }
                }
                self.labels += u64::from(all.count());
                self.with_entries += u64::from(!entries.is_empty());
                self.with_several_labels += u64::from(all.count() > 2);
            }
        }
        Ok(())
    }

    fn add_early(&mut self, case: &Case, answer: &Answer) {
        let first = used_early::first_use(case);
        if let Some(tag) = first {
            *self.early.entry(tag).or_insert(0) += 1;
        }
        let declares = || {
            let fields = walk::fields(&case.manifest);
            fields.iter().any(|field| matches!(field.tag, 0x27..=0x29))
        };
        if matches!(answer, Answer::Catalog { .. }) && declares() {
            self.declaring += 1;
            self.declaring_early += u64::from(first.is_some());
        }
    }
}

fn histogram(seed: u64, count: u64) -> Result<(), String> {
    let tally = Tally::of(seed, count)?;
    let share = |part: u64, whole: u64| 100.0 * part as f64 / whole.max(1) as f64;
    let mean = |sum: u64| sum as f64 / tally.accepted.max(1) as f64;
    say(format!(
        "ok {} ({:.1}%)",
        tally.accepted,
        share(tally.accepted, count)
    ))?;
    for (number, times) in tally.refused.iter().enumerate().skip(1) {
        say(format!("{number} {times} ({:.2}%)", share(*times, count)))?;
    }
    say("of those accepted:".to_string())?;
    say(format!(
        "  with entries {:.1}%",
        share(tally.with_entries, tally.accepted)
    ))?;
    say(format!(
        "  with three labels or more {:.1}%",
        share(tally.with_several_labels, tally.accepted)
    ))?;
    say(format!("  mean entries {:.2}", mean(tally.entries)))?;
    say(format!("  mean attributes {:.2}", mean(tally.attributes)))?;
    say(format!("  mean different labels {:.2}", mean(tally.labels)))?;
    say(format!("  mean steps {:.2}", mean(tally.steps)))?;
    say(format!(
        "  with a 27, 28 or 29 {}, of them using a definition before it stands {:.1}%",
        tally.declaring,
        share(tally.declaring_early, tally.declaring)
    ))?;
    say("first uses of a definition before it stands:".to_string())?;
    for (tag, times) in &tally.early {
        say(format!("  by {tag:02X} {times} ({:.2}%)", share(*times, count)))?;
    }
    Ok(())
}

/// Compiles generated cases over and over for about two seconds.
fn time(seed: u64, count: u64) -> Result<(), String> {
    let all: Vec<Case> = cases(seed, count).collect();
    let longest = |length: fn(&Case) -> usize| all.iter().map(length).max().unwrap_or(0);
    let mut out = vec![0; longest(|case| case.output)];
    let mut work = vec![0; longest(|case| case.memory)];
    let started = Instant::now();
    let mut compiled = 0u64;
    while !all.is_empty() && (compiled == 0 || started.elapsed() < Duration::from_secs(2)) {
        for case in &all {
            let (out, work) = (&mut out[..case.output], &mut work[..case.memory]);
            std::hint::black_box(compile(&case.manifest, &case.device, case.limit, out, work));
            compiled += 1;
        }
    }
    let nanoseconds = started.elapsed().as_nanos() / u128::from(compiled.max(1));
    let bytes: usize = all.iter().map(|case| case.manifest.len()).sum();
    say(format!(
        "{nanoseconds} nanoseconds per compile ({compiled} compiles)"
    ))?;
    say(format!("mean manifest {} bytes", bytes / all.len().max(1)))?;
    Ok(())
}

fn time_named(name: &str) -> Result<(), String> {
    let case = find(name)?;
    let mut out = vec![0; case.output];
    let mut work = vec![0; case.memory];
    let started = Instant::now();
    let answer = compile(&case.manifest, &case.device, case.limit, &mut out, &mut work);
    let nanoseconds = started.elapsed().as_nanos();
    say(format!(
        "{name}: {nanoseconds} nanoseconds, manifest {} bytes, {answer:?}",
        case.manifest.len()
    ))?;
    Ok(())
}
