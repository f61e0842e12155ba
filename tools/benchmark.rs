//! How long the static library takes, as ratios against the program made apart; `tools/benchmark` builds and runs it.
//! All sides have one signature and clear the same output and memory. Each row is timed in rounds, a turn of each side
//! in a round, by the processor time of the thread; the median of each side over the rounds is shown. In a row of
//! questions the library also compiles in each round what is asked about. Built with `--cfg former` there is another
//! side, an earlier library, whose functions have names that end in `_formerly`; with `--cfg former_texts` it converts
//! and prints too, with `--cfg former_why` it answers questions too.

#![allow(dead_code)] // The modules of the program made apart have more than is used here.
#![allow(unexpected_cfgs)]

include!("reference.rs");
mod ask;
mod benchmark_texts;
mod benchmark_whys;
mod hand_made_questions;
#[path = "../bindings/rigbanut.rs"]
mod rigbanut;

use answer::Answer;
use assemble::*;
use case::Case;
use std::hint::black_box;
use std::process::ExitCode;
use std::time::Duration;
use text_answer::Written;
use text_case::{Call, TextCase};
use why::Why;
use why_case::WhyCase;

/// What is done in one turn: a manifest compiled, or a text converted, or a manifest printed, or a question asked.
#[derive(Clone)]
enum Job {
    Compile(Case),
    Text(TextCase),
    Ask(WhyCase),
}

/// A row of the table: a name and what is done, one job after the other.
struct Row {
    name: String,
    jobs: Vec<Job>,
}

fn main() -> ExitCode {
    let words: Vec<String> = std::env::args().skip(1).collect();
    let wanted = match &words[..] {
        [] => None,
        [part] if !part.starts_with('-') => Some(part),
        _ => {
            eprintln!("use: tools/benchmark [--former LIBRARY] [PART-OF-A-NAME]");
            return ExitCode::from(2);
        }
    };
    println!(
        "{:<54} {:>6} {:>11} {:>13} {:>13} {:>7} {:>6} {:>8}{}",
        "",
        "bytes",
        "answer",
        "reference µs",
        "library µs",
        "ratio",
        "rounds",
        "compiles",
        FORMER.map_or("", |_| "     former µs to former"),
    );
    let too_long = measure_all(wanted);
    for name in &too_long {
        eprintln!("benchmark: a question took the time of more than {MOST_COMPILES} compiles: {name}");
    }
    ExitCode::from(u8::from(!too_long.is_empty()))
}

/// Prints the rows wanted, and gives the names of those whose questions take too long.
fn measure_all(wanted: Option<&String>) -> Vec<String> {
    let mut room = Room {
        out: vec![0; 70_000],
        work: vec![0; 65_536],
    };
    let mut too_long = Vec::new();
    for row in rows()
        .into_iter()
        .filter(|row| wanted.map_or(true, |part| row.name.contains(part.as_str())))
    {
        eprintln!("benchmark: {}", row.name);
        let measured = room.measure(&row);
        println!("{}", measured.line);
        if measured.compiles > Some(MOST_COMPILES) {
            too_long.push(row.name);
        }
    }
    too_long
}

// What is timed.

fn rows() -> Vec<Row> {
    let mut rows = mixed();
    rows.extend(short());
    rows.extend(worst());
    rows.extend(slowest());
    rows.extend(growth());
    rows.extend(joins());
    rows.extend(benchmark_texts::rows().into_iter().map(|(name, cases)| Row {
        name,
        jobs: cases.into_iter().map(Job::Text).collect(),
    }));
    rows.extend(benchmark_whys::rows().into_iter().map(|(name, cases)| Row {
        name,
        jobs: cases.into_iter().map(Job::Ask).collect(),
    }));
    rows
}

/// Random manifests, whole and by what becomes of them.
fn mixed() -> Vec<Row> {
    let all: Vec<Case> = generate::cases(20_240, 2000)
        .filter(|case| case.memory == 65_536)
        .collect();
    let part = |name: &str, wanted: fn(&Answer) -> bool| Row {
        name: format!("mixed random: {name}"),
        jobs: all
            .iter()
            .filter(|case| wanted(&answer_of(case)))
            .cloned()
            .map(Job::Compile)
            .collect(),
    };
    vec![
        part("all", |_| true),
        part("accepted", |answer| matches!(answer, Answer::Catalog { .. })),
        part("refused while running", |answer| {
            matches!(answer, Answer::Refused { number: 6.., .. })
        }),
        part("damaged, refused before running", |answer| {
            matches!(answer, Answer::Refused { number: 2..=5, .. })
        }),
    ]
}

fn answer_of(case: &Case) -> Answer {
    let (mut out, mut work) = (vec![0; case.output], vec![0; case.memory]);
    compile::compile(&case.manifest, &case.device, case.limit, &mut out, &mut work)
}

fn one(name: &str, case: Case) -> Row {
    Row {
        name: name.to_string(),
        jobs: vec![Job::Compile(case)],
    }
}

fn named(name: &str, input: &str) -> Row {
    match special::named(input) {
        Some(case) => one(name, case),
        None => panic!("the program made apart has no input {input}"),
    }
}

fn short() -> Vec<Row> {
    vec![
        named("short: the paper's schedule", "schedule"),
        named("short: the schedule refused for its steps", "schedule-limit-3"),
        named("short: no item", "no-item"),
        one("short: no manifest", Case::of(vec![])),
        named("short: 33 deep", "depth-33"),
        named("short: 17 levels", "level-16"),
    ]
}

/// The worst kinds that are known, by name.
fn worst() -> Vec<Row> {
    vec![
        named("large expression, 16,384 times", "time-expression"),
        named("5,000 reads of 500 variables, 1,024 times", "time-variables"),
        named("4,000 reads through 999 parents", "time-parent-chain"),
        named("512 cells", "cells-512"),
        named("500 marks, 8,192 times", "time-marks"),
        named("3,500 patterns tried, 4,096 times", "time-patterns"),
        named("1,680 entries", "time-entries"),
        named("2,300 reads of 900 attributes, 256 times", "time-attribute-reads"),
        named("65,535 steps", "time-steps"),
        named("65,535 steps, the last refused", "time-steps-refused"),
        named(
            "65,535 bytes, refused at the end by its field",
            "time-refused-late-3",
        ),
        named(
            "65,535 bytes, refused at the end by a name",
            "time-refused-late-5",
        ),
        named(
            "65,535 bytes, refused at the end by a definition",
            "time-refused-late-8",
        ),
        named(
            "65,535 bytes, refused at the end by a read",
            "time-refused-late-13",
        ),
        named("65,535 bytes, accepted", "time-largest-accepted"),
        one("500 parameters given, 64 times", ordinary(many_parameters())),
        one("500 parameters by default, 64 times", ordinary(many_defaults())),
        one("1,000 attributes of one resource", ordinary(many_attributes())),
        one(
            "1,000 attributes of one resource, the last twice",
            ordinary(attribute_twice()),
        ),
        one("1,000 definitions and as many includes", ordinary(many_classes())),
        named("1,024 definitions behind the use of the last", "time-definitions"),
    ]
}

fn ordinary(manifest: Manifest) -> Case {
    Case::of(manifest.build().bytes)
}

fn numbered(at: usize) -> String {
    format!("n{at:04}")
}

/// A type whose parameters are all given, in the opposite order.
fn many_parameters() -> Manifest {
    let parameters = (0..500).map(|at| parameter(numbered(at), None)).collect();
    let values = (0..500)
        .rev()
        .map(|at| given(numbered(at), boolean(at as u8, true)))
        .collect();
    sixty_four_times(parameters, values)
}

fn many_defaults() -> Manifest {
    let parameters = (0..500)
        .map(|at| parameter(numbered(at), Some(boolean(at as u8, true))))
        .collect();
    sixty_four_times(parameters, vec![])
}

/// A type `wide` of these parameters, declared by each of 64 runs of another type's body.
fn sixty_four_times(parameters: Vec<Field>, values: Vec<Field>) -> Manifest {
    let declare = |name: &str| defined(name, text(1, "x"), vec![]);
    let mut items = vec![
        type_definition("wide", parameters, vec![]),
        type_definition("each", vec![], vec![defined("wide", text(1, "x"), values)]),
        type_definition("eight", vec![], (0..8).map(|_| declare("each")).collect()),
    ];
    items.extend((0..8).map(|_| declare("eight")));
    Manifest::new(items)
}

fn attributes(count: usize) -> Vec<Field> {
    (0..count)
        .map(|at| given(numbered(at), boolean(at as u8, true)))
        .collect()
}

fn many_attributes() -> Manifest {
    Manifest::new(vec![built_in("kiosk", text(1, "front"), attributes(1000))])
}

fn attribute_twice() -> Manifest {
    let mut attributes = attributes(1000);
    attributes.push(given(numbered(999), boolean(2, true)));
    Manifest::new(vec![built_in("kiosk", text(1, "front"), attributes)])
}

fn many_classes() -> Manifest {
    let mut items: Vec<Field> = (0..1000)
        .map(|at| class_definition(numbered(at), None, vec![], vec![]))
        .collect();
    items.extend((0..1000).rev().map(|at| include(numbered(at))));
    Manifest::new(items)
}

/// The kinds of manifest that took longest of all that are known, with their body run 64 times.
fn slowest() -> Vec<Row> {
    vec![
        one(
            "2,411 reads of the 1,621st entry's attribute, 64 times",
            ordinary(reads_of_last_entry()),
        ),
        one(
            "2,400 reads of the 1,000th attribute, 64 times",
            ordinary(reads_of_last_attribute()),
        ),
    ]
}

/// Rows of one kind that double, and conditions that nest: 64 runs of a body with 6,157 assignments under them.
fn growth() -> Vec<Row> {
    let entries = [210, 420, 840, 1680].map(|count| {
        let name = format!("growth: {count} entries");
        one(&name, ordinary(entries(count)))
    });
    let cells = [64, 128, 256, 512].map(|count| {
        let name = format!("growth: {count} cells");
        one(&name, ordinary(special::cells(count)))
    });
    let nested = [1, 2, 4, 8, 13].map(|depth| {
        let name = format!("growth: {depth} nested ifs over 6,157 assignments");
        one(&name, ordinary(nested_ifs(depth)))
    });
    entries.into_iter().chain(cells).chain(nested).collect()
}

/// A million joins of sets, 4,000 in each of 250 runs of a body: into the marks that stand in memory, and in the evaluation of an expression.
fn joins() -> Vec<Row> {
    let million = |name: &str, body: Vec<Field>| {
        one(
            &format!("a million joins: {name}"),
            ordinary(fan_of([10, 5, 5], vec![], body)),
        )
    };
    vec![
        million("8 conditions over 500 names", conditions(8, 500)),
        million(
            "an expression of 4,000 constants",
            vec![assign("x", balanced(4000, &boolean(7, true)))],
        ),
    ]
}

/// Conditions whose branches, which are not taken, assign the same names.
fn conditions(count: usize, names: usize) -> Vec<Field> {
    let assignments = || {
        (0..names)
            .map(|at| assign(numbered(at), boolean(1, true)))
            .collect::<Vec<Field>>()
    };
    (0..count)
        .map(|at| if_else(boolean(2 + at as u8, false), assignments(), vec![]))
        .collect()
}

/// Runs a type's body 64 times.
fn fan(items: Vec<Field>, body: Vec<Field>) -> Manifest {
    fan_of([4, 4, 4], items, body)
}

/// Runs a type's body as often as the product tells: in so many runs of each of so many runs of a body with so many declarations.
fn fan_of([inner, middle, outer]: [usize; 3], mut items: Vec<Field>, body: Vec<Field>) -> Manifest {
    let times = |count: usize, name: &str| {
        (0..count)
            .map(|_| defined(name, text(1, "x"), vec![]))
            .collect::<Vec<Field>>()
    };
    items.extend([
        type_definition("body", vec![], body),
        type_definition("inner", vec![], times(inner, "body")),
        type_definition("middle", vec![], times(middle, "inner")),
    ]);
    items.extend(times(outer, "middle"));
    Manifest::new(items)
}

/// An entry of each title under two types.
fn entries(count: usize) -> Manifest {
    let entry = |at: usize| {
        let kind = if at % 2 == 0 { "kiosk" } else { "wall" };
        built_in(kind, text(at as u8, numbered(at / 2)), vec![])
    };
    Manifest::new((0..count).map(entry).collect())
}

/// As many reads as told, joined by "=", the fewest operators above each.
fn balanced(count: usize, read: &Field) -> Field {
    match count {
        1 => read.clone(),
        _ => binary(4, balanced(count / 2, read), balanced(count - count / 2, read)),
    }
}

fn reads_of_last_entry() -> Manifest {
    let mut items = entries(1620).items;
    items.push(built_in("gate", text(2, "x"), vec![given("x", boolean(3, true))]));
    let read = attribute_of("gate", "x", text(4, "x"));
    fan(items, vec![assign("x", balanced(2411, &read))])
}

fn reads_of_last_attribute() -> Manifest {
    let items = many_attributes().items;
    let read = attribute_of("kiosk", numbered(999), text(4, "front"));
    fan(items, vec![assign("x", balanced(2400, &read))])
}

/// Assignments to 450 names in a branch that is not taken, under as many ifs as told, each with a label of its own.
fn nested_ifs(depth: usize) -> Manifest {
    let assignments = (0..6157).map(|at| assign(format!("v{:03}", at % 450), boolean(1, true)));
    let innermost = if_else(boolean(2, false), assignments.collect(), vec![]);
    let body = (1..depth).fold(innermost, |inside, at| {
        if_else(boolean(2 + at as u8, true), vec![inside], vec![])
    });
    fan(vec![], vec![body])
}

// Timing.

/// What both sides are lent.
struct Room {
    out: Vec<u8>,
    work: Vec<u8>,
}

/// A row is timed for about this long, in an odd number of rounds.
const ROW: Duration = Duration::from_millis(1500);
const MOST_ROUNDS: u128 = 201;
/// A question may take the time of so many compiles of what it is about, with 65,535 for steps and output.
const MOST_COMPILES: f64 = 20.0;

/// What a side compiles with: manifest, device, limit, output and memory.
type Compile = fn(&[u8], &[u8], u16, &mut [u8], &mut [u8]) -> u64;
/// What a side converts and prints with: text or manifest, output and memory.
type Write = fn(&[u8], &mut [u8], &mut [u8]) -> u64;
/// What a side answers with: a question and memory.
type Ask = fn(&WhyCase, &mut [u8]) -> u64;

#[derive(Clone, Copy)]
struct Side {
    compile: Compile,
    /// Converting and printing, if the side can.
    texts: Option<(Write, Write)>,
    /// Answering, if the side can.
    ask: Option<Ask>,
}

const REFERENCE: Side = Side {
    compile: reference,
    texts: Some((reference_convert, reference_print)),
    ask: Some(reference_ask),
};
const LIBRARY: Side = Side {
    compile: library,
    texts: Some((library_convert, library_print)),
    ask: Some(ask::library),
};
/// The library that the one measured is compared with besides, if there is one.
#[cfg(not(former))]
const FORMER: Option<Side> = None;
#[cfg(former)]
const FORMER: Option<Side> = Some(former::SIDE);

impl Side {
    fn can(&self, row: &Row) -> bool {
        row.jobs.iter().all(|job| match job {
            Job::Compile(_) => true,
            Job::Text(_) => self.texts.is_some(),
            Job::Ask(_) => self.ask.is_some(),
        })
    }

    fn run(&self, job: &Job, out: &mut [u8], work: &mut [u8]) -> u64 {
        match (job, self.texts, self.ask) {
            (Job::Compile(case), ..) => (self.compile)(&case.manifest, &case.device, case.limit, out, work),
            (Job::Text(case), Some((convert, print)), _) => match case.call {
                Call::Convert => convert(&case.bytes, out, work),
                Call::Print => print(&case.bytes, out, work),
            },
            (Job::Ask(case), _, Some(ask)) => ask(case, work),
            _ => panic!("an earlier library is asked for what it cannot do"),
        }
    }
}

/// A row measured.
struct Measured {
    line: String,
    /// How many compiles of what it is about a question takes the time of.
    compiles: Option<f64>,
}

impl Room {
    fn measure(&mut self, row: &Row) -> Measured {
        let former = FORMER.filter(|side| side.can(row));
        let compiling = row.compiling();
        let mut turns = vec![(row, REFERENCE), (row, LIBRARY)];
        turns.extend(former.map(|side| (row, side)));
        turns.extend(compiling.as_ref().map(|compiling| (compiling, LIBRARY)));
        let mut times: Vec<Vec<Duration>> = turns.iter().map(|turn| vec![self.time(turn)]).collect();
        let round: Duration = times.iter().map(|first| first[0]).sum();
        let rounds = (ROW.as_nanos() / round.as_nanos().max(1)).clamp(1, MOST_ROUNDS) | 1;
        for _ in 1..rounds {
            for (turn, times) in turns.iter().zip(&mut times) {
                times.push(self.time(turn));
            }
        }
        let medians: Vec<Duration> = times.into_iter().map(median).collect();
        let count = row.jobs.len().max(1);
        let each = |time: Duration| time.as_nanos() as f64 / 1000.0 / count as f64;
        let ratio = |turn: usize| medians[1].as_secs_f64() / medians[turn].as_secs_f64();
        let bytes: usize = row.jobs.iter().map(Job::bytes).sum();
        let compiles = compiling.map(|_| ratio(medians.len() - 1));
        let more = former.map_or(String::new(), |_| {
            format!(" {:>13.1} {:>9.2}", each(medians[2]), ratio(2))
        });
        let line = format!(
            "{:<54} {:>6} {:>11} {:>13.1} {:>13.1} {:>7.2} {:>6} {:>8}{more}",
            row.name,
            bytes / count,
            answers(&row.jobs),
            each(medians[0]),
            each(medians[1]),
            ratio(0),
            rounds,
            compiles.map_or(String::new(), |compiles| format!("{compiles:.2}")),
        );
        Measured {
            line: line.trim_end().to_string(),
            compiles,
        }
    }

    fn time(&mut self, (row, side): &(&Row, Side)) -> Duration {
        let started = processor_time();
        for job in &row.jobs {
            let out = &mut self.out[..job.output()];
            black_box(side.run(job, out, &mut self.work));
        }
        processor_time() - started
    }
}

#[repr(C)]
struct Timespec {
    seconds: i64,
    nanoseconds: i64,
}

extern "C" {
    fn clock_gettime(clock: i32, time: *mut Timespec) -> i32;
}

/// The processor time of this thread so far: other work on the machine does not count.
fn processor_time() -> Duration {
    const CLOCK_THREAD_CPUTIME_ID: i32 = 3;
    let mut time = Timespec {
        seconds: 0,
        nanoseconds: 0,
    };
    // SAFETY: the pointer is to a timespec of 64-bit Linux, which is written to.
    let failed = unsafe { clock_gettime(CLOCK_THREAD_CPUTIME_ID, &mut time) } != 0;
    assert!(!failed, "this machine tells no processor time of a thread");
    Duration::new(time.seconds as u64, time.nanoseconds as u32)
}

fn reference(manifest: &[u8], device: &[u8], limit: u16, out: &mut [u8], work: &mut [u8]) -> u64 {
    match compile::compile(manifest, device, limit, out, work) {
        Answer::Catalog { length, steps } => u64::from(steps) << 16 | u64::from(length),
        Answer::Refused { number, place } => u64::from(number) << 32 | u64::from(place),
    }
}

fn library(manifest: &[u8], device: &[u8], limit: u16, out: &mut [u8], work: &mut [u8]) -> u64 {
    match rigbanut::compile_into(manifest, device, limit, out, work) {
        rigbanut::Answer::Catalog { length, steps } => u64::from(steps) << 16 | u64::from(length),
        rigbanut::Answer::Refused(refusal) => u64::from(refusal.number) << 32 | u64::from(refusal.place),
    }
}

/// The memory is cleared, as the library does.
fn reference_ask(case: &WhyCase, work: &mut [u8]) -> u64 {
    work.fill(0);
    ask::word(&case.answer())
}

/// Written where the library writes, and the rest cleared.
fn put(written: Written, out: &mut [u8], work: &mut [u8]) -> u64 {
    work.fill(0);
    match written {
        Ok(bytes) => {
            let (start, rest) = out.split_at_mut(bytes.len());
            start.copy_from_slice(&bytes);
            rest.fill(0);
            bytes.len() as u64
        }
        Err(refused) => {
            out.fill(0);
            u64::from(refused.number) << 32 | u64::from(refused.place)
        }
    }
}

fn reference_convert(text: &[u8], out: &mut [u8], work: &mut [u8]) -> u64 {
    put(converter::convert(text, out.len(), work.len()), out, work)
}

fn reference_print(manifest: &[u8], out: &mut [u8], work: &mut [u8]) -> u64 {
    put(printer::print(manifest, out.len(), work.len()), out, work)
}

fn library_convert(text: &[u8], out: &mut [u8], work: &mut [u8]) -> u64 {
    in_one_word(rigbanut::convert_into(text, out, work))
}

fn library_print(manifest: &[u8], out: &mut [u8], work: &mut [u8]) -> u64 {
    in_one_word(rigbanut::print_into(manifest, out, work))
}

fn in_one_word(written: rigbanut::Written) -> u64 {
    match written {
        rigbanut::Written::Bytes { length } => u64::from(length),
        rigbanut::Written::Refused(refusal) => u64::from(refusal.number) << 32 | u64::from(refusal.place),
    }
}

#[cfg(former)]
#[path = "former.rs"]
mod former;

fn median(mut times: Vec<Duration>) -> Duration {
    times.sort();
    times[times.len() / 2]
}

impl Job {
    fn bytes(&self) -> usize {
        match self {
            Job::Compile(case) => case.manifest.len(),
            Job::Text(case) => case.bytes.len(),
            Job::Ask(case) => case.manifest.len(),
        }
    }

    fn output(&self) -> usize {
        match self {
            Job::Compile(case) => case.output,
            Job::Text(case) => case.output,
            Job::Ask(_) => 0,
        }
    }

    /// The compile of what a question is about, with 65,535 for steps and output.
    fn compiling(&self) -> Option<Job> {
        match self {
            Job::Ask(case) => Some(Job::Compile(Case {
                device: case.device.clone(),
                ..Case::of(case.manifest.clone())
            })),
            _ => None,
        }
    }

    /// The number of its refusal.
    fn refused(&self) -> Option<u8> {
        match self {
            Job::Compile(case) => match answer_of(case) {
                Answer::Catalog { .. } => None,
                Answer::Refused { number, .. } => Some(number),
            },
            Job::Text(case) => case.answer().err().map(|refused| refused.number),
            Job::Ask(case) => match case.answer() {
                Why::Refused(refusal) => Some(refusal.reason as u8),
                _ => None,
            },
        }
    }
}

impl Row {
    /// The compiles of what the row asks about, if it is one of questions.
    fn compiling(&self) -> Option<Row> {
        let jobs: Option<Vec<Job>> = self.jobs.iter().map(Job::compiling).collect();
        jobs.map(|jobs| Row {
            name: self.name.clone(),
            jobs,
        })
    }
}

/// `ok`, a refusal's number, or how many cases there are.
fn answers(jobs: &[Job]) -> String {
    match jobs {
        [job] => job
            .refused()
            .map_or("ok".to_string(), |number| format!("refused {number}")),
        _ => format!("{} cases", jobs.len()),
    }
}
