//! The static library beside the program made apart, in one process; `tools/compare` builds and runs it. Compared are
//! number, place, steps, length, and every byte of output and memory, with bytes around what was lent. The first
//! difference ends the run: its case is printed in batch format, with what each side answered.

#![allow(dead_code)] // The modules of the program made apart have more than is used here.

include!("reference.rs");
mod ask;
mod compare_texts;
mod compare_types;
mod compare_whys;
mod hand_made;
mod hand_made_questions;
mod hand_made_texts;
mod hand_made_trees;
#[path = "../bindings/rigbanut.rs"]
mod rigbanut;
mod rooms;
mod tally;
mod types_calls;

use answer::Answer;
use case::Case;
use random::Random;
use rooms::{lent, Rooms};
use std::process::ExitCode;
use tally::{Progress, Tally};

/// What the words of the command ask for.
struct Asked {
    seed: u64,
    count: u64,
    compiles: bool,
    texts: bool,
    questions: bool,
    types: bool,
}

impl Asked {
    fn of(words: &[String]) -> Option<Asked> {
        let (numbers, kind) = match words {
            [seed, count] => ([seed, count], None),
            [seed, count, kind] => ([seed, count], Some(kind.as_str())),
            _ => return None,
        };
        if !matches!(kind, None | Some("compile" | "texts" | "why" | "types")) {
            return None;
        }
        let wants = |word: &str| kind.map_or(true, |kind| kind == word);
        Some(Asked {
            seed: numbers[0].parse().ok()?,
            count: numbers[1].parse().ok()?,
            compiles: wants("compile"),
            texts: wants("texts"),
            questions: wants("why"),
            types: wants("types"),
        })
    }
}

fn main() -> ExitCode {
    let words: Vec<String> = std::env::args().skip(1).collect();
    let Some(asked) = Asked::of(&words) else {
        eprintln!("use: tools/compare SEED COUNT [compile|texts|why|types]");
        return ExitCode::from(2);
    };
    match compare_all(&asked) {
        Ok(()) => ExitCode::SUCCESS,
        Err(difference) => {
            println!("{difference}");
            ExitCode::FAILURE
        }
    }
}

fn compare_all(asked: &Asked) -> Result<(), String> {
    let mut rooms = Rooms::new(asked.seed);
    if asked.compiles {
        println!(
            "{}",
            compare_compiles(asked.seed, asked.count, &mut rooms)?.summary()
        );
    }
    if asked.texts {
        for tally in compare_texts::compare_all(asked.seed, asked.count, &mut rooms)? {
            println!("{}", tally.summary());
        }
    }
    if asked.questions {
        println!(
            "{}",
            compare_whys::compare_all(asked.seed, asked.count, &mut rooms)?
        );
    }
    if asked.types {
        for tally in compare_types::compare_all(asked.seed, asked.count, &mut rooms)? {
            println!("{}", tally.summary());
        }
    }
    Ok(())
}

const NUMBERS: [u8; 23] = [
    1, 2, 3, 4, 5, 6, 7, 8, 9, 10, 11, 12, 13, 14, 15, 16, 17, 18, 19, 20, 21, 22, 23,
];

/// The named inputs and the hand-made cases first, then the random cases of the seed.
fn compare_compiles(seed: u64, count: u64, rooms: &mut Rooms) -> Result<Tally, String> {
    let mut tally = Tally::new("compiles", &NUMBERS);
    let mut progress = Progress::new("cases", count);
    let mut add = |answer: Answer| match answer {
        Answer::Catalog { .. } => tally.accept(),
        Answer::Refused { number, .. } => tally.refuse(number),
    };
    for (name, make) in special::all_named().chain(hand_made::HAND_MADE) {
        eprintln!("compare: named input {name}");
        add(compare(&make(), rooms).map_err(|told| format!("named input {name}: {told}"))?);
    }
    for (at, case) in (0..).zip(generate::cases(seed, count)) {
        let told = |told: String| format!("case {at} of seed {seed}: {told}");
        add(compare(&case, rooms).map_err(told)?);
        let lent = lend_otherwise(&mut Random::new(!seed, at), case);
        add(compare(&lent, rooms).map_err(told)?);
        progress.tell(at + 1);
    }
    Ok(tally)
}

/// The same manifest with other lengths of output and memory; the generator's own are mostly roomy ones.
fn lend_otherwise(random: &mut Random, case: Case) -> Case {
    let output = match random.below(6) {
        0 => 0,
        1 => random.below(100),
        2 => random.below(3000),
        3 => 65_535,
        4 => 70_000,
        _ => case.output,
    };
    let memory = match random.weighted(&[80, 5, 5, 5, 5]) {
        0 => 65_536,
        1 => 65_537,
        2 => 70_000,
        3 => 65_535,
        _ => random.below(65_536),
    };
    Case {
        output,
        memory,
        ..case
    }
}

/// Both compilers on one case. Gives the answer, or what differs.
fn compare(case: &Case, rooms: &mut Rooms) -> Result<Answer, String> {
    let lengths = [case.output, case.memory];
    rooms.dirty(lengths);
    let (out, work) = lent(&mut rooms.theirs, lengths);
    let theirs = compile::compile(&case.manifest, &case.device, case.limit, out, work);
    let (out, work) = lent(&mut rooms.ours, lengths);
    let ours = rigbanut::compile_into(&case.manifest, &case.device, case.limit, out, work);
    let ours = in_the_same_words(ours);
    let told = |what: String| {
        format!(
            "{what}\nreference: {theirs:?}\nlibrary:   {ours:?}\n{}",
            case.line()
        )
    };
    if ours != theirs {
        return Err(told("the answers differ".to_string()));
    }
    match rooms.difference(lengths) {
        Some(difference) => Err(told(difference)),
        None => Ok(theirs),
    }
}

fn in_the_same_words(answer: rigbanut::Answer) -> Answer {
    match answer {
        rigbanut::Answer::Catalog { length, steps } => Answer::Catalog { length, steps },
        rigbanut::Answer::Refused(rigbanut::Refusal { number, place }) => Answer::Refused { number, place },
    }
}
