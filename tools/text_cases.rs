//! The stored text cases. `print` prints them: the hand-made ones, and of random ones a few for each reason. `check` reads
//! stored cases from standard input and says which reason has none; `tools/make_cases` and the gate build and run it.

#![allow(dead_code)] // The modules of the program made apart have more than is used here.

include!("reference.rs");
mod hand_made_texts;
mod hand_made_trees;

use std::collections::{BTreeMap, BTreeSet};
use std::io::BufRead;
use std::process::ExitCode;
use text_case::{Call, TextCase};

const SEED: u64 = 20_240;
const DRAWN: u64 = 20_000;

fn main() -> ExitCode {
    let words: Vec<String> = std::env::args().skip(1).collect();
    match words.iter().map(String::as_str).collect::<Vec<_>>()[..] {
        ["print"] => print(),
        ["check"] => {
            let faults = check();
            faults.iter().for_each(|fault| eprintln!("text_cases: {fault}"));
            return ExitCode::from(u8::from(!faults.is_empty()));
        }
        _ => {
            eprintln!("use: text_cases print | check <cases");
            return ExitCode::from(2);
        }
    }
    ExitCode::SUCCESS
}

/// What a case is an example of: call, number and the words of `reference/`; number 0 for what is accepted.
type Reason = (&'static str, u8, &'static str);

fn called(call: Call) -> &'static str {
    match call {
        Call::Convert => "convert",
        Call::Print => "print",
    }
}

fn reason(case: &TextCase) -> (Reason, u16) {
    match case.answer() {
        Ok(_) => ((called(case.call), 0, ""), 0),
        Err(refused) => ((called(case.call), refused.number, refused.why), refused.place),
    }
}

/// The hand-made cases, each line once, then random ones: short, four of each reason with different places, forty of those
/// that are accepted.
fn print() {
    let mut printed = BTreeSet::new();
    for group in hand_made_texts::groups() {
        for case in group.cases {
            if printed.insert(case.line()) {
                println!("{}", case.line());
            }
        }
    }
    let mut chosen: BTreeMap<Reason, BTreeSet<u16>> = BTreeMap::new();
    let mut accepted = BTreeMap::new();
    for case in text_generate::text_cases(SEED, DRAWN) {
        if case.line().len() > 1200 || case.output > 70_000 {
            continue;
        }
        let (reason, place) = reason(&case);
        let is_wanted = match reason.1 {
            0 => {
                let count = accepted.entry(reason.0).or_insert(0);
                *count += 1;
                *count <= 40
            }
            _ => {
                let places = chosen.entry(reason).or_default();
                places.len() < 4 && places.insert(place)
            }
        };
        if is_wanted && printed.insert(case.line()) {
            println!("{}", case.line());
        }
    }
}

/// What is wrong with the stored cases, or with the list of reasons.
fn check() -> Vec<String> {
    let mut faults = Vec::new();
    let lines: BTreeSet<String> = std::io::stdin().lock().lines().map_while(Result::ok).collect();
    let mut listed = BTreeSet::new();
    for group in hand_made_texts::groups() {
        let wanted = (called(group.call), group.number, group.why);
        listed.insert(wanted);
        if group.cases.is_empty() {
            faults.push(format!("\"{}\" has no case in the list", group.name));
        }
        for case in &group.cases {
            if !lines.contains(&case.line()) {
                faults.push(format!(
                    "a case of \"{}\" is not stored: {}",
                    group.name,
                    in_short(case)
                ));
            }
            if reason(case).0 != wanted {
                faults.push(format!(
                    "a case of \"{}\" is {:?}: {}",
                    group.name,
                    reason(case),
                    in_short(case)
                ));
            }
        }
    }
    let met: BTreeSet<Reason> = text_generate::text_cases(SEED, DRAWN)
        .map(|case| reason(&case).0)
        .collect();
    faults.extend(
        met.difference(&listed)
            .map(|reason| format!("{reason:?} is not in the list of reasons")),
    );
    faults.extend(too_few(&lines));
    faults
}

/// Each refusal of the notation twenty times at least, at ten places or more.
fn too_few(lines: &BTreeSet<String>) -> Vec<String> {
    let mut places: BTreeMap<u8, Vec<u16>> = BTreeMap::new();
    for line in lines {
        let Ok(case) = TextCase::from_line(line) else {
            continue;
        };
        if let ((_, number @ 24.., _), place) = reason(&case) {
            places.entry(number).or_default().push(place);
        }
    }
    let mut faults = Vec::new();
    for number in 24..=26 {
        let places = places.remove(&number).unwrap_or_default();
        let different: BTreeSet<&u16> = places.iter().collect();
        if places.len() < 20 || different.len() < 10 {
            faults.push(format!(
                "{} stored cases are refused {number}, at {} places",
                places.len(),
                different.len()
            ));
        }
    }
    faults
}

fn in_short(case: &TextCase) -> String {
    let text = String::from_utf8_lossy(&case.bytes).into_owned();
    let line = match case.call {
        Call::Convert => format!("{text:?}"),
        Call::Print => case.line(),
    };
    line.chars().take(200).collect()
}
