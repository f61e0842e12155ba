//! Calls with a list of types and without one, of the static library and of the program made apart: each answer as the
//! word that the library gives.

use crate::answer::Answer;
use crate::any_case::AnyCase;
use crate::ask;
use crate::case::Case;
use crate::compare_texts::leave;
use crate::rigbanut;
use crate::text_answer::Written;
use crate::text_case::{Call, TextCase};
use crate::why_case::WhyCase;

/// The library's answer, in what is lent; the call with a list if the case has one.
pub fn library(case: &AnyCase, out: &mut [u8], work: &mut [u8]) -> u64 {
    match case {
        AnyCase::Compile(case) => compile(case, out, work),
        AnyCase::Text(case) => text(case, out, work),
        AnyCase::Why(case) => why(case, work),
    }
}

fn compile(case: &Case, out: &mut [u8], work: &mut [u8]) -> u64 {
    let answer = match &case.types {
        None => rigbanut::compile_into(&case.manifest, &case.device, case.limit, out, work),
        Some(types) => {
            rigbanut::compile_into_with_types(types, &case.manifest, &case.device, case.limit, out, work)
        }
    };
    match answer {
        rigbanut::Answer::Catalog { length, steps } => catalog(length, steps),
        rigbanut::Answer::Refused(refusal) => refused(refusal.number, refusal.place),
    }
}

fn text(case: &TextCase, out: &mut [u8], work: &mut [u8]) -> u64 {
    let written = match (case.call, &case.types) {
        (Call::Convert, None) => rigbanut::convert_into(&case.bytes, out, work),
        (Call::Print, None) => rigbanut::print_into(&case.bytes, out, work),
        (Call::Convert, Some(types)) => rigbanut::convert_into_with_types(types, &case.bytes, out, work),
        (Call::Print, Some(types)) => rigbanut::print_into_with_types(types, &case.bytes, out, work),
    };
    match written {
        rigbanut::Written::Bytes { length } => u64::from(length),
        rigbanut::Written::Refused(refusal) => refused(refusal.number, refusal.place),
    }
}

fn why(case: &WhyCase, work: &mut [u8]) -> u64 {
    let Some(types) = &case.types else {
        return ask::library(case, work);
    };
    let question = rigbanut::Question {
        kind: &case.kind,
        title: &case.title,
        attribute: &case.attribute,
        label: case.label,
    };
    match rigbanut::why_with_types(types, &case.manifest, &case.device, question, work) {
        Ok(rigbanut::Why::Among { part, place }) => u64::from(part.number()) << 16 | u64::from(place),
        Ok(rigbanut::Why::NotAmong) => 0,
        Err(refusal) => refused(refusal.number, refusal.place),
    }
}

/// The answer of the program made apart, in what is lent.
pub fn reference(case: &AnyCase, out: &mut [u8], work: &mut [u8]) -> u64 {
    match case {
        AnyCase::Compile(case) => match case.compile_into(out, work) {
            Answer::Catalog { length, steps } => catalog(length, steps),
            Answer::Refused { number, place } => refused(number, place),
        },
        AnyCase::Text(case) => {
            let written = case.answer();
            leave(&written, out, work);
            word_of(&written)
        }
        AnyCase::Why(case) => {
            work.fill(0);
            ask::word(&case.answer())
        }
    }
}

/// Accepted: the length. Refused: number * 2^32 + place.
fn word_of(written: &Written) -> u64 {
    match written {
        Ok(bytes) => bytes.len() as u64,
        Err(told) => refused(told.number, told.place),
    }
}

fn catalog(length: u16, steps: u16) -> u64 {
    u64::from(steps) << 16 | u64::from(length)
}

fn refused(number: u8, place: u16) -> u64 {
    u64::from(number) << 32 | u64::from(place)
}
