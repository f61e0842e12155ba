//! The program made apart: device catalogs from a manifest, with label sets.
//!
//! It implements the scope paper (document 01), what is asked first in document
//! 02 (default goes last, manifests as people write them, why a line counts,
//! definitions anywhere, our own type list) and our readings of both, and shares
//! nothing with the compiler it is compared with. Plain Rust, edition 2021, the
//! standard library only.
//!
//! Building, either way:
//!
//! ```text
//! cargo build --release --offline                      # target/release/reference
//! rustc -O --edition 2021 -o reference src/main.rs     # in this folder
//! ```
//!
//! Testing, either way:
//!
//! ```text
//! cargo test --offline
//! rustc -O --edition 2021 --test -o reference-tests src/main.rs && ./reference-tests
//! ```
//!
//! Running, by the first argument:
//!
//! ```text
//! reference schedule < input        device, line feed, manifest in; the schedule out
//! reference batch < cases           a case to a line in; an answer to a line out
//! reference default-last < cases    those whose answer rests on a default being tried last
//! reference used-early < cases      those whose answer rests on definitions counting anywhere
//! reference generate SEED COUNT     random cases in batch format
//! reference histogram SEED COUNT    how often each outcome occurs among them
//! reference time SEED COUNT         nanoseconds per compile of them
//! reference named NAME              a special input in batch format
//! reference named --list            the names of the special inputs
//! reference time-named [NAME]       nanoseconds for one compile of a special input, or of each
//!
//! reference convert < text          the manifest of a text
//! reference print < manifest        the text of a manifest
//! reference text-batch < cases      a text case to a line in; an answer to a line out
//! reference text-generate SEED COUNT   random text cases
//! reference text-histogram SEED COUNT  how often each answer occurs among them, and why
//! reference round-trip SEED COUNT   random trees and texts, there and back
//! reference text-named NAME         a special text or manifest as a text case
//! reference text-named --list       the names of those
//! reference time-text [NAME]        nanoseconds for one convert or print of one, or of each
//!
//! reference why-batch < cases       a why case to a line in; an answer to a line out
//! reference why-generate SEED COUNT    random why cases
//! reference why-histogram SEED COUNT   how often each answer occurs among them, and when
//! reference why-named NAME          a special question as a why case
//! reference why-named --list        the names of those
//! reference time-why [NAME]         nanoseconds for one question of those, or of each
//!
//! reference types-batch < cases     a case of any sort with a list in; an answer to a line out
//! reference types-generate SEED COUNT  random cases of every sort, each with a list
//! reference types-histogram SEED COUNT how often each answer and reason occurs among them
//! reference types-named NAME        a special case with a list
//! reference types-named --list      the names of those
//! ```
//!
//! A case is a line of five parts with single spaces between them: device,
//! limit, output length, memory length, manifest. Byte strings are hexadecimal,
//! '-' for an empty one; numbers are decimal. Its answer is `ok STEPS HEX`,
//! where HEX is the catalog, or `refused NUMBER PLACE`.
//!
//! A text case is a line of four parts: `convert` or `print`, output length,
//! memory length, and the text or manifest. Its answer is `ok HEX`, where HEX
//! is what was written, or `refused NUMBER PLACE`. The calls `convert` and
//! `print` say `refused NUMBER at PLACE` on standard error and exit with 1.
//!
//! A why case is a line of eight parts: `why`, device, type, title, attribute,
//! label, memory length, manifest. Its answer is `among PART PLACE`, where PART
//! is 1 title expression, 2 path, 3 trail, 4 marks its expression read, 5 value;
//! `not among`; or `refused NUMBER PLACE`.
//!
//! A line of any sort may have `types LIST ` before it: the list of types that
//! is lent. Without it none is, which means the eight. Every `batch` takes such
//! lines of its sort.
//!
//! The modules, from the bottom: `answer` (answers, the 23 reasons, 27 and 28),
//! `types` (the built-in types and a lent list of them, refusal 28), `labels`,
//! `tree` (the fields once read), `reader` (refusals 3, 4 and 5), `definitions`
//! (those of the whole manifest, refusal 8), `catalog`, `watch` (who looks on),
//! `scopes`, `machine` (how a manifest runs), `compile` (the call), `schedule`
//! (the printer). For tests and random cases: `assemble` (manifests from nested
//! fields), `random`, `program`, `shapes`, `arrange` (where definitions stand),
//! `generate`, `special` and `named_definitions` (named inputs), `case` (batch
//! lines), `default_last` (which cases tell that a default is tried last),
//! `used_early` (which tell that definitions may stand anywhere), `modes` (what
//! the arguments ask for).
//!
//! The text notation: `text_answer` (answers, refusals 24 to 26), `lexer`
//! (tokens), `converter`, `walk` (a manifest's fields by offset), `printer`. For
//! tests and random cases: `text_random` (texts by the grammar), `text_limits`
//! (texts near limits), `text_trees` (manifests to print), `text_generate`,
//! `text_named` (named inputs), `text_trips` (there and back), `text_case`
//! (lines), `text_modes`.
//!
//! Questions: `why` (the call). For tests and random cases: `why_shapes`
//! (manifests to ask about), `why_generate`, `why_tally` (what the answers
//! show), `why_named`, `why_places`, `why_definitions`, `why_large` (named
//! questions: parts and refusals, places, definitions, large ones), `why_case`
//! (lines), `why_modes`.
//!
//! Random cases with a list of types: `any_case` (a case of any sort),
//! `types_words` (words that matter to a list), `types_lists` (good lists),
//! `types_faults` (faulty ones), `types_shapes` (manifests for lists),
//! `types_generate`, `types_tally` (what the answers show), `types_named` (named
//! cases), `types_modes`.

mod answer;
mod any_case;
mod arrange;
mod assemble;
mod case;
mod catalog;
mod compile;
mod converter;
mod default_last;
mod definitions;
mod generate;
mod labels;
mod lexer;
mod machine;
mod modes;
mod named_definitions;
mod printer;
mod program;
mod random;
mod reader;
mod schedule;
mod scopes;
mod shapes;
mod special;
mod text_answer;
mod text_case;
mod text_generate;
mod text_limits;
mod text_modes;
mod text_named;
mod text_random;
mod text_trees;
mod text_trips;
mod tree;
mod types;
mod types_faults;
mod types_generate;
mod types_lists;
mod types_modes;
mod types_named;
mod types_shapes;
mod types_tally;
mod types_words;
mod used_early;
mod walk;
mod watch;
mod why;
mod why_case;
mod why_definitions;
mod why_generate;
mod why_large;
mod why_modes;
mod why_named;
mod why_places;
mod why_shapes;
mod why_tally;

#[cfg(test)]
mod tests;

use std::process::ExitCode;

fn main() -> ExitCode {
    let arguments: Vec<String> = std::env::args().skip(1).collect();
    match modes::run(&arguments) {
        Ok(()) => ExitCode::SUCCESS,
        Err(message) => {
            eprintln!("reference: {message}");
            ExitCode::FAILURE
        }
    }
}
