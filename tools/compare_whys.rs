//! Questions answered by the static library, beside the program made apart.

use crate::ask;
use crate::case::Case;
use crate::compile::LEAST_MEMORY;
use crate::hand_made::HAND_MADE;
use crate::hand_made_questions::HAND_MADE_QUESTIONS;
use crate::random::Random;
use crate::rooms::{lent, Rooms};
use crate::special;
use crate::tally::{Progress, Tally};
use crate::why::Why;
use crate::why_case::{why_line, Resource, WhyCase};
use crate::why_generate::why_cases;
use crate::why_named::WHY_NAMED;

const NUMBERS: [u8; 24] = [
    1, 2, 3, 4, 5, 6, 7, 8, 9, 10, 11, 12, 13, 14, 15, 16, 17, 18, 19, 20, 21, 22, 23, 27,
];

/// A compile of this named input takes seconds, and a question up to seventeen compiles.
const SLOWEST: &str = "time-expression";

/// What became of the questions so far.
struct Questions<'r> {
    rooms: &'r mut Rooms,
    tally: Tally,
    /// By the part's number; 0 counts those that are not among them.
    parts: [u64; 6],
}

/// The named and hand-made questions first, then one about each named input and hand-made case of a compile, then the
/// random ones of the seed; each with other lengths of memory too. Gives what is to be said of them.
pub fn compare_all(seed: u64, count: u64, rooms: &mut Rooms) -> Result<String, String> {
    let mut questions = Questions {
        rooms,
        tally: Tally::new("questions", &NUMBERS),
        parts: [0; 6],
    };
    for (name, make) in WHY_NAMED {
        eprintln!("compare: named question {name}");
        let told = |told: String| format!("named question {name}: {told}");
        questions.with_each_memory(&make().case()).map_err(told)?;
    }
    for (name, make) in HAND_MADE_QUESTIONS {
        eprintln!("compare: hand-made question {name}");
        let told = |told: String| format!("hand-made question {name}: {told}");
        questions.with_each_memory(&make()).map_err(told)?;
    }
    let compiled = special::all_named().chain(HAND_MADE);
    for (name, make) in compiled.filter(|(name, _)| *name != SLOWEST) {
        eprintln!("compare: a question about {name}");
        let told = |told: String| format!("a question about {name}: {told}");
        questions.with_each_memory(&about(make())).map_err(told)?;
    }
    let mut progress = Progress::new("questions", count);
    for (at, case) in (0..).zip(why_cases(seed, count)) {
        let told = |told: String| format!("question {at} of seed {seed}: {told}");
        questions.compare(&case).map_err(told)?;
        let other = other_memory(&mut Random::new(!seed, at));
        questions.compare(&with_memory(&case, other)).map_err(told)?;
        progress.tell(at + 1);
    }
    Ok(questions.summary())
}

/// A question about the last attribute of the catalog, and the first label of its set; or about any, where there is none.
fn about(compiled: Case) -> WhyCase {
    let mut case = WhyCase {
        types: compiled.types,
        device: compiled.device,
        kind: b"kiosk".to_vec(),
        title: b"front".to_vec(),
        attribute: b"price".to_vec(),
        label: 1,
        memory: LEAST_MEMORY,
        manifest: compiled.manifest,
    };
    let with_one = |resource: &Resource| !resource.attributes.is_empty();
    let Some(mut resource) = case.resources().into_iter().filter(with_one).last() else {
        return case;
    };
    if let Some((attribute, labels)) = resource.attributes.pop() {
        (case.kind, case.title, case.attribute) = (resource.kind, resource.title, attribute);
        case.label = labels.iter().next().unwrap_or(1);
    }
    case
}

fn with_memory(case: &WhyCase, memory: usize) -> WhyCase {
    WhyCase {
        memory,
        ..case.clone()
    }
}

/// Mostly longer than needed, sometimes too short.
fn other_memory(random: &mut Random) -> usize {
    match random.weighted(&[40, 20, 20, 10, 10]) {
        0 => 65_537,
        1 => 70_000,
        2 => 65_536 + random.below(70_000),
        3 => 65_535,
        _ => random.below(65_536),
    }
}

impl Questions<'_> {
    /// Enough memory, more than enough, and too little.
    fn with_each_memory(&mut self, case: &WhyCase) -> Result<(), String> {
        let lengths = [65_536, 65_537, 70_000, 65_535, 0];
        lengths
            .into_iter()
            .try_for_each(|memory| self.compare(&with_memory(case, memory)))
    }

    /// Both sides on one question. The memory must be zero after it, and what stands around it as before.
    fn compare(&mut self, case: &WhyCase) -> Result<(), String> {
        let lengths = [0, case.memory];
        self.rooms.dirty(lengths);
        let theirs = case.answer();
        lent(&mut self.rooms.theirs, lengths).1.fill(0);
        let ours = ask::library(case, lent(&mut self.rooms.ours, lengths).1);
        let told = |what: String| {
            format!(
                "{what}\nreference: {}, the word {}\nlibrary:   the word {ours}\n{}",
                why_line(&theirs),
                ask::word(&theirs),
                case.line()
            )
        };
        if ours != ask::word(&theirs) {
            return Err(told("the answers differ".to_string()));
        }
        if let Some(difference) = self.rooms.difference(lengths) {
            return Err(told(difference));
        }
        match theirs {
            Why::Among { part, .. } => self.answered(part as usize),
            Why::NotAmong => self.answered(0),
            Why::Refused(refusal) => self.tally.refuse(refusal.reason as u8),
        }
        Ok(())
    }

    fn answered(&mut self, part: usize) {
        self.tally.accept();
        self.parts[part] += 1;
    }

    fn summary(&self) -> String {
        let [not_among, parts @ ..] = self.parts;
        let parts: Vec<String> = (1..)
            .zip(parts)
            .map(|(part, times): (usize, u64)| format!("{part}: {times}"))
            .collect();
        format!(
            "{}\nof those accepted, by part {}; not among: {not_among}",
            self.tally.summary(),
            parts.join(", ")
        )
    }
}
