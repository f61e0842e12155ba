//! Converting and printing by the static library, beside the program made apart; and both by turns, there and back.

use crate::hand_made_texts;
use crate::random::Random;
use crate::rigbanut::{self, Refusal};
use crate::rooms::{lent, Rooms};
use crate::tally::{Progress, Tally};
use crate::text_answer::Written;
use crate::text_case::{Call, TextCase};
use crate::text_generate::text_cases;
use crate::text_named::TEXT_NAMED;
use crate::text_trips::spelled;

/// What is compared, and what became of it so far.
struct Texts<'r> {
    seed: u64,
    rooms: &'r mut Rooms,
    /// How many cases were compared, whatever the lengths.
    cases: u64,
    converts: Tally,
    prints: Tally,
    /// How many texts or trees went there and back.
    trips: u64,
}

/// The named inputs and the hand-made cases first, then the random ones of the seed, each with another pair of lengths
/// too. What is accepted is sent back.
pub fn compare_all(seed: u64, count: u64, rooms: &mut Rooms) -> Result<[Tally; 2], String> {
    let mut texts = Texts {
        seed,
        rooms,
        cases: 0,
        converts: Tally::new("converts", &[1, 24, 25]),
        prints: Tally::new("prints", &[1, 2, 3, 4, 5, 26]),
        trips: 0,
    };
    for (name, make) in TEXT_NAMED {
        eprintln!("compare: named text {name}");
        texts
            .all_ways(&make())
            .map_err(|told| format!("named text {name}: {told}"))?;
    }
    eprintln!("compare: hand-made texts");
    for group in hand_made_texts::groups() {
        for case in &group.cases {
            texts
                .all_ways(case)
                .map_err(|told| format!("hand-made text, {}: {told}", group.name))?;
        }
    }
    let mut progress = Progress::new("texts", count);
    for (at, case) in (0..).zip(text_cases(seed, count)) {
        texts
            .all_ways(&case)
            .map_err(|told| format!("text {at} of seed {seed}: {told}"))?;
        progress.tell(at + 1);
    }
    eprintln!("compare: {} texts and trees there and back", texts.trips);
    Ok([texts.converts, texts.prints])
}

impl Texts<'_> {
    /// One case, with another pair of lengths too, and there and back.
    fn all_ways(&mut self, case: &TextCase) -> Result<(), String> {
        let written = self.compare(case)?;
        let mut random = Random::new(!self.seed, self.cases);
        let _ = self.compare(&lend_otherwise(&mut random, case, &written))?;
        self.cases += 1;
        match written {
            Ok(bytes) => self.send_back(case, bytes),
            Err(_) => Ok(()),
        }
    }

    /// Both sides on one case. Gives what they answered, or what differs.
    fn compare(&mut self, case: &TextCase) -> Result<Written, String> {
        let lengths = [case.output, case.memory];
        self.rooms.dirty(lengths);
        let theirs = case.answer();
        let (out, work) = lent(&mut self.rooms.theirs, lengths);
        leave(&theirs, out, work);
        let (out, work) = lent(&mut self.rooms.ours, lengths);
        let ours = match case.call {
            Call::Convert => rigbanut::convert_into(&case.bytes, out, work),
            Call::Print => rigbanut::print_into(&case.bytes, out, work),
        };
        let their_words = in_the_same_words(&theirs);
        let told = |what: String| {
            format!(
                "{what}\nreference: {their_words:?}\nlibrary:   {ours:?}\n{}",
                case.line()
            )
        };
        if ours != their_words {
            return Err(told("the answers differ".to_string()));
        }
        if let Some(difference) = self.rooms.difference(lengths) {
            return Err(told(difference));
        }
        let tally = match case.call {
            Call::Convert => &mut self.converts,
            Call::Print => &mut self.prints,
        };
        match &theirs {
            Ok(_) => tally.accept(),
            Err(refused) => tally.refuse(refused.number),
        }
        Ok(theirs)
    }

    /// A text that was printed is converted, and a manifest that was converted is printed and its text converted.
    fn send_back(&mut self, case: &TextCase, written: Vec<u8>) -> Result<(), String> {
        let told = |what: &str| Err(format!("{what}\n{}", case.line()));
        match case.call {
            Call::Print => match self.compare(&TextCase::converting(written))? {
                Ok(again) if spelled(&again) == spelled(&case.bytes) => {}
                Ok(_) => return told("its text gives another tree"),
                Err(_) => return told("its text is refused"),
            },
            Call::Convert => match self.compare(&TextCase::printing(written.clone()))? {
                Ok(text) => match self.compare(&TextCase::converting(text))? {
                    Ok(again) if again == written => {}
                    Ok(_) => return told("the text of its manifest gives another manifest"),
                    Err(_) => return told("the text of its manifest is refused"),
                },
                // Only the length of the text can stand in the way.
                Err(refused) if (refused.number, refused.place) == (26, 0) => return Ok(()),
                Err(_) => return told("its manifest is not printed"),
            },
        }
        self.trips += 1;
        Ok(())
    }
}

/// What a call leaves: what it wrote and zeros, or zeros; the memory zero.
pub fn leave(written: &Written, out: &mut [u8], work: &mut [u8]) {
    out.fill(0);
    work.fill(0);
    if let Ok(bytes) = written {
        out[..bytes.len()].copy_from_slice(bytes);
    }
}

fn in_the_same_words(written: &Written) -> rigbanut::Written {
    match written {
        Ok(bytes) => rigbanut::Written::Bytes {
            length: bytes.len() as u32,
        },
        Err(refused) => rigbanut::Written::Refused(Refusal {
            number: refused.number,
            place: refused.place,
        }),
    }
}

/// The same text or manifest with other lengths of output and memory: often just as much output as is needed, or one byte
/// less.
fn lend_otherwise(random: &mut Random, case: &TextCase, written: &Written) -> TextCase {
    let needed = written.as_ref().map_or(case.output, |bytes| bytes.len());
    let [output, memory] = other_lengths(random, needed);
    TextCase {
        output,
        memory,
        ..case.clone()
    }
}

/// Lengths of output and memory for a case that needs so much output.
pub fn other_lengths(random: &mut Random, needed: usize) -> [usize; 2] {
    let output = match random.below(8) {
        0 => 0,
        1 => random.below(100),
        2 => random.below(3000),
        3 => needed,
        4 => needed.saturating_sub(1),
        5 => needed + 1,
        6 => 65_535,
        _ => 70_000,
    };
    let memory = match random.weighted(&[80, 5, 5, 5, 5]) {
        0 => 65_536,
        1 => 65_537,
        2 => 70_000,
        3 => 65_535,
        _ => random.below(65_536),
    };
    [output, memory]
}
