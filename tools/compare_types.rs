//! Calls with a list of types by the static library, beside the program made apart.

use crate::any_case::AnyCase;
use crate::compare_texts::other_lengths;
use crate::random::Random;
use crate::rooms::{lent, Rooms};
use crate::tally::{Progress, Tally};
use crate::text_case::{Call, TextCase};
use crate::text_trips::spelled;
use crate::types::list_of_eight;
use crate::types_calls::{library, reference};
use crate::types_generate::types_cases;
use crate::types_named::all_types_named;

const OF_COMPILES: [u8; 24] = [
    1, 2, 3, 4, 5, 6, 7, 8, 9, 10, 11, 12, 13, 14, 15, 16, 17, 18, 19, 20, 21, 22, 23, 28,
];
const OF_QUESTIONS: [u8; 25] = [
    1, 2, 3, 4, 5, 6, 7, 8, 9, 10, 11, 12, 13, 14, 15, 16, 17, 18, 19, 20, 21, 22, 23, 27, 28,
];

/// What is compared, and what became of it so far.
struct Listed<'r> {
    seed: u64,
    rooms: &'r mut Rooms,
    /// How many cases were compared, whatever the lengths.
    cases: u64,
    /// By call: compile, convert, print, why.
    tallies: [Tally; 4],
}

/// The named cases first, then the random ones of the seed, each with another pair of lengths too. What is converted or
/// printed is sent back, and with the eight as a list each must be as it is without one.
pub fn compare_all(seed: u64, count: u64, rooms: &mut Rooms) -> Result<[Tally; 4], String> {
    let mut listed = Listed {
        seed,
        rooms,
        cases: 0,
        tallies: [
            Tally::new("compiles with a list", &OF_COMPILES),
            Tally::new("converts with a list", &[1, 24, 25, 28]),
            Tally::new("prints with a list", &[1, 2, 3, 4, 5, 26, 28]),
            Tally::new("questions with a list", &OF_QUESTIONS),
        ],
    };
    eprintln!("compare: named cases with a list");
    for (name, make) in all_types_named() {
        let told = |told: String| format!("named case {name}: {told}");
        listed.all_ways(&make()).map_err(told)?;
    }
    let mut progress = Progress::new("cases with a list", count);
    for (at, case) in (0..).zip(types_cases(seed, count)) {
        let told = |told: String| format!("case {at} of seed {seed} with a list: {told}");
        listed.all_ways(&case).map_err(told)?;
        progress.tell(at + 1);
    }
    Ok(listed.tallies)
}

impl Listed<'_> {
    /// One case, with another pair of lengths too, there and back, and with the eight as its list.
    fn all_ways(&mut self, case: &AnyCase) -> Result<(), String> {
        let word = self.compare(case)?;
        let needed = match is_refused(word) {
            true => case.lengths()[0],
            false => (word & 0xFFFF) as usize,
        };
        let mut random = Random::new(!self.seed, self.cases);
        self.cases += 1;
        let otherwise = case.with_lengths(other_lengths(&mut random, needed));
        self.compare(&otherwise)?;
        self.compare_eight(case)?;
        match case {
            AnyCase::Text(case) => self.send_back(case),
            _ => Ok(()),
        }
    }

    /// Both sides on one case. Gives the word that they answered, or what differs.
    fn compare(&mut self, case: &AnyCase) -> Result<u64, String> {
        let lengths = case.lengths();
        self.rooms.dirty(lengths);
        let (out, work) = lent(&mut self.rooms.theirs, lengths);
        let theirs = reference(case, out, work);
        let (out, work) = lent(&mut self.rooms.ours, lengths);
        let ours = library(case, out, work);
        self.agree(case, ["reference", "library"], [theirs, ours])?;
        let tally = &mut self.tallies[match case.call() {
            "compile" => 0,
            "convert" => 1,
            "print" => 2,
            _ => 3,
        }];
        match is_refused(theirs) {
            true => tally.refuse((theirs >> 32) as u8),
            false => tally.accept(),
        }
        Ok(theirs)
    }

    /// "Not lending a list is another call and means the eight": by the library, with the eight as a list and without one.
    fn compare_eight(&mut self, case: &AnyCase) -> Result<(), String> {
        let lengths = case.lengths();
        self.rooms.dirty(lengths);
        let listed = case.with_types(Some(list_of_eight()));
        let (out, work) = lent(&mut self.rooms.theirs, lengths);
        let with_list = library(&listed, out, work);
        let (out, work) = lent(&mut self.rooms.ours, lengths);
        let without = library(&case.with_types(None), out, work);
        self.agree(
            &listed,
            ["with the eight", "without a list"],
            [with_list, without],
        )
    }

    /// Whether two sides gave one word and left the same bytes.
    fn agree(&self, case: &AnyCase, sides: [&str; 2], words: [u64; 2]) -> Result<(), String> {
        let told = |what: String| {
            let [one, other] = sides;
            let [first, second] = words.map(in_words);
            Err(format!(
                "{what}\n{one}: {first}\n{other}: {second}\n{}",
                case.line()
            ))
        };
        if words[0] != words[1] {
            return told("the answers differ".to_string());
        }
        match self.rooms.difference(case.lengths()) {
            Some(difference) => told(difference),
            None => Ok(()),
        }
    }

    /// A text that was printed is converted with the same list, and a manifest that was converted is printed with it.
    fn send_back(&mut self, case: &TextCase) -> Result<(), String> {
        let Ok(written) = case.answer() else {
            return Ok(());
        };
        let call = match case.call {
            Call::Convert => Call::Print,
            Call::Print => Call::Convert,
        };
        let back = TextCase {
            types: case.types.clone(),
            ..TextCase::of(call, written)
        };
        self.compare(&AnyCase::Text(back.clone()))?;
        let returned = back.answer();
        match (case.call, returned) {
            (Call::Print, Ok(again)) if spelled(&again) == spelled(&case.bytes) => Ok(()),
            (Call::Print, _) => Err(format!("its text gives another tree\n{}", case.line())),
            (Call::Convert, Ok(_)) => Ok(()),
            // Only the length of the text can stand in the way.
            (Call::Convert, Err(refused)) if (refused.number, refused.place) == (26, 0) => Ok(()),
            (Call::Convert, Err(_)) => Err(format!("its manifest is not printed\n{}", case.line())),
        }
    }
}

fn is_refused(word: u64) -> bool {
    word >> 32 != 0
}

fn in_words(word: u64) -> String {
    match is_refused(word) {
        true => format!("refused {} {}", word >> 32, word & 0xFFFF_FFFF),
        false => format!("accepted, the word {word}"),
    }
}
