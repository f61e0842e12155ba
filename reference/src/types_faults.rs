//! Random lists of types that break a rule: each rule, at the first, a middle
//! and the last field.

use crate::random::Random;
use crate::types::{names_of, Fault, MOST_LETTERS, MOST_NAMES, NAME_TAG};
use crate::types_words::{any_word, near, Word, Words};

/// A field of a list, sound or not.
#[derive(Clone)]
struct Name {
    tag: u8,
    length: usize,
    letters: Word,
}

impl Name {
    fn new(letters: Word) -> Name {
        Name {
            tag: NAME_TAG,
            length: letters.len(),
            letters,
        }
    }

    /// The same with other letters, its length the true one.
    fn spelled(&mut self, letters: Word) {
        self.length = letters.len();
        self.letters = letters;
    }
}

/// A list made of a sound one's names that breaks a rule, sometimes two.
pub fn faulty_list(random: &mut Random, names: &[Word]) -> Vec<u8> {
    let fault = random.pick(&Fault::ALL);
    for _ in 0..10 {
        let list = match random.chance(250) {
            true => with_two_faults(random, fault, names),
            false => with_fault(random, fault, names),
        };
        if names_of(&list).is_err() {
            return list;
        }
    }
    Vec::new()
}

fn with_two_faults(random: &mut Random, fault: Fault, names: &[Word]) -> Vec<u8> {
    let first = with_fault(random, fault, names);
    let second = random.pick(&Fault::ALL);
    match (names_of(&first), second) {
        // What stands behind the fault is spoiled as well.
        (Err(faulty), _) if random.chance(300) => {
            let at = usize::from(faulty.place);
            let behind = with_fault(random, second, names);
            [&first[..first.len().min(at + 4)], &behind].concat()
        }
        (_, Fault::CutShort | Fault::PastEnd) => cut(random, first),
        _ => {
            let more: Vec<Word> = names.iter().map(|name| near(random, name)).collect();
            [first, with_fault(random, second, &more)].concat()
        }
    }
}

/// The list without its last byte or two.
fn cut(random: &mut Random, mut list: Vec<u8>) -> Vec<u8> {
    list.truncate(list.len().saturating_sub(random.between(1, 2)));
    list
}

/// A list with that fault at one of its fields.
fn with_fault(random: &mut Random, fault: Fault, names: &[Word]) -> Vec<u8> {
    let mut fields: Vec<Name> = names.iter().cloned().map(Name::new).collect();
    let at = match random.below(4) {
        0 => 0,
        1 | 2 => fields.len() - 1,
        _ => random.below(fields.len()),
    };
    match fault {
        Fault::Empty => fields.clear(),
        Fault::CutShort => return cut_short(random, &fields[..at]),
        Fault::OtherTag => return other_tag(random, fields, at),
        Fault::PastEnd => return past_end(random, fields, at),
        Fault::NoLetter => fields[at].spelled(Word::new()),
        Fault::TooLong => {
            let length = random.pick(&[33, 33, 33, 34, 64, 255, 256, 288]);
            let mut letters = fields[at].letters.clone();
            letters.resize(length, random.pick(b"amz"));
            fields[at].spelled(letters);
        }
        Fault::OtherByte => other_byte(random, &mut fields[at]),
        Fault::NotRising => not_rising(random, &mut fields, at),
        Fault::TooMany => fields = too_many(random, names),
    }
    bytes_of(&fields)
}

fn bytes_of(fields: &[Name]) -> Vec<u8> {
    let mut list = Vec::new();
    for field in fields {
        list.push(field.tag);
        list.extend_from_slice(&(field.length as u16).to_be_bytes());
        list.extend_from_slice(&field.letters);
    }
    list
}

/// One or two bytes where a field could begin.
fn cut_short(random: &mut Random, before: &[Name]) -> Vec<u8> {
    let left: &[u8] = random.pick(&[&[2][..], &[2, 0], &[2, 1], &[0], &[0, 0], &[1], &[b'a', b'b']]);
    [bytes_of(before), left.to_vec()].concat()
}

/// Another tag, or the list as it would stand in a string table.
fn other_tag(random: &mut Random, mut fields: Vec<Name>, at: usize) -> Vec<u8> {
    if random.chance(250) {
        let list = bytes_of(&fields);
        let length = (list.len() as u16).to_be_bytes();
        return [&[0x01], &length[..], &list].concat();
    }
    fields[at].tag = random.pick(&[
        0x00, 0x01, 0x03, 0x11, 0x12, 0x20, 0x25, 0x31, 0x32, 0x82, b'a', 0xFF,
    ]);
    bytes_of(&fields)
}

/// A length that is too large by one or by much, or a list that ends too early.
fn past_end(random: &mut Random, mut fields: Vec<Name>, at: usize) -> Vec<u8> {
    if random.chance(500) {
        fields.truncate(at + 1);
        let letters = &mut fields[at].letters;
        letters.truncate(letters.len().saturating_sub(random.between(1, 2)));
        return bytes_of(&fields);
    }
    let behind = bytes_of(&fields[at..]).len() - 3;
    fields[at].length = random.pick(&[behind + 1, behind + 2, behind + 256, 65_535]);
    bytes_of(&fields)
}

/// A byte beside a to z, another that is no letter, or letters of another case.
fn other_byte(random: &mut Random, field: &mut Name) {
    const OTHERS: &[u8] = b"`{AZK09_-. :\x00\x02\x1B\x7F\x80\xC3\xE1\xFA\xFF";
    let mut letters = field.letters.clone();
    match random.below(4) {
        0 => letters.make_ascii_uppercase(),
        1 if letters.len() < MOST_LETTERS => letters.push(random.pick(OTHERS)),
        _ => {
            let at = random.below(letters.len());
            letters[at] = random.pick(OTHERS);
        }
    }
    field.spelled(letters);
}

/// Equal neighbours, falling ones, or a prefix behind its extension.
fn not_rising(random: &mut Random, fields: &mut Vec<Name>, at: usize) {
    match random.below(3) {
        0 => fields.insert(at, fields[at].clone()),
        1 if fields.len() > 1 => fields.swap(at, at.checked_sub(1).unwrap_or(1)),
        _ => {
            let mut prefix = fields[at].letters.clone();
            prefix.pop();
            if prefix.is_empty() {
                prefix.push(b'a');
            }
            fields.insert(at + 1, Name::new(prefix));
        }
    }
}

/// 65 names or a few more, rising.
fn too_many(random: &mut Random, names: &[Word]) -> Vec<Name> {
    let mut many: Words = names.iter().cloned().collect();
    let count = MOST_NAMES + random.pick(&[1, 1, 1, 2, 6]);
    while many.len() < count {
        many.insert(any_word(random));
    }
    many.into_iter().map(Name::new).collect()
}
