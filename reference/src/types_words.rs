//! The words that matter to a list of types: those that a manifest or a text
//! uses as types, and words near them.

use crate::lexer::{Lexer, Token};
use crate::random::Random;
use crate::types::{list_of, names_of, EIGHT, MOST_LETTERS};
use crate::walk;
use std::collections::BTreeSet;

pub type Word = Vec<u8>;
pub type Words = BTreeSet<Word>;

/// The words of one manifest or text, by what they are used for.
#[derive(Default)]
pub struct Used {
    /// Types of 25s.
    pub built_in: Words,
    /// Types of 27s; of a text, those of all its resources.
    pub resources: Words,
    /// Types of 18s.
    pub read: Words,
    /// Names of 32s and 34s.
    pub defined: Words,
    /// The other strings of the table, the other names of the text.
    pub others: Words,
}

impl Used {
    /// Of a manifest, as far as its fields can be walked.
    pub fn by_manifest(manifest: &[u8]) -> Used {
        let fields = walk::fields(manifest);
        let strings: Vec<&[u8]> = fields
            .iter()
            .filter(|field| field.tag == 0x02)
            .map(|field| field.own)
            .collect();
        let mut used = Used::default();
        for field in &fields {
            let first = field.names().first().map(|name| usize::from(*name));
            let Some(word) = first.and_then(|name| strings.get(name)) else {
                continue;
            };
            match field.tag {
                0x25 => used.built_in.insert(word.to_vec()),
                0x27 => used.resources.insert(word.to_vec()),
                0x18 => used.read.insert(word.to_vec()),
                0x32 | 0x34 => used.defined.insert(word.to_vec()),
                _ => false,
            };
        }
        used.others = strings.iter().map(|string| string.to_vec()).collect();
        used
    }

    /// Of a text, as far as its tokens can be read.
    pub fn by_text(text: &[u8]) -> Used {
        let mut tokens = Vec::new();
        let mut lexer = Lexer::new(text);
        while let Ok(lexeme) = lexer.next() {
            let is_last = lexeme.token == Token::End;
            tokens.push(lexeme.token);
            if is_last {
                break;
            }
        }
        let mut used = Used::default();
        for at in 0..tokens.len() {
            let Token::Name(name) = tokens[at] else { continue };
            let before = at.checked_sub(1).map(|at| &tokens[at]);
            match (before, tokens.get(at + 1)) {
                (Some(Token::Keyword("define" | "class")), _) => used.defined.insert(name.to_vec()),
                (_, Some(Token::Sign("{"))) => used.resources.insert(name.to_vec()),
                (_, Some(Token::Sign("["))) => used.read.insert(name.to_vec()),
                _ => used.others.insert(name.to_vec()),
            };
        }
        used
    }

    /// Every word that a list could hold, those used as types several times so
    /// that they are picked more often.
    pub fn pool(&self) -> Vec<Word> {
        let as_types = [&self.built_in, &self.resources, &self.read, &self.defined];
        let often = as_types.into_iter().flatten();
        let mut pool: Vec<Word> = EIGHT.iter().map(|name| name.to_vec()).collect();
        pool.extend(often.clone().cloned());
        pool.extend(often.cloned());
        pool.extend(self.others.iter().cloned());
        pool.retain(|word| can_be_listed(word));
        pool
    }
}

/// Whether a list may hold the word.
pub fn can_be_listed(word: &[u8]) -> bool {
    names_of(&list_of(&[word])).is_ok()
}

/// A word that a list may hold and that is near this one: a proper prefix, an
/// extension, or another last letter.
pub fn near(random: &mut Random, word: &[u8]) -> Word {
    let letter = random.pick(b"aesz");
    let mut other = word.to_vec();
    match random.below(6) {
        0 | 1 => {
            other.pop();
        }
        2 | 3 => other.push(letter),
        4 => {
            other.pop();
            other.push(letter);
        }
        _ => other.resize(MOST_LETTERS, letter),
    }
    match can_be_listed(&other) && other != word {
        true => other,
        false => any_word(random),
    }
}

/// A word that a list may hold, now and then one of one letter or of thirty-two.
pub fn any_word(random: &mut Random) -> Word {
    // Keywords of the notation are letters too, and so is "title".
    const PLAIN: [&str; 12] = [
        "locker",
        "counter",
        "till",
        "door",
        "panel",
        "turnstile",
        "a",
        "z",
        "if",
        "class",
        "node",
        "title",
    ];
    if random.chance(400) {
        return random.pick(&PLAIN).into();
    }
    let length = match random.below(20) {
        0 | 1 => 1,
        2 => MOST_LETTERS,
        3 => MOST_LETTERS - 1,
        _ => random.between(2, 7),
    };
    (0..length).map(|_| b'a' + random.below(26) as u8).collect()
}

/// One of the eight.
pub fn one_of_eight(random: &mut Random) -> Word {
    random.pick(&EIGHT).to_vec()
}
