//! Random lists of types for a manifest or a text: good ones, made of words
//! that matter to it.

use crate::random::Random;
use crate::types::{list_of, EIGHT, MOST_NAMES};
use crate::types_words::{any_word, can_be_listed, near, one_of_eight, Used, Word, Words};

/// A good list: mostly one that fits, so that what is said of the manifest's
/// types is true.
pub fn good_list(random: &mut Random, used: &Used) -> Vec<u8> {
    list_of(&rising(good_names(random, used)))
}

/// The bytes of a list need its names in order.
pub fn rising(names: Words) -> Vec<Word> {
    names.into_iter().collect()
}

fn good_names(random: &mut Random, used: &Used) -> Words {
    match random.weighted(&[36, 6, 18, 14, 8, 18]) {
        0 => {
            let count = random.weighted(&[2, 2, 1, 1, 1]);
            fitting(random, used, count)
        }
        1 => EIGHT.iter().map(|name| name.to_vec()).collect(),
        2 => beside(random, used),
        3 => one_name(random, used),
        4 => few(random, used),
        _ => {
            let mut names = fitting(random, used, 0);
            fill(random, &mut names, used, MOST_NAMES);
            names
        }
    }
}

/// The types of the 25s and so many words that the manifest uses otherwise than
/// as a defined type. Of a text, some of its resources' types.
pub fn fitting(random: &mut Random, used: &Used, more: usize) -> Words {
    let mut names = used.built_in.clone();
    if used.built_in.is_empty() {
        names.extend(used.resources.iter().filter(|_| random.chance(500)).cloned());
    }
    names.retain(|name| can_be_listed(name) && !used.defined.contains(name));
    while names.len() > MOST_NAMES {
        names.pop_last();
    }
    let most = (names.len() + more).clamp(1, MOST_NAMES);
    fill(random, &mut names, used, most);
    names
}

/// Adds names that the manifest does not define until there are so many.
pub fn fill(random: &mut Random, names: &mut Words, used: &Used, count: usize) {
    let pool = used.pool();
    let is_free = |word: &Word| !used.defined.contains(word) && !used.resources.contains(word);
    // Most words of the pool are there at last; then other words make it up.
    while names.len() < count {
        let word = match random.below(4) {
            0 => random.pick(&pool),
            1 => {
                let word = random.pick(&pool);
                near(random, &word)
            }
            _ => any_word(random),
        };
        if is_free(&word) {
            names.insert(word);
        }
    }
}

/// A fitting list but for one name: left out, replaced by one near it, or one
/// that is defined besides.
fn beside(random: &mut Random, used: &Used) -> Words {
    let count = random.below(4);
    let mut names = fitting(random, used, count);
    let listed = rising(names.clone());
    let word = random.pick(&listed);
    match random.below(5) {
        0 => {
            names.remove(&word);
        }
        1 | 2 => {
            names.remove(&word);
            names.insert(near(random, &word));
        }
        _ => {
            let taken = used.defined.iter().chain(&used.resources);
            let taken: Vec<&Word> = taken.filter(|word| can_be_listed(word)).collect();
            names.insert(match taken.is_empty() {
                true => near(random, &word),
                false => random.pick(&taken).clone(),
            });
        }
    }
    while names.len() > MOST_NAMES || names.is_empty() {
        names.pop_first();
        names.insert(one_of_eight(random));
    }
    names
}

/// Mostly the type of a 25.
fn one_name(random: &mut Random, used: &Used) -> Words {
    let fits: Vec<Word> = rising(fitting(random, used, 0));
    let word = match random.below(5) {
        0 => random.pick(&used.pool()),
        1 => near(random, &fits[0]),
        _ => random.pick(&fits),
    };
    Words::from([word])
}

/// Any words, whatever they are used for.
fn few(random: &mut Random, used: &Used) -> Words {
    let pool = used.pool();
    (0..random.between(1, 6))
        .map(|_| match random.below(3) {
            0 => {
                let word = random.pick(&pool);
                near(random, &word)
            }
            _ => random.pick(&pool),
        })
        .collect()
}
