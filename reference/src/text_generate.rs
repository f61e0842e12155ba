//! Random cases for the converter and the printer.

use crate::generate::damaged;
use crate::random::Random;
use crate::text_answer::LONGEST;
use crate::text_case::{Call, TextCase};
use crate::text_limits::{near_limit, ordinary};
use crate::text_random::{join, manifest, some_spacing, Tokens};
use crate::text_trees::{long_text, printable, spoil};

/// The cases of a seed, each made by itself.
pub fn text_cases(seed: u64, count: u64) -> impl Iterator<Item = TextCase> {
    (0..count).map(move |at| case(&mut Random::new(seed, at)))
}

fn case(random: &mut Random) -> TextCase {
    let mut case = match random.weighted(&[65, 35]) {
        0 => TextCase::of(Call::Convert, any_text(random)),
        _ => TextCase::of(Call::Print, any_manifest(random)),
    };
    lend(random, &mut case);
    case
}

pub fn any_text(random: &mut Random) -> Vec<u8> {
    match random.weighted(&[35, 20, 20, 25]) {
        0 => ordinary(random),
        1 => disordered(random),
        2 => {
            let text = ordinary(random);
            damage_bytes(random, text)
        }
        _ => match random.chance(100) {
            false => near_limit(random),
            true => {
                let text = near_limit(random);
                damage_bytes(random, text)
            }
        },
    }
}

fn any_manifest(random: &mut Random) -> Vec<u8> {
    if random.chance(5) {
        return long_text(random).build().bytes;
    }
    let mut manifest = printable(random);
    match random.weighted(&[55, 30, 5, 10]) {
        0 => manifest.build().bytes,
        1 => {
            spoil(random, &mut manifest);
            manifest.build().bytes
        }
        2 => {
            for _ in 0..random.between(2, 4) {
                spoil(random, &mut manifest);
            }
            manifest.build().bytes
        }
        _ => damaged(random, manifest),
    }
}

/// Tokens that stand nowhere, or seldom, or are malformed, with spaces between
/// them.
const STRAY: &str = "\
    { } ( ) [ ] : , = == => + - / > ! ? and case class default define else false if include \
    inherits node or true $1 $if $ $: $:: $::a:: $::a::1 $::a::if $::if::a $a::x $::a::x::y $A 007 \
    12a 12A 1_ fooBar A _x != >= < ==> === ; @ \" ' '\\x' 'a\\ a::b \u{e9} 9223372036854775808 \
    -9223372036854775809";

/// Tokens in an order that is not the grammar's: two swapped, one doubled, left
/// out, put in or replaced.
fn disordered(random: &mut Random) -> Vec<u8> {
    let count = random.between(1, 4);
    let mut tokens = manifest(random, count);
    for _ in 0..random.weighted(&[0, 5, 1]) {
        disorder(random, &mut tokens);
    }
    let spacing = some_spacing(random);
    join(random, &tokens, spacing)
}

fn disorder(random: &mut Random, tokens: &mut Tokens) {
    if tokens.is_empty() {
        return;
    }
    let one = random.below(tokens.len());
    let other = match random.chance(600) {
        true => (one + 1).min(tokens.len() - 1),
        false => random.below(tokens.len()),
    };
    let strays: Vec<&str> = STRAY.split(' ').collect();
    let stray = random.pick(&strays).as_bytes().to_vec();
    match random.below(6) {
        0 => tokens.swap(one, other),
        1 => tokens.insert(one, tokens[one].clone()),
        2 => {
            tokens.remove(one);
        }
        3 => tokens.insert(one, stray),
        4 => tokens[one] = stray,
        _ => tokens[one] = tokens[other].clone(),
    }
}

/// A byte changed, dropped or doubled, or the text cut off.
fn damage_bytes(random: &mut Random, mut text: Vec<u8>) -> Vec<u8> {
    for _ in 0..random.weighted(&[0, 5, 1]) {
        if text.is_empty() {
            break;
        }
        let at = random.below(text.len());
        match random.below(7) {
            0 => text[at] = random.below(256) as u8,
            1 => text[at] = random.pick(b"{}()[]:,=+-/>!?$#'\"\\\n a0_A"),
            2 => {
                text.remove(at);
            }
            3 => text.insert(at, text[at]),
            4 => text.truncate(at),
            5 => text.insert(at, random.pick(b"{}()[]:,=+-/>!?$#'\"\\\n a0_A")),
            _ => {
                let other = random.below(text.len());
                text.swap(at, other);
            }
        }
    }
    text
}

/// Sometimes as much output as the case needs, or one byte less; sometimes a
/// memory at its limit.
pub fn lend(random: &mut Random, case: &mut TextCase) {
    match random.weighted(&[84, 10, 4, 2]) {
        0 => {}
        1 => {
            if let Ok(written) = case.answer() {
                case.output = written.len() + 1 - random.below(3).min(written.len() + 1);
            }
        }
        2 => case.output = random.pick(&[LONGEST + 1, LONGEST - 1, 70_000]),
        _ => case.output = random.below(200),
    }
    if random.chance(20) {
        case.memory = random.pick(&[65_535, 65_536, 65_537, 70_000, 1, 0]);
    }
}
