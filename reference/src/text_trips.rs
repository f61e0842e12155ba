//! There and back: what is printed and converted again is what it was.

use crate::case::to_hex;
use crate::random::Random;
use crate::reader::read;
use crate::text_case::TextCase;
use crate::text_limits::{near_limit, ordinary};
use crate::text_trees::printable;
use crate::walk::fields;

/// Compares so many random trees and texts. Gives how many of each went there
/// and back, or the line of the first case that did not.
pub fn compare(seed: u64, count: u64) -> Result<(u64, u64), String> {
    let (mut trees, mut texts) = (0, 0);
    for at in 0..count {
        let random = &mut Random::new(seed, at);
        match at % 2 {
            0 => trees += u64::from(tree_returns(printable(random).build().bytes)?),
            _ => texts += u64::from(text_returns(some_text(random))?),
        }
    }
    Ok((trees, texts))
}

fn some_text(random: &mut Random) -> Vec<u8> {
    match random.chance(800) {
        true => ordinary(random),
        false => near_limit(random),
    }
}

fn differs(case: &TextCase, how: &str) -> String {
    format!("{how}: {}", case.line())
}

/// "Converting that text gives a tree equal to the first, apart from unused
/// strings and the numbering that follows." False if the tree does not print.
fn tree_returns(manifest: Vec<u8>) -> Result<bool, String> {
    let case = TextCase::printing(manifest);
    let Ok(text) = case.answer() else {
        return Ok(false);
    };
    let again = TextCase::converting(text)
        .answer()
        .map_err(|refused| differs(&case, &format!("its text is refused, {refused:?}")))?;
    match spelled(&case.bytes) == spelled(&again) {
        true => Ok(true),
        false => Err(differs(&case, "another tree returns")),
    }
}

/// Printing what a text becomes and converting it again gives the same bytes,
/// for the table holds no string that is not used. False if the text does not
/// convert or its tree does not print.
fn text_returns(text: Vec<u8>) -> Result<bool, String> {
    let case = TextCase::converting(text);
    let Ok(manifest) = case.answer() else {
        return Ok(false);
    };
    let printed = match TextCase::printing(manifest.clone()).answer() {
        Ok(printed) => printed,
        // Only the length of its text can stand in the way.
        Err(refused) if refused.number == 26 && refused.place == 0 => return Ok(false),
        Err(refused) => return Err(differs(&case, &format!("its tree is refused, {refused:?}"))),
    };
    match TextCase::converting(printed).answer() {
        Ok(again) if again == manifest => Ok(true),
        other => {
            let got = other.map(|bytes| to_hex(&bytes));
            Err(differs(&case, &format!("another manifest returns, {got:?}")))
        }
    }
}

/// A field with its names replaced by their strings.
#[derive(Debug, PartialEq, Eq)]
pub struct Spelled {
    depth: usize,
    tag: u8,
    /// What its body holds besides names: a label, a number, an operator.
    bytes: Vec<u8>,
    names: Vec<Vec<u8>>,
}

/// The fields behind the string table, in order and each with its depth, so
/// that equal lists are equal trees.
pub fn spelled(manifest: &[u8]) -> Vec<Spelled> {
    let strings = read(manifest).map(|tree| tree.strings).unwrap_or_default();
    let string = |name: u16| strings.get(usize::from(name)).map(|string| string.to_vec());
    let spell = |met: &crate::walk::Met| {
        let names = met.names();
        Spelled {
            depth: met.depth,
            tag: met.tag,
            bytes: met.own[..met.own.len() - 2 * names.len()].to_vec(),
            names: names
                .into_iter()
                .map(|name| string(name).unwrap_or_default())
                .collect(),
        }
    };
    fields(manifest)
        .iter()
        .filter(|met| !matches!(met.tag, 0x01 | 0x02))
        .map(spell)
        .collect()
}
