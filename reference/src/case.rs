//! A case for a compile, its line in batch format, and its answer's line.

use crate::answer::{Answer, Refusal};
use crate::compile::{admit, compile_with_types, read};
use crate::machine::{self, Finished};
use crate::tree::Tree;
use crate::types::Types;
use crate::watch::Nobody;

/// What one compile is given.
#[derive(Clone, Debug, PartialEq, Eq)]
pub struct Case {
    /// The list of types, if one is lent.
    pub types: Option<Vec<u8>>,
    pub device: Vec<u8>,
    pub limit: u16,
    pub output: usize,
    pub memory: usize,
    pub manifest: Vec<u8>,
}

/// The steps and the catalog of a run, or its refusal.
pub type Outcome = Result<(u16, Vec<u8>), Refusal>;

/// Lengths above this in a line are taken for a mistake.
const LONGEST_LENT: usize = 1 << 26;

impl Case {
    /// A case with limit 65,535, output 65,535 and memory 65,536, for "desk".
    pub fn of(manifest: Vec<u8>) -> Case {
        Case {
            types: None,
            device: b"desk".to_vec(),
            limit: u16::MAX,
            output: 65_535,
            memory: 65_536,
            manifest,
        }
    }

    /// Device, limit, output length, memory length and manifest, separated by
    /// single spaces; the list before them.
    pub fn line(&self) -> String {
        let (list, device) = (list_word(&self.types), to_hex(&self.device));
        format!(
            "{list}{device} {} {} {} {}",
            self.limit,
            self.output,
            self.memory,
            to_hex(&self.manifest)
        )
    }

    pub fn from_line(line: &str) -> Result<Case, String> {
        let (types, line) = take_list(line)?;
        let parts: Vec<&str> = line.split(' ').collect();
        let [device, limit, output, memory, manifest] = parts[..] else {
            return Err(format!("a line has five parts, not {}", parts.len()));
        };
        Ok(Case {
            types,
            device: from_hex(device)?,
            limit: limit.parse().map_err(|_| format!("no limit: {limit}"))?,
            output: length(output)?,
            memory: length(memory)?,
            manifest: from_hex(manifest)?,
        })
    }

    /// Compiles into bytes that are dirty beforehand, and checks that they obey
    /// document 01 afterwards. Gives the answer and the catalog.
    pub fn compile(&self) -> Result<(Answer, Vec<u8>), String> {
        let mut out = vec![0xA5; self.output];
        let mut work = vec![0x5A; self.memory];
        let answer = self.compile_into(&mut out, &mut work);
        check_lent(&answer, &out, &work)?;
        if let Answer::Catalog { length, .. } = answer {
            out.truncate(usize::from(length));
        }
        Ok((answer, out))
    }

    /// Compiles into what is lent, whatever the lengths of this case.
    pub fn compile_into(&self, out: &mut [u8], work: &mut [u8]) -> Answer {
        let types = self.types.as_deref();
        compile_with_types(types, &self.manifest, &self.device, self.limit, out, work)
    }

    /// The built-in types and the tree, or a refusal before anything runs.
    pub fn read(&self) -> Result<(Types<'_>, Tree<'_>), Refusal> {
        let types = admit(self.types.as_deref(), self.memory)?;
        Ok((types, read(&self.manifest)?))
    }

    /// Runs a tree with what this case lends.
    pub fn run(&self, tree: &Tree, types: &Types) -> Outcome {
        self.outcome(|out| machine::run(tree, types, &self.device, self.limit, out, &Nobody))
    }

    /// What running gives with the output of this case.
    pub fn outcome(&self, run: impl FnOnce(&mut [u8]) -> Result<Finished, Refusal>) -> Outcome {
        let mut out = vec![0; self.output];
        let Finished { length, steps } = run(&mut out)?;
        out.truncate(usize::from(length));
        Ok((steps, out))
    }
}

/// "Bytes after the catalog are zero. The working memory is zero after every
/// call." After a refusal the output is zero throughout.
fn check_lent(answer: &Answer, out: &[u8], work: &[u8]) -> Result<(), String> {
    let length = match answer {
        Answer::Catalog { length, .. } => usize::from(*length),
        Answer::Refused { .. } => 0,
    };
    let Some(after) = out.get(length..) else {
        return Err("the catalog is longer than the output".to_string());
    };
    if after.iter().any(|byte| *byte != 0) {
        return Err("the output is not zero after the catalog".to_string());
    }
    if work.iter().any(|byte| *byte != 0) {
        return Err("the working memory is not zero".to_string());
    }
    Ok(())
}

/// `types LIST ` if a list is lent: what stands before a line of any sort.
pub fn list_word(types: &Option<Vec<u8>>) -> String {
    match types {
        Some(list) => format!("types {} ", to_hex(list)),
        None => String::new(),
    }
}

/// The list before a line of any sort, if there is one, and the rest of it. No
/// line without a list begins with this word.
pub fn take_list(line: &str) -> Result<(Option<Vec<u8>>, &str), String> {
    let Some(behind) = line.strip_prefix("types ") else {
        return Ok((None, line));
    };
    match behind.split_once(' ') {
        Some((list, rest)) => Ok((Some(from_hex(list)?), rest)),
        None => Err("no case behind the list".to_string()),
    }
}

/// `ok STEPS HEX` or `refused NUMBER PLACE`.
pub fn answer_line(answer: &Answer, catalog: &[u8]) -> String {
    match answer {
        Answer::Catalog { steps, .. } => format!("ok {steps} {}", to_hex(catalog)),
        Answer::Refused { number, place } => format!("refused {number} {place}"),
    }
}

pub fn length(text: &str) -> Result<usize, String> {
    match text.parse() {
        Ok(length) if length <= LONGEST_LENT => Ok(length),
        _ => Err(format!("no length: {text}")),
    }
}

/// Hexadecimal, '-' for no bytes.
pub fn to_hex(bytes: &[u8]) -> String {
    if bytes.is_empty() {
        return "-".to_string();
    }
    const DIGITS: [char; 16] = [
        '0', '1', '2', '3', '4', '5', '6', '7', '8', '9', 'a', 'b', 'c', 'd', 'e', 'f',
    ];
    let mut text = String::with_capacity(bytes.len() * 2);
    for byte in bytes {
        text.push(DIGITS[usize::from(byte >> 4)]);
        text.push(DIGITS[usize::from(byte & 15)]);
    }
    text
}

pub fn from_hex(text: &str) -> Result<Vec<u8>, String> {
    if text == "-" {
        return Ok(Vec::new());
    }
    let digits = text.as_bytes();
    if digits.is_empty() || digits.len() % 2 != 0 {
        return Err("hexadecimal needs pairs of digits".to_string());
    }
    digits
        .chunks_exact(2)
        .map(|pair| Ok(digit(pair[0])? << 4 | digit(pair[1])?))
        .collect()
}

fn digit(byte: u8) -> Result<u8, String> {
    match char::from(byte).to_digit(16) {
        Some(digit) => Ok(digit as u8),
        None => Err(format!("no hexadecimal digit: {:?}", char::from(byte))),
    }
}
