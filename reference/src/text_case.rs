//! A case for the converter or the printer, its line, and its answer's line.

use crate::case::{from_hex, length, list_word, take_list, to_hex};
use crate::converter::convert_with_types;
use crate::printer::print_with_types;
use crate::text_answer::{Written, LONGEST};

/// Which of the two is called.
#[derive(Clone, Copy, Debug, PartialEq, Eq)]
pub enum Call {
    Convert,
    Print,
}

/// What one call is given.
#[derive(Clone, Debug, PartialEq, Eq)]
pub struct TextCase {
    /// The list of types, if one is lent.
    pub types: Option<Vec<u8>>,
    pub call: Call,
    pub output: usize,
    pub memory: usize,
    /// A text or a manifest.
    pub bytes: Vec<u8>,
}

impl TextCase {
    /// A case with as much output and memory as any call needs.
    pub fn of(call: Call, bytes: Vec<u8>) -> TextCase {
        TextCase {
            types: None,
            call,
            output: LONGEST,
            memory: 65_536,
            bytes,
        }
    }

    pub fn converting(text: impl Into<Vec<u8>>) -> TextCase {
        TextCase::of(Call::Convert, text.into())
    }

    pub fn printing(manifest: Vec<u8>) -> TextCase {
        TextCase::of(Call::Print, manifest)
    }

    /// Call, output length, memory length and bytes, separated by single
    /// spaces; the list before them.
    pub fn line(&self) -> String {
        let call = match self.call {
            Call::Convert => "convert",
            Call::Print => "print",
        };
        let (list, bytes) = (list_word(&self.types), to_hex(&self.bytes));
        format!("{list}{call} {} {} {bytes}", self.output, self.memory)
    }

    pub fn from_line(line: &str) -> Result<TextCase, String> {
        let (types, line) = take_list(line)?;
        let parts: Vec<&str> = line.split(' ').collect();
        let [call, output, memory, bytes] = parts[..] else {
            return Err(format!("a line has four parts, not {}", parts.len()));
        };
        Ok(TextCase {
            types,
            call: match call {
                "convert" => Call::Convert,
                "print" => Call::Print,
                _ => return Err(format!("no call: {call}")),
            },
            output: length(output)?,
            memory: length(memory)?,
            bytes: from_hex(bytes)?,
        })
    }

    pub fn answer(&self) -> Written {
        let types = self.types.as_deref();
        match self.call {
            Call::Convert => convert_with_types(types, &self.bytes, self.output, self.memory),
            Call::Print => print_with_types(types, &self.bytes, self.output, self.memory),
        }
    }
}

/// `ok HEX` or `refused NUMBER PLACE`.
pub fn written_line(written: &Written) -> String {
    match written {
        Ok(bytes) => format!("ok {}", to_hex(bytes)),
        Err(refused) => format!("refused {} {}", refused.number, refused.place),
    }
}
