//! Rigbanut for Rust: a safe wrapper of the proved static library, in one file, the standard library only.
//!
//! ```text
//! rustc --edition 2021 -O main.rs -L FOLDER-OF-LIBRIGBANUT -l static=rigbanut
//! ```
//!
//! with `#[path = ".../bindings/rigbanut.rs"] mod rigbanut;` in `main.rs`. `bindings/run` builds the library and an
//! example. A [`Compiler`] has its own memory and compiles, converts texts to manifests, prints manifests as text
//! (docs/NOTATION.md) and tells why a label counts for a value; [`compile_into`], [`convert_into`], [`print_into`] and
//! [`why_with`] are the plain calls, on memory of the caller's. Each is there a second time, ending in `_with_types`, with a
//! list of types that replaces the eight built-in ones; [`type_list`] makes one of names.

#![allow(dead_code)] // A program that includes this file need not use all of it.

use std::fmt;

/// A shorter working memory is refused (1).
pub const MEMORY: usize = 65_536;
/// No catalog is longer.
pub const LONGEST_CATALOG: usize = 65_535;
/// No manifest that is converted from a text is longer.
pub const LONGEST_MANIFEST: usize = 65_535;
/// No text that is printed is longer.
pub const LONGEST_TEXT: usize = 65_535;
/// A right list of types has no more.
pub const MOST_TYPES: usize = 64;

/// A list of types: a field for each name, in the order given. It is right if there are 1 to [`MOST_TYPES`] names, each
/// of 1 to 32 letters a to z and above the one before it in the order of bytes; another is refused (28) by every call
/// that takes one, at the offset in the list of its first faulty field. To compare two manifests, give both the same
/// list.
pub fn type_list(names: &[&str]) -> Vec<u8> {
    let mut list = Vec::new();
    for name in names {
        list.push(0x02);
        list.extend(u16::try_from(name.len()).unwrap_or(u16::MAX).to_be_bytes());
        list.extend(name.bytes());
    }
    list
}

/// What a compile answers.
#[derive(Clone, Copy, Debug, PartialEq, Eq)]
pub enum Answer {
    /// The catalog is the first `length` bytes of the output.
    Catalog {
        length: u16,
        steps: u16,
    },
    Refused(Refusal),
}

/// What converting and printing answer.
#[derive(Clone, Copy, Debug, PartialEq, Eq)]
pub enum Written {
    /// The manifest or the text is the first `length` bytes of the output.
    Bytes {
        length: u32,
    },
    Refused(Refusal),
}

/// What is asked of [`Compiler::why`]: why the label counts for this attribute of the resource of this type, such as
/// `b"kiosk"`, and title.
#[derive(Clone, Copy, Debug, PartialEq, Eq)]
pub struct Question<'q> {
    pub kind: &'q [u8],
    pub title: &'q [u8],
    pub attribute: &'q [u8],
    pub label: u8,
}

/// What it answers.
#[derive(Clone, Copy, Debug, PartialEq, Eq)]
pub enum Why {
    /// The label is among those that decide the value: the first part of the value's set that holds it, and the offset
    /// in the manifest of the first constant with this label that the compile evaluated, tried as a pattern or assigned
    /// to a parameter as its default. It need not be the one through which the label came into this set.
    Among {
        part: Part,
        place: u16,
    },
    NotAmong,
}

/// The parts of a value's set, in the order in which a label is looked for.
#[derive(Clone, Copy, Debug, PartialEq, Eq)]
pub enum Part {
    /// The set of the title expression.
    Title = 1,
    Path = 2,
    /// The trail as it is when the resource is added.
    Trail = 3,
    /// The marks that the attribute's own expression read.
    Marks = 4,
    /// The rest.
    Value = 5,
}

/// The first reason met, by its number, and the offset of the field concerned in the manifest, or of the token concerned
/// in the text that was to be converted, or with 28 of the field concerned in the list of types.
#[derive(Clone, Copy, Debug, PartialEq, Eq)]
pub struct Refusal {
    pub number: u8,
    pub place: u16,
}

/// What a [`Compiler`] gives back.
#[derive(Clone, Copy, Debug, PartialEq, Eq)]
pub enum Outcome<'c> {
    Accepted { catalog: &'c [u8], steps: u16 },
    Refused(Refusal),
}

/// The memory of a call, allocated once and used by every call.
pub struct Compiler {
    out: Vec<u8>,
    work: Vec<u8>,
}

impl Compiler {
    pub fn new() -> Compiler {
        Compiler {
            out: vec![0; LONGEST_CATALOG],
            work: vec![0; MEMORY],
        }
    }

    /// Compiles a manifest for a device, in at most `limit` steps. The catalog stays until the next call.
    pub fn compile(&mut self, manifest: &[u8], device: &[u8], limit: u16) -> Outcome<'_> {
        let answer = compile_into(manifest, device, limit, &mut self.out, &mut self.work);
        self.outcome(answer)
    }

    /// The same with a list of types, which replaces the eight.
    pub fn compile_with_types(&mut self, types: &[u8], manifest: &[u8], device: &[u8], limit: u16) -> Outcome<'_> {
        let answer = compile_into_with_types(types, manifest, device, limit, &mut self.out, &mut self.work);
        self.outcome(answer)
    }

    /// Converts a text to its manifest. It stays until the next call.
    pub fn convert(&mut self, text: &[u8]) -> Result<&[u8], Refusal> {
        let written = convert_into(text, &mut self.out, &mut self.work);
        self.written(written)
    }

    /// The same with a list of types, which replaces the eight.
    pub fn convert_with_types(&mut self, types: &[u8], text: &[u8]) -> Result<&[u8], Refusal> {
        let written = convert_into_with_types(types, text, &mut self.out, &mut self.work);
        self.written(written)
    }

    /// Prints a manifest as text. It stays until the next call.
    pub fn print(&mut self, manifest: &[u8]) -> Result<&[u8], Refusal> {
        let written = print_into(manifest, &mut self.out, &mut self.work);
        self.written(written)
    }

    /// The same with a list of types, which replaces the eight.
    pub fn print_with_types(&mut self, types: &[u8], manifest: &[u8]) -> Result<&[u8], Refusal> {
        let written = print_into_with_types(types, manifest, &mut self.out, &mut self.work);
        self.written(written)
    }

    /// Tells why a label counts for a value of the device's catalog. A refusal is that of a compile with 65,535 steps
    /// or, if there is none, 27 at 0, when the catalog has no such attribute.
    pub fn why(&mut self, manifest: &[u8], device: &[u8], question: Question<'_>) -> Result<Why, Refusal> {
        why_with(manifest, device, question, &mut self.work)
    }

    /// The same with a list of types, which replaces the eight.
    pub fn why_with_types(
        &mut self,
        types: &[u8],
        manifest: &[u8],
        device: &[u8],
        question: Question<'_>,
    ) -> Result<Why, Refusal> {
        why_with_types(types, manifest, device, question, &mut self.work)
    }

    fn outcome(&self, answer: Answer) -> Outcome<'_> {
        match answer {
            Answer::Refused(refusal) => Outcome::Refused(refusal),
            Answer::Catalog { length, steps } => Outcome::Accepted {
                catalog: &self.out[..usize::from(length)],
                steps,
            },
        }
    }

    fn written(&self, written: Written) -> Result<&[u8], Refusal> {
        match written {
            Written::Bytes { length } => Ok(&self.out[..length as usize]),
            Written::Refused(refusal) => Err(refusal),
        }
    }
}

impl Default for Compiler {
    fn default() -> Compiler {
        Compiler::new()
    }
}

/// Compiles into lent memory. Afterwards `out` holds the catalog and then zeros, or zeros alone after a refusal, and
/// `work` is zero throughout. The deepest manifests known take 1.1 MiB of stack; a Rust thread has 2 MiB unless told
/// otherwise.
pub fn compile_into(manifest: &[u8], device: &[u8], limit: u16, out: &mut [u8], work: &mut [u8]) -> Answer {
    // SAFETY: a Rust slice is what the function asks for. Its pointer is never null and is good for its length, and
    // the two that are lent exclusively overlap nothing. The function is proved to stay within all four.
    let answer = unsafe {
        rigbanut_compile(
            manifest.as_ptr(),
            manifest.len(),
            device.as_ptr(),
            device.len(),
            limit,
            out.as_mut_ptr(),
            out.len(),
            work.as_mut_ptr(),
            work.len(),
        )
    };
    Answer::from_number(answer)
}

/// The same with a list of types, which replaces the eight.
pub fn compile_into_with_types(
    types: &[u8],
    manifest: &[u8],
    device: &[u8],
    limit: u16,
    out: &mut [u8],
    work: &mut [u8],
) -> Answer {
    // SAFETY: as for a compile without a list; the list is one slice more that is read.
    let answer = unsafe {
        rigbanut_compile_with_types(
            types.as_ptr(),
            types.len(),
            manifest.as_ptr(),
            manifest.len(),
            device.as_ptr(),
            device.len(),
            limit,
            out.as_mut_ptr(),
            out.len(),
            work.as_mut_ptr(),
            work.len(),
        )
    };
    Answer::from_number(answer)
}

/// Converts a text to its manifest, into lent memory. Afterwards `out` holds the manifest and then zeros, or zeros alone
/// after a refusal, and `work` is zero throughout.
pub fn convert_into(text: &[u8], out: &mut [u8], work: &mut [u8]) -> Written {
    // SAFETY: as for a compile.
    Written::from_number(unsafe {
        rigbanut_convert(
            text.as_ptr(),
            text.len(),
            out.as_mut_ptr(),
            out.len(),
            work.as_mut_ptr(),
            work.len(),
        )
    })
}

/// The same with a list of types, which replaces the eight.
pub fn convert_into_with_types(types: &[u8], text: &[u8], out: &mut [u8], work: &mut [u8]) -> Written {
    // SAFETY: as for a compile.
    Written::from_number(unsafe {
        rigbanut_convert_with_types(
            types.as_ptr(),
            types.len(),
            text.as_ptr(),
            text.len(),
            out.as_mut_ptr(),
            out.len(),
            work.as_mut_ptr(),
            work.len(),
        )
    })
}

/// Prints a manifest as text, into lent memory. Afterwards `out` holds the text and then zeros, or zeros alone after a
/// refusal, and `work` is zero throughout.
pub fn print_into(manifest: &[u8], out: &mut [u8], work: &mut [u8]) -> Written {
    // SAFETY: as for a compile.
    Written::from_number(unsafe {
        rigbanut_print(
            manifest.as_ptr(),
            manifest.len(),
            out.as_mut_ptr(),
            out.len(),
            work.as_mut_ptr(),
            work.len(),
        )
    })
}

/// The same with a list of types, which replaces the eight.
pub fn print_into_with_types(types: &[u8], manifest: &[u8], out: &mut [u8], work: &mut [u8]) -> Written {
    // SAFETY: as for a compile.
    Written::from_number(unsafe {
        rigbanut_print_with_types(
            types.as_ptr(),
            types.len(),
            manifest.as_ptr(),
            manifest.len(),
            out.as_mut_ptr(),
            out.len(),
            work.as_mut_ptr(),
            work.len(),
        )
    })
}

/// Tells why a label counts for a value, with lent memory. Afterwards `work` is zero throughout. A call takes the time
/// of 17 compiles at most, and 64 KiB of stack besides a compile's, for the catalog.
pub fn why_with(
    manifest: &[u8],
    device: &[u8],
    question: Question<'_>,
    work: &mut [u8],
) -> Result<Why, Refusal> {
    // SAFETY: as for a compile; the one that is lent exclusively overlaps nothing.
    Why::from_number(unsafe {
        rigbanut_why(
            manifest.as_ptr(),
            manifest.len(),
            device.as_ptr(),
            device.len(),
            question.kind.as_ptr(),
            question.kind.len(),
            question.title.as_ptr(),
            question.title.len(),
            question.attribute.as_ptr(),
            question.attribute.len(),
            question.label,
            work.as_mut_ptr(),
            work.len(),
        )
    })
}

/// The same with a list of types, which replaces the eight.
pub fn why_with_types(
    types: &[u8],
    manifest: &[u8],
    device: &[u8],
    question: Question<'_>,
    work: &mut [u8],
) -> Result<Why, Refusal> {
    // SAFETY: as for a question without a list; the list is one slice more that is read.
    Why::from_number(unsafe {
        rigbanut_why_with_types(
            types.as_ptr(),
            types.len(),
            manifest.as_ptr(),
            manifest.len(),
            device.as_ptr(),
            device.len(),
            question.kind.as_ptr(),
            question.kind.len(),
            question.title.as_ptr(),
            question.title.len(),
            question.attribute.as_ptr(),
            question.attribute.len(),
            question.label,
            work.as_mut_ptr(),
            work.len(),
        )
    })
}

extern "C" {
    fn rigbanut_compile(
        manifest: *const u8,
        manifest_length: usize,
        device: *const u8,
        device_length: usize,
        limit: u16,
        out: *mut u8,
        out_length: usize,
        work: *mut u8,
        work_length: usize,
    ) -> u64;
    fn rigbanut_convert(
        text: *const u8,
        text_length: usize,
        out: *mut u8,
        out_length: usize,
        work: *mut u8,
        work_length: usize,
    ) -> u64;
    fn rigbanut_print(
        manifest: *const u8,
        manifest_length: usize,
        out: *mut u8,
        out_length: usize,
        work: *mut u8,
        work_length: usize,
    ) -> u64;
    fn rigbanut_why(
        manifest: *const u8,
        manifest_length: usize,
        device: *const u8,
        device_length: usize,
        kind: *const u8,
        kind_length: usize,
        title: *const u8,
        title_length: usize,
        attribute: *const u8,
        attribute_length: usize,
        label: u8,
        work: *mut u8,
        work_length: usize,
    ) -> u64;
    fn rigbanut_compile_with_types(
        types: *const u8,
        types_length: usize,
        manifest: *const u8,
        manifest_length: usize,
        device: *const u8,
        device_length: usize,
        limit: u16,
        out: *mut u8,
        out_length: usize,
        work: *mut u8,
        work_length: usize,
    ) -> u64;
    fn rigbanut_convert_with_types(
        types: *const u8,
        types_length: usize,
        text: *const u8,
        text_length: usize,
        out: *mut u8,
        out_length: usize,
        work: *mut u8,
        work_length: usize,
    ) -> u64;
    fn rigbanut_print_with_types(
        types: *const u8,
        types_length: usize,
        manifest: *const u8,
        manifest_length: usize,
        out: *mut u8,
        out_length: usize,
        work: *mut u8,
        work_length: usize,
    ) -> u64;
    fn rigbanut_why_with_types(
        types: *const u8,
        types_length: usize,
        manifest: *const u8,
        manifest_length: usize,
        device: *const u8,
        device_length: usize,
        kind: *const u8,
        kind_length: usize,
        title: *const u8,
        title_length: usize,
        attribute: *const u8,
        attribute_length: usize,
        label: u8,
        work: *mut u8,
        work_length: usize,
    ) -> u64;
}

impl Answer {
    /// Accepted: steps * 65536 + length. Refused: number * 2^32 + place.
    fn from_number(answer: u64) -> Answer {
        if let Some(refusal) = Refusal::from_number(answer) {
            return Answer::Refused(refusal);
        }
        Answer::Catalog {
            length: answer as u16,
            steps: (answer >> 16) as u16,
        }
    }
}

impl Written {
    /// Accepted: the length. Refused: number * 2^32 + place.
    fn from_number(answer: u64) -> Written {
        if let Some(refusal) = Refusal::from_number(answer) {
            return Written::Refused(refusal);
        }
        Written::Bytes {
            length: answer as u32,
        }
    }
}

impl Why {
    /// Among them: part * 65536 + place. Not among them: 0. Refused: number * 2^32 + place.
    fn from_number(answer: u64) -> Result<Why, Refusal> {
        if let Some(refusal) = Refusal::from_number(answer) {
            return Err(refusal);
        }
        let part = match answer >> 16 {
            0 => return Ok(Why::NotAmong),
            1 => Part::Title,
            2 => Part::Path,
            3 => Part::Trail,
            4 => Part::Marks,
            _ => Part::Value,
        };
        Ok(Why::Among {
            part,
            place: answer as u16,
        })
    }
}

impl Part {
    /// 1 to 5, in the order of the parts.
    pub fn number(self) -> u8 {
        self as u8
    }

    /// What the part says of the label, in words.
    pub fn words(self) -> &'static str {
        match self {
            Part::Title => {
                "the resource's title is worked out from it, or from a variable or attribute that it decides"
            }
            Part::Path => "a condition around the resource, or around a declaration that leads to it, depends on it",
            Part::Trail => "a condition tested before the resource was added depends on it, and one of its branches, taken or not, declares a class or a type",
            Part::Marks => "a condition depends on it, and one of its branches, taken or not, assigns a variable that the value reads",
            Part::Value => "the value is worked out from it, or from a variable or attribute that it decides",
        }
    }
}

impl fmt::Display for Why {
    fn fmt(&self, out: &mut fmt::Formatter<'_>) -> fmt::Result {
        match self {
            Why::Among { part, place } => write!(out, "part {} at {place}: {}", part.number(), part.words()),
            Why::NotAmong => write!(out, "not among them"),
        }
    }
}

impl Refusal {
    fn from_number(answer: u64) -> Option<Refusal> {
        (answer >> 32 != 0).then(|| Refusal {
            number: (answer >> 32) as u8,
            place: answer as u16,
        })
    }

    /// The reason in words. 24 to 26 are those of the text notation, which a compile never gives; 27 is given by the
    /// why call alone, 28 by the calls with a list of types.
    pub fn reason(&self) -> &'static str {
        match self.number {
            1 => "the working memory is shorter than 65,536 bytes",
            2 => "the manifest's length is outside 1 to 65,535",
            3 => "a field's tag, length or parts are not as listed",
            4 => "a field is deeper than 32",
            5 => "the strings don't rise strictly, or a name is past the table",
            6 => "a further step would pass the limit",
            7 => "a declaration would go below level 16",
            8 => "a defined name is defined again, or is a built-in type",
            9 => "the class or type is unknown, or a resource's type is not built in",
            10 => "a class that is declared already is declared with attributes",
            11 => "a parameter is unknown",
            12 => "a parameter has neither value nor default",
            13 => "the variable has no value in any scope tried",
            14 => "the variable has a value in this scope already",
            15 => "an operand, condition or title is of the wrong kind",
            16 => "the result is outside 64 bits",
            17 => "the divisor is zero",
            18 => "no pattern of a selector matches",
            19 => "the resource or attribute read is not in the catalog",
            20 => "type and title are already in the catalog",
            21 => "an attribute is named twice in one body",
            22 => "a 513th cell is needed",
            23 => "the finished entry passes the output's end or 65,535 bytes in all",
            24 => "the text is outside the notation or a limit, or text or manifest is over 65,535 bytes or the output",
            25 => "a constant stands past line 255",
            26 => "a label falls, a name or type cannot be spelled, or the text is over 65,535 bytes or the output",
            27 => "the catalog has no such attribute",
            28 => "the list of types is empty, or this field is not 1 to 32 letters a to z, is not above the one before it, or is the 65th",
            _ => "not a refusal's number",
        }
    }
}

impl fmt::Display for Refusal {
    fn fmt(&self, out: &mut fmt::Formatter<'_>) -> fmt::Result {
        write!(
            out,
            "refused {} at {}: {}",
            self.number,
            self.place,
            self.reason()
        )
    }
}

impl std::error::Error for Refusal {}
