//! A case of any of the three sorts, and its answer.

use crate::answer::{Answer, Place};
use crate::case::{answer_line, take_list, Case};
use crate::text_answer::Written;
use crate::text_case::{written_line, Call, TextCase};
use crate::why::Why;
use crate::why_case::{why_line, WhyCase};

#[derive(Clone, Debug, PartialEq, Eq)]
pub enum AnyCase {
    Compile(Case),
    Text(TextCase),
    Why(WhyCase),
}

/// The answer of its sort.
#[derive(Clone, Debug, PartialEq, Eq)]
pub enum AnyAnswer {
    /// With the catalog.
    Compile(Answer, Vec<u8>),
    Text(Written),
    Why(Why),
}

impl AnyCase {
    pub fn line(&self) -> String {
        match self {
            AnyCase::Compile(case) => case.line(),
            AnyCase::Text(case) => case.line(),
            AnyCase::Why(case) => case.line(),
        }
    }

    /// The first word behind the list tells the sort.
    pub fn from_line(line: &str) -> Result<AnyCase, String> {
        let (_, rest) = take_list(line)?;
        Ok(match rest.split(' ').next() {
            Some("convert" | "print") => AnyCase::Text(TextCase::from_line(line)?),
            Some("why") => AnyCase::Why(WhyCase::from_line(line)?),
            _ => AnyCase::Compile(Case::from_line(line)?),
        })
    }

    /// The call, in a word.
    pub fn call(&self) -> &'static str {
        match self {
            AnyCase::Compile(_) => "compile",
            AnyCase::Text(case) => match case.call {
                Call::Convert => "convert",
                Call::Print => "print",
            },
            AnyCase::Why(_) => "why",
        }
    }

    pub fn types(&self) -> Option<&[u8]> {
        match self {
            AnyCase::Compile(case) => case.types.as_deref(),
            AnyCase::Text(case) => case.types.as_deref(),
            AnyCase::Why(case) => case.types.as_deref(),
        }
    }

    /// The same with another list, or with none.
    pub fn with_types(&self, list: Option<Vec<u8>>) -> AnyCase {
        let mut other = self.clone();
        *match &mut other {
            AnyCase::Compile(case) => &mut case.types,
            AnyCase::Text(case) => &mut case.types,
            AnyCase::Why(case) => &mut case.types,
        } = list;
        other
    }

    /// The lengths of output and memory; a question has no output.
    pub fn lengths(&self) -> [usize; 2] {
        match self {
            AnyCase::Compile(case) => [case.output, case.memory],
            AnyCase::Text(case) => [case.output, case.memory],
            AnyCase::Why(case) => [0, case.memory],
        }
    }

    /// The same with other lengths.
    pub fn with_lengths(&self, [output, memory]: [usize; 2]) -> AnyCase {
        let mut other = self.clone();
        match &mut other {
            AnyCase::Compile(case) => (case.output, case.memory) = (output, memory),
            AnyCase::Text(case) => (case.output, case.memory) = (output, memory),
            AnyCase::Why(case) => case.memory = memory,
        }
        other
    }

    /// The manifest or the text.
    pub fn bytes(&self) -> &[u8] {
        match self {
            AnyCase::Compile(case) => &case.manifest,
            AnyCase::Text(case) => &case.bytes,
            AnyCase::Why(case) => &case.manifest,
        }
    }

    /// The same with another manifest or text.
    pub fn with_bytes(&self, bytes: Vec<u8>) -> AnyCase {
        let mut other = self.clone();
        *match &mut other {
            AnyCase::Compile(case) => &mut case.manifest,
            AnyCase::Text(case) => &mut case.bytes,
            AnyCase::Why(case) => &mut case.manifest,
        } = bytes;
        other
    }

    /// The answer, or how a compile's breaks a rule on the bytes lent.
    pub fn answer(&self) -> Result<AnyAnswer, String> {
        Ok(match self {
            AnyCase::Compile(case) => {
                let (answer, catalog) = case.compile()?;
                AnyAnswer::Compile(answer, catalog)
            }
            AnyCase::Text(case) => AnyAnswer::Text(case.answer()),
            AnyCase::Why(case) => AnyAnswer::Why(case.answer()),
        })
    }
}

impl AnyAnswer {
    pub fn line(&self) -> String {
        match self {
            AnyAnswer::Compile(answer, catalog) => answer_line(answer, catalog),
            AnyAnswer::Text(written) => written_line(written),
            AnyAnswer::Why(why) => why_line(why),
        }
    }

    /// Number and place, unless the call is accepted.
    pub fn refused(&self) -> Option<(u8, Place)> {
        match self {
            AnyAnswer::Compile(Answer::Refused { number, place }, _) => Some((*number, *place)),
            AnyAnswer::Text(Err(refused)) => Some((refused.number, refused.place)),
            AnyAnswer::Why(Why::Refused(refusal)) => Some((refusal.reason as u8, refusal.place)),
            _ => None,
        }
    }

    /// The number of a refusal; 0 for what is accepted.
    pub fn number(&self) -> u8 {
        self.refused().map_or(0, |(number, _)| number)
    }
}
