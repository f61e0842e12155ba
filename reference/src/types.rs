//! The built-in types: the eight of document 01, or those of a lent list, which
//! "replaces the eight" (document 02).

use crate::answer::{Place, Reason, Refusal};

/// "Built-in types", of a call that is lent no list.
pub const EIGHT: [&[u8]; 8] = [
    b"kiosk", b"tablet", b"printer", b"scanner", b"gate", b"screen", b"plan", b"wall",
];
/// "1 to 64 fields 02".
pub const MOST_NAMES: usize = 64;
/// "each 1 to 32 lower-case letters".
pub const MOST_LETTERS: usize = 32;
/// The tag of a name's field.
pub const NAME_TAG: u8 = 0x02;

/// The types that are built in for one call.
#[derive(Clone, Debug, PartialEq, Eq)]
pub struct Types<'l> {
    names: Vec<&'l [u8]>,
}

impl<'l> Types<'l> {
    pub fn eight() -> Types<'static> {
        Types {
            names: EIGHT.to_vec(),
        }
    }

    /// Those of the list, or 28 at its first faulty field. "Not lending a list is
    /// another call and means the eight."
    pub fn of(list: Option<&'l [u8]>) -> Result<Types<'l>, Refusal> {
        let Some(list) = list else {
            return Ok(Types::eight());
        };
        let names = names_of(list).map_err(|faulty| Reason::TypeList.at(faulty.place))?;
        Ok(Types { names })
    }

    /// "A type is built in precisely if the list holds it".
    pub fn holds(&self, name: &[u8]) -> bool {
        self.names.contains(&name)
    }
}

/// Which rule a list breaks; the words are for counting and are never compared.
#[derive(Clone, Copy, Debug, PartialEq, Eq, PartialOrd, Ord)]
pub enum Fault {
    /// "An empty list is 28 at 0."
    Empty,
    /// "fewer than three bytes"
    CutShort,
    /// "another tag"
    OtherTag,
    /// "a length past the end"
    PastEnd,
    /// "0 ... letters"
    NoLetter,
    /// "over 32 letters"
    TooLong,
    /// "another byte than a to z"
    OtherByte,
    /// "not above the one before it (the later is at fault)"
    NotRising,
    /// "the 65th"
    TooMany,
}

impl Fault {
    pub const ALL: [Fault; 9] = [
        Fault::Empty,
        Fault::CutShort,
        Fault::OtherTag,
        Fault::PastEnd,
        Fault::NoLetter,
        Fault::TooLong,
        Fault::OtherByte,
        Fault::NotRising,
        Fault::TooMany,
    ];

    pub fn words(self) -> &'static str {
        match self {
            Fault::Empty => "no field",
            Fault::CutShort => "fewer than three bytes",
            Fault::OtherTag => "another tag",
            Fault::PastEnd => "a length past the end",
            Fault::NoLetter => "no letter",
            Fault::TooLong => "over 32 letters",
            Fault::OtherByte => "another byte than a to z",
            Fault::NotRising => "not above the one before it",
            Fault::TooMany => "the 65th",
        }
    }
}

/// The first faulty field of a list. No more than 64 sound fields stand before
/// it, so that its offset fits.
#[derive(Clone, Copy, Debug, PartialEq, Eq)]
pub struct Faulty {
    pub place: Place,
    pub fault: Fault,
}

/// The names of a list, rising; or its first faulty field "by offset".
pub fn names_of(list: &[u8]) -> Result<Vec<&[u8]>, Faulty> {
    if list.is_empty() {
        return Err(Faulty {
            place: 0,
            fault: Fault::Empty,
        });
    }
    let mut names = Vec::new();
    let mut at = 0;
    while at < list.len() {
        let name = name_behind(&names, &list[at..]).map_err(|fault| Faulty {
            place: at as Place,
            fault,
        })?;
        at += 3 + name.len();
        names.push(name);
    }
    Ok(names)
}

/// The name of the field that begins the rest of a list, behind these names.
fn name_behind<'l>(before: &[&[u8]], rest: &'l [u8]) -> Result<&'l [u8], Fault> {
    let &[tag, high, low, ref behind @ ..] = rest else {
        return Err(Fault::CutShort);
    };
    if tag != NAME_TAG {
        return Err(Fault::OtherTag);
    }
    let length = usize::from(u16::from_be_bytes([high, low]));
    let name = behind.get(..length).ok_or(Fault::PastEnd)?;
    if name.is_empty() {
        return Err(Fault::NoLetter);
    }
    if name.len() > MOST_LETTERS {
        return Err(Fault::TooLong);
    }
    if !name.iter().all(u8::is_ascii_lowercase) {
        return Err(Fault::OtherByte);
    }
    if before.last().is_some_and(|last| name <= *last) {
        return Err(Fault::NotRising);
    }
    if before.len() == MOST_NAMES {
        return Err(Fault::TooMany);
    }
    Ok(name)
}

/// The bytes of a list of these names, in this order.
pub fn list_of<N: AsRef<[u8]>>(names: &[N]) -> Vec<u8> {
    let mut list = Vec::new();
    for name in names {
        let name = name.as_ref();
        list.push(NAME_TAG);
        list.extend_from_slice(&(name.len() as u16).to_be_bytes());
        list.extend_from_slice(name);
    }
    list
}

/// The eight as a list, in rising order.
pub fn list_of_eight() -> Vec<u8> {
    let mut names = EIGHT;
    names.sort_unstable();
    list_of(&names)
}
