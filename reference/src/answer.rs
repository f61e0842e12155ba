//! What a compile answers: a catalog, or one numbered refusal and its place.

/// The offset of a field in the manifest, or in the list of types for 28. A
/// manifest has at most 65,535 bytes, so every offset in it fits in 16 bits.
pub type Place = u16;

/// What [`crate::compile::compile`] gives back.
#[derive(Clone, Copy, Debug, PartialEq, Eq)]
pub enum Answer {
    /// The catalog is the first `length` bytes of the output.
    Catalog { length: u16, steps: u16 },
    /// "The answer is number and place."
    Refused { number: u8, place: Place },
}

/// "Reasons for refusing, in checking order", under their numbers; 8 "is given
/// after 5 and before any step" (document 02).
#[derive(Clone, Copy, Debug, PartialEq, Eq)]
#[repr(u8)]
pub enum Reason {
    /// 1. The working memory is shorter than 65,536 bytes.
    Memory = 1,
    /// 2. The manifest's length is outside 1 to 65,535.
    Length = 2,
    /// 3. A field's tag, length or parts are not as listed.
    Field = 3,
    /// 4. A field is deeper than 32.
    Depth = 4,
    /// 5. The strings don't rise strictly, or a name is past the table.
    Strings = 5,
    /// 6. A further step would pass the limit.
    Steps = 6,
    /// 7. A declaration would go below level 16.
    Level = 7,
    /// 8. A defined name is defined again, or is a built-in type.
    DefinedAgain = 8,
    /// 9. The class or type is unknown, or a 25 names no built-in type.
    Unknown = 9,
    /// 10. A 28 names a declared class.
    AlreadyDeclared = 10,
    /// 11. A parameter is unknown.
    UnknownParameter = 11,
    /// 12. A parameter has neither value nor default.
    NoParameterValue = 12,
    /// 13. The variable has no value in any scope tried.
    NoValue = 13,
    /// 14. The variable has a value in this scope.
    HasValue = 14,
    /// 15. An operand, condition or title is of the wrong kind.
    Kind = 15,
    /// 16. The result is outside 64 bits.
    Overflow = 16,
    /// 17. The divisor is zero.
    ZeroDivisor = 17,
    /// 18. No pattern of a selector matches.
    NoMatch = 18,
    /// 19. The resource or attribute read is not in the catalog.
    NotInCatalog = 19,
    /// 20. Type and title are already in the catalog.
    InCatalog = 20,
    /// 21. An attribute is named twice in one body.
    NamedTwice = 21,
    /// 22. A 513th cell is needed.
    Cells = 22,
    /// 23. The finished entry passes the output's end or 65,535 bytes in all.
    Output = 23,
    /// 27. The catalog has no such attribute. Only a question meets it; 24 to 26
    /// are of the text notation.
    NoAttribute = 27,
    /// 28. The lent list of types breaks one of its rules. Its place is an offset
    /// in the list.
    TypeList = 28,
}

impl Reason {
    /// This reason, met at the given place.
    pub fn at(self, place: Place) -> Refusal {
        Refusal { reason: self, place }
    }
}

/// The first reason met, and where.
#[derive(Clone, Copy, Debug, PartialEq, Eq)]
pub struct Refusal {
    pub reason: Reason,
    pub place: Place,
}

impl From<Refusal> for Answer {
    fn from(refusal: Refusal) -> Answer {
        Answer::Refused {
            number: refusal.reason as u8,
            place: refusal.place,
        }
    }
}
