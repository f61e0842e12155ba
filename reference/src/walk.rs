//! The fields of a manifest that has no fault 3, by rising offset.

/// A field met.
#[derive(Clone, Copy, Debug)]
pub struct Met<'m> {
    pub place: usize,
    pub depth: usize,
    pub tag: u8,
    /// What its body holds before the fields in it.
    pub own: &'m [u8],
}

impl Met<'_> {
    /// The names that the field itself holds.
    pub fn names(&self) -> Vec<u16> {
        let names = match self.tag {
            0x11 => self.own.get(1..).unwrap_or(&[]),
            0x13..=0x15 | 0x18 | 0x21 | 0x25..=0x29 | 0x31..=0x35 => self.own,
            _ => &[],
        };
        names
            .chunks_exact(2)
            .map(|pair| u16::from_be_bytes([pair[0], pair[1]]))
            .collect()
    }

    /// The label of a constant.
    pub fn label(&self) -> Option<u8> {
        match self.tag {
            0x10..=0x12 => self.own.first().copied(),
            _ => None,
        }
    }
}

/// How many bytes of its own a body begins with; a string is nothing else.
fn own_length(tag: u8, length: usize) -> usize {
    match tag {
        0x02 | 0x10 | 0x11 | 0x12 => length,
        0x16 => 1,
        0x13 | 0x14 | 0x21 | 0x25..=0x29 | 0x31..=0x35 => 2,
        0x15 | 0x18 => 4,
        _ => 0,
    }
}

/// Every field of the manifest, the string table and its strings first.
pub fn fields(manifest: &[u8]) -> Vec<Met<'_>> {
    let mut met = Vec::new();
    // Where the fields around end, the innermost last.
    let mut ends: Vec<usize> = Vec::new();
    let mut at = 0;
    while let Some(&[tag, high, low]) = manifest.get(at..at + 3) {
        while ends.last().is_some_and(|end| *end <= at) {
            ends.pop();
        }
        let length = usize::from(u16::from_be_bytes([high, low]));
        let own_end = at + 3 + own_length(tag, length);
        met.push(Met {
            place: at,
            depth: ends.len() + 1,
            tag,
            own: manifest.get(at + 3..own_end).unwrap_or(&[]),
        });
        ends.push(at + 3 + length);
        at = own_end;
    }
    met
}
