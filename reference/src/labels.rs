//! Label sets: any of the 256 labels, each in or out.

/// A set of labels, kept as 256 bits.
#[derive(Clone, Copy, Debug, Default, PartialEq, Eq)]
pub struct Labels {
    words: [u64; 4],
}

impl Labels {
    pub const EMPTY: Labels = Labels { words: [0; 4] };

    /// "A constant's set is its label."
    pub fn one(label: u8) -> Labels {
        let mut set = Labels::EMPTY;
        set.words[usize::from(label / 64)] = 1 << (label % 64);
        set
    }

    pub fn union(mut self, other: Labels) -> Labels {
        self.join(other);
        self
    }

    pub fn join(&mut self, other: Labels) {
        for (word, more) in self.words.iter_mut().zip(other.words) {
            *word |= more;
        }
    }

    /// Whether the two sets share a label.
    pub fn meets(&self, other: &Labels) -> bool {
        self.words.iter().zip(other.words).any(|(a, b)| a & b != 0)
    }

    pub fn count(&self) -> u32 {
        self.words.iter().map(|word| word.count_ones()).sum()
    }

    /// The labels in the set, rising.
    pub fn iter(self) -> impl Iterator<Item = u8> {
        (0..=255u8).filter(move |label| self.words[usize::from(label / 64)] >> (label % 64) & 1 == 1)
    }

    /// "Label n is bit n mod 8, lowest first, of byte n / 8": the words' own
    /// bytes, lowest first.
    pub fn to_bytes(self) -> [u8; 32] {
        let mut bytes = [0; 32];
        for (eight, word) in bytes.chunks_exact_mut(8).zip(self.words) {
            eight.copy_from_slice(&word.to_le_bytes());
        }
        bytes
    }

    pub fn from_bytes(bytes: &[u8; 32]) -> Labels {
        let mut set = Labels::EMPTY;
        for (at, byte) in bytes.iter().enumerate() {
            set.words[at / 8] |= u64::from(*byte) << (at % 8 * 8);
        }
        set
    }
}

impl FromIterator<u8> for Labels {
    fn from_iter<I: IntoIterator<Item = u8>>(labels: I) -> Labels {
        labels
            .into_iter()
            .fold(Labels::EMPTY, |set, label| set.union(Labels::one(label)))
    }
}
