//! What both sides of a comparison are lent, with bytes around it that must stay as they are.

use crate::random::Random;

/// Bytes to lend, with guards on both sides, and what to fill them with.
pub struct Rooms {
    pub ours: [Vec<u8>; 2],
    pub theirs: [Vec<u8>; 2],
    junk: Vec<u8>,
    random: Random,
}

const GUARD: usize = 64;
const LARGEST: usize = 1 << 18;

impl Rooms {
    pub fn new(seed: u64) -> Rooms {
        let mut random = Random::new(seed, u64::MAX);
        let room = || vec![0; LARGEST];
        Rooms {
            ours: [room(), room()],
            theirs: [room(), room()],
            junk: (0..2 * LARGEST).map(|_| random.next() as u8).collect(),
            random,
        }
    }

    /// The same junk for both sides, other junk for each case.
    pub fn dirty(&mut self, lengths: [usize; 2]) {
        for (at, length) in lengths.into_iter().enumerate() {
            let from = self.random.below(LARGEST);
            let junk = &self.junk[from..from + length + 2 * GUARD];
            self.ours[at][..junk.len()].copy_from_slice(junk);
            self.theirs[at][..junk.len()].copy_from_slice(junk);
        }
    }

    /// What of the two sides differs, guards included, in words.
    pub fn difference(&self, lengths: [usize; 2]) -> Option<String> {
        for (at, name) in ["output", "memory"].into_iter().enumerate() {
            let whole = lengths[at] + 2 * GUARD;
            if let Some(byte) = first_difference(&self.ours[at][..whole], &self.theirs[at][..whole]) {
                let byte = byte as isize - GUARD as isize;
                let length = lengths[at];
                return Some(format!("byte {byte} of the {length} bytes of {name} differs"));
            }
        }
        None
    }
}

pub fn lent([output, memory]: &mut [Vec<u8>; 2], lengths: [usize; 2]) -> (&mut [u8], &mut [u8]) {
    (
        &mut output[GUARD..GUARD + lengths[0]],
        &mut memory[GUARD..GUARD + lengths[1]],
    )
}

/// Equal slices are told apart from unequal ones at once; the place is looked for only where they differ.
fn first_difference(one: &[u8], other: &[u8]) -> Option<usize> {
    if one == other {
        return None;
    }
    one.iter().zip(other).position(|(a, b)| a != b)
}
