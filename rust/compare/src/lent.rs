//! Bytes that are lent to a call, and watched.

use crate::chance::Chance;

/// Bytes that are lent: the inner part of a larger array, with a random pattern around it.
#[derive(Clone, PartialEq, Eq)]
pub struct Part {
    array: Vec<u8>,
    start: usize,
    end: usize,
}

/// The fewest bytes before and past a part.
const GUARD: usize = 24;

impl Part {
    pub fn random(length: usize, chance: &mut Chance) -> Self {
        let start = GUARD + chance.below(8);
        let words = (start + length + GUARD).div_ceil(8);
        let array = (0..words)
            .flat_map(|_| chance.draw().to_le_bytes())
            .collect();
        Part {
            array,
            start,
            end: start + length,
        }
    }

    pub fn holding(bytes: &[u8], chance: &mut Chance) -> Self {
        let mut part = Part::random(bytes.len(), chance);
        part.inner_mut().copy_from_slice(bytes);
        part
    }

    pub fn inner(&self) -> &[u8] {
        &self.array[self.start..self.end]
    }

    pub fn inner_mut(&mut self) -> &mut [u8] {
        &mut self.array[self.start..self.end]
    }

    /// Is nothing changed but the first `written` bytes of the part?
    pub fn unchanged_but(&self, written: usize, before: &Part) -> bool {
        let past = self.start + written;
        self.array[..self.start] == before.array[..self.start]
            && self.array[past..] == before.array[past..]
    }
}
