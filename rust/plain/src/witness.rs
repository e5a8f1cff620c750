//! The witness of a competition, and its bytes.

use crate::limits::{BEFORE_WORD, Type};

/// Types `one` < `other` of one tag compete in the type `within` after `word`; as roots if `within` is
/// `NO_PARENT`, and `word` is empty then.
#[derive(Debug, Clone, Copy, PartialEq, Eq)]
pub struct Witness<'a> {
    pub within: Type,
    pub one: Type,
    pub other: Type,
    pub word: &'a [Type],
}

impl<'a> Witness<'a> {
    /// The witness that the bytes begin with; none if they end before the word does.
    pub fn from_bytes(bytes: &'a [u8]) -> Option<Self> {
        let &[within, one, other, low, high, ref rest @ ..] = bytes else {
            return None;
        };
        let length = usize::from(u16::from_le_bytes([low, high]));
        let word = rest.get(..length)?;
        Some(Witness {
            within,
            one,
            other,
            word,
        })
    }

    /// How many bytes it fills.
    pub fn length(&self) -> usize {
        BEFORE_WORD + self.word.len()
    }

    /// Puts the witness at the front of a buffer that is long enough.
    pub fn store(&self, buffer: &mut [u8]) {
        let length = u16::try_from(self.word.len()).expect("a word of at most LONGEST_WORD types");
        let [low, high] = length.to_le_bytes();
        let (before, rest) = buffer.split_at_mut(BEFORE_WORD);
        before.copy_from_slice(&[self.within, self.one, self.other, low, high]);
        rest[..self.word.len()].copy_from_slice(self.word);
    }
}
