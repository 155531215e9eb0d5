//! What files promise, of any two that were written or read: a book that was written reads back to the same words, and no
//! two files read as the same book. Neither the reference nor a call is asked.

use reference::{HEADER, RECORD};

/// A file, and the words of its store.
#[derive(Clone, PartialEq, Eq, Debug)]
pub struct Kept {
    pub file: Vec<u8>,
    pub words: Vec<u32>,
}

/// The words of the store that these begin with; all of them where they are too few for its tags.
pub fn store_of(words: &[u32]) -> &[u32] {
    let n = words.get(4).map_or(0, |n| *n as usize);
    words.get(..HEADER + RECORD * n).unwrap_or(words)
}

impl Kept {
    /// Of two files the bytes are alike just where the words are.
    pub fn beside(&self, other: &Kept) -> Result<(), String> {
        match (self.file == other.file, self.words == other.words) {
            (true, false) => Err("one file stands for two stores".into()),
            (false, true) => Err("two files stand for one store".into()),
            _ => Ok(()),
        }
    }
}
