//! The L-Tree: the verified store itself.

use super::Labelling;
use crate::store::{Store, Verified};
use crate::words::*;

pub struct LTree {
    s: u32,
    r: u32,
    words: Vec<u32>,
}

impl LTree {
    pub fn new(s: u32, r: u32) -> LTree {
        LTree { s, r, words: Vec::new() }
    }
}

impl Labelling for LTree {
    fn load(&mut self, n: usize) -> bool {
        self.words = vec![0; words_for(n)];
        Verified::load(self.s, self.r, 7, &vec![TEXT; n], &mut self.words)[0] == 0
    }

    fn insert(&mut self, place: Option<usize>) -> Option<usize> {
        self.words.resize(self.words.len() + RECORD, 0);
        let [refusal, _, moved, _] = Verified::insert(TEXT, place.map_or(NO_TAG, |tag| tag as u32), &mut self.words);
        (refusal == 0).then_some(moved as usize)
    }

    /// Every label has the bits that all labels below (f − 1)^H need.
    fn bits(&self) -> (usize, usize) {
        let space = u128::from(self.s * self.r - 1).pow(self.words[HEIGHT]);
        let bits = (u128::BITS - (space - 1).leading_zeros()) as usize;
        (bits * self.words[COUNT] as usize, bits)
    }
}
