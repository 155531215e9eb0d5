//! Books to measure on: just loaded, with tags in memory order or shuffled.

use crate::store::Store;
use crate::words::*;
use draw::Rng;

/// In which order the kinds of a book come.
#[derive(Clone, Copy, PartialEq, Eq)]
pub enum Sheet {
    /// A third each of begins, ends and texts, at most 12 deep, in no order to be guessed.
    Random,
    /// As planners write sheets: sections of passes, each pass with the same few settings.
    Regular,
}

pub const SHEETS: [(Sheet, &str); 2] = [(Sheet::Random, "random"), (Sheet::Regular, "regular")];

/// Passes of a section, and settings of a pass.
const PASSES: usize = 7;
const SETTINGS: usize = 3;

impl Sheet {
    /// n properly nested kinds.
    pub fn kinds(self, n: usize, rng: &mut Rng) -> Vec<u8> {
        match self {
            Sheet::Random => draw::nested(n, |open, may_begin| match rng.below(3) {
                0 if open < 12 && may_begin => BEGIN,
                1 if open > 0 => END,
                _ => TEXT,
            }),
            Sheet::Regular => {
                let section = section();
                let mut kinds = section.repeat(n / section.len());
                kinds.resize(n, TEXT);
                kinds
            }
        }
    }
}

/// One section: a setting is an element with a text inside.
fn section() -> Vec<u8> {
    let around = |inside: Vec<u8>| [vec![BEGIN], inside, vec![END]].concat();
    let pass = around(around(vec![TEXT]).repeat(SETTINGS));
    around(pass.repeat(PASSES))
}

/// The words of a loaded book, with room for an element more; None where the load is refused.
pub fn loaded<S: Store>(s: u32, r: u32, kinds: &[u8]) -> Option<Vec<u32>> {
    let mut words = vec![0; words_for(kinds.len() + 2)];
    (S::load(s, r, 7, kinds, &mut words)[0] == 0).then_some(words)
}

/// The same book with tag numbers permuted: following next then jumps about in memory.
pub fn shuffled(words: &[u32], rng: &mut Rng) -> Vec<u32> {
    let n = words[COUNT];
    let mut numbers: Vec<u32> = (0..n).collect();
    for i in (1..numbers.len()).rev() {
        numbers.swap(i, rng.below(i + 1));
    }
    let number = |tag: u32| if tag == NO_TAG { NO_TAG } else { numbers[tag as usize] };
    let mut book = words.to_vec();
    book[FIRST] = number(words[FIRST]);
    for tag in 0..n {
        for field in [NEXT, PRIOR, MATE, UP] {
            book[at(number(tag), field)] = number(words[at(tag, field)]);
        }
        for field in [LABEL, KIND, DEPTH] {
            book[at(number(tag), field)] = words[at(tag, field)];
        }
    }
    book
}
