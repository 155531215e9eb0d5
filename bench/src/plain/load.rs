//! Load.

use super::refused;
use super::shape::Shape;
use super::spread::Spread;
use crate::words::*;
use std::hint::select_unpredictable;

/// 4 or 5 where the kinds are not those of a book, else 0.
pub(super) fn kinds_refused(kinds: &[u8]) -> u32 {
    if kinds.iter().any(|kind| !(BEGIN..=TEXT).contains(kind)) {
        return 4;
    }
    let mut depth = 0i32;
    let mut low = 0;
    for &kind in kinds {
        depth += i32::from(kind == BEGIN) - i32::from(kind == END);
        low = low.min(depth);
    }
    if low < 0 || depth != 0 { 5 } else { 0 }
}

pub fn load(s: u32, r: u32, book: u32, kinds: &[u8], words: &mut [u32]) -> [u32; 3] {
    let Some(shape) = Shape::new(s, r) else { return refused(3) };
    let n = kinds.len();
    if n > MAX_TAGS {
        return refused(6);
    }
    if words.len() < words_for(n) {
        return refused(1);
    }
    let refusal = kinds_refused(kinds);
    if refusal != 0 {
        return refused(refusal);
    }
    let height = shape.load_height(n);
    if !shape.fits(height) {
        return refused(7);
    }
    let n = n as u32;
    let first = if n == 0 { NO_TAG } else { 0 };
    words[..HEADER].copy_from_slice(&[1, s, r, height as u32, n, first, book, 0]);
    let mut labels = Spread::new(&shape, u64::from(n), height - 1);
    let mut next = 0;
    let label = |x: u32| {
        let label = labels.label(u64::from(x), next);
        next = label + 1;
        label as u32
    };
    write_tags(kinds, 0, [NO_TAG; 3], 0, label, words);
    [0, n, height as u32]
}

/// The records of properly nested tags, numbered from `first` on, which stand between two others in the element of a begin, with
/// so many elements around them.
pub(super) fn write_tags(
    kinds: &[u8],
    first: u32,
    [before, behind, up]: [u32; 3],
    mut depth: u32,
    mut label: impl FnMut(u32) -> u32,
    words: &mut [u32],
) {
    let end = first + kinds.len() as u32;
    let mut open = up;
    for (x, &kind) in (first..end).zip(kinds) {
        // A begin's mate is written when its end comes, and its own up is the stack. Kinds come in no order that a
        // processor could guess, so a tag that is no end goes the same way with itself for a mate.
        let mate = select_unpredictable(kind == END, open, x);
        words[at(mate, MATE)] = x;
        let up = select_unpredictable(kind == END, words[at(mate, UP)], open);
        let next = if x + 1 < end { x + 1 } else { behind };
        let prior = if x > first { x - 1 } else { before };
        depth -= u32::from(kind == END);
        words[at(x, 0)..][..RECORD].copy_from_slice(&[label(x), next, prior, mate, up, u32::from(kind), depth]);
        depth += u32::from(kind == BEGIN);
        open = select_unpredictable(kind == BEGIN, x, up);
    }
}
