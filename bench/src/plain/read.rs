//! The calls that leave the labels: mark, hold, the held-pair question, list.

use super::refused;
use super::sound::sound;
use crate::words::*;

/// 1, 2, then for a tag 8, 9 and, for an end, 10; else 0.
fn section_refused(tag: u32, words: &[u32]) -> u32 {
    let refusal = store_refused(words);
    if refusal != 0 {
        return refusal;
    }
    if words[COUNT] <= tag {
        return 8;
    }
    match words[at(tag, KIND)] {
        MARK.. => 9,
        2 => 10,
        _ => 0,
    }
}

pub(super) fn store_refused(words: &[u32]) -> u32 {
    if words.len() < HEADER {
        return 1;
    }
    if sound(words, NO_TAG).is_none() { 2 } else { 0 }
}

pub fn mark(tag: u32, words: &mut [u32]) -> [u32; 2] {
    let refusal = section_refused(tag, words);
    if refusal != 0 {
        return refused(refusal);
    }
    let mate = words[at(tag, MATE)];
    let mut marked = 0;
    let mut x = tag;
    loop {
        let kind = &mut words[at(x, KIND)];
        marked += u32::from(*kind < MARK);
        *kind |= MARK;
        if x == mate {
            break;
        }
        x = words[at(x, NEXT)];
    }
    words[STAMP] += 1;
    [0, marked]
}

pub fn hold(tag: u32, words: &[u32]) -> [u32; 5] {
    let refusal = section_refused(tag, words);
    if refusal != 0 {
        return refused(refusal);
    }
    let mate = words[at(tag, MATE)];
    [0, words[BOOK], tag, words[at(tag, LABEL)], words[at(mate, LABEL)]]
}

pub fn question([book, tag, start, end]: [u32; 4], d: u32, words: &[u32]) -> [u32; 2] {
    let refusal = store_refused(words);
    if refusal != 0 {
        return refused(refusal);
    }
    const STALE: [u32; 2] = [0, 2];
    if book != words[BOOK] {
        return STALE;
    }
    if words[COUNT] <= tag || words[COUNT] <= d {
        return refused(8);
    }
    let kind = words[at(tag, KIND)];
    if kind & 15 != u32::from(BEGIN) {
        return refused(10);
    }
    let labels = (words[at(tag, LABEL)], words[at(words[at(tag, MATE)], LABEL)]);
    if labels != (start, end) || kind >= MARK {
        return STALE;
    }
    if words[at(d, KIND)] >= MARK {
        return refused(9);
    }
    let label = words[at(d, LABEL)];
    [0, u32::from(start < label && label < end)]
}

/// Calls with each unmarked tag strictly inside a begin, or of the whole book, and its label; how many there are.
/// The words must say a store.
fn inside(begin: u32, words: &[u32], mut each: impl FnMut(usize, u32, u32)) -> usize {
    // SAFETY: along next from a tag of a sound store there are tags of it alone, up to no tag.
    let field = |x: u32, k: usize| unsafe { *words.get_unchecked(at(x, k)) };
    let (mut x, last) = match begin {
        NO_TAG => (words[FIRST], NO_TAG),
        _ => (words[at(begin, NEXT)], words[at(begin, MATE)]),
    };
    let mut count = 0;
    while x != last {
        if field(x, KIND) < MARK {
            each(count, x, field(x, LABEL));
            count += 1;
        }
        x = field(x, NEXT);
    }
    count
}

pub fn list(begin: u32, words: &[u32], tags: &mut [u32], labels: &mut [u32]) -> [u32; 2] {
    let mut refusal = if begin == NO_TAG { store_refused(words) } else { section_refused(begin, words) };
    if refusal == 0 && begin != NO_TAG && words[at(begin, KIND)] != u32::from(BEGIN) {
        refusal = 10;
    }
    if refusal != 0 {
        return refused(refusal);
    }
    // Lists that hold all tags of the book hold any part; shorter ones are counted for before they are written.
    let room = tags.len().min(labels.len());
    if room < words[COUNT] as usize && room < inside(begin, words, |_, _, _| ()) {
        return refused(11);
    }
    let count = inside(begin, words, |i, tag, label| {
        tags[i] = tag;
        labels[i] = label;
    });
    [0, count as u32]
}
