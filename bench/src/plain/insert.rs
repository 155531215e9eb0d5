//! Insertion of a text, an element or a whole sheet: of a row of tags that goes in behind a place.

use super::load::{kinds_refused, write_tags};
use super::refused;
use super::sound::{Sound, sound};
use super::spread::Spread;
use crate::words::*;

pub fn insert(kind: u8, place: u32, words: &mut [u32]) -> [u32; 4] {
    match kind {
        BEGIN => put(&[BEGIN, END], 0, place, words),
        TEXT => put(&[TEXT], 0, place, words),
        _ => put(&[], 4, place, words),
    }
}

pub fn insert_sheet(kinds: &[u8], place: u32, words: &mut [u32]) -> [u32; 4] {
    put(kinds, kinds_refused(kinds), place, words)
}

/// Inserts tags of these kinds, where nothing is wrong with them: `wrong` is what is told of them behind 1 and 2.
fn put(kinds: &[u8], wrong: u32, place: u32, words: &mut [u32]) -> [u32; 4] {
    if words.len() < HEADER {
        return refused(1);
    }
    let watched = if place == NO_TAG { words[FIRST] } else { place };
    let Some(store) = sound(words, watched) else { return refused(2) };
    let refusal = if wrong != 0 { wrong } else { store.refusal(kinds.len(), place, words) };
    if refusal != 0 {
        return refused(refusal);
    }
    if kinds.is_empty() {
        return [0, store.n, 0, 0];
    }
    let split = store.highest_full(kinds.len() as u64);
    link(kinds, place, words);
    let moved = store.renumber(words, place, kinds.len() as u64, split);
    if store.height <= split {
        words[HEIGHT] = split as u32 + 1;
    }
    words[STAMP] += 1;
    [0, store.n, moved, split as u32]
}

/// Puts the tags, not yet labelled, behind a place.
fn link(kinds: &[u8], place: u32, words: &mut [u32]) {
    let first = words[COUNT];
    let (up, depth) = match place {
        NO_TAG => (NO_TAG, 0),
        y if words[at(y, KIND)] == u32::from(BEGIN) => (y, words[at(y, DEPTH)] + 1),
        y => (words[at(y, UP)], words[at(y, DEPTH)]),
    };
    let slot = if place == NO_TAG { FIRST } else { at(place, NEXT) };
    let behind = std::mem::replace(&mut words[slot], first);
    words[COUNT] = first + kinds.len() as u32;
    if behind != NO_TAG {
        words[at(behind, PRIOR)] = words[COUNT] - 1;
    }
    write_tags(kinds, first, [place, behind, up], depth, |_| NO_TAG, words);
}

impl Sound {
    /// Refusals behind those of the kinds, or 0.
    fn refusal(&self, new: usize, place: u32, words: &[u32]) -> u32 {
        if place != NO_TAG && self.n <= place {
            return 8;
        }
        if place != NO_TAG && words[at(place, KIND)] >= MARK {
            return 9;
        }
        let after = self.n as usize + new;
        if after > MAX_TAGS || words.len() < words_for(after) {
            return 6;
        }
        let split = self.highest_full(new as u64);
        if self.height <= split && !self.shape.fits(split + 1) { 7 } else { 0 }
    }

    /// The greatest height at which a node is split on the way of so many tags to a place, or 0. Where it is the root's or
    /// more, all of the book is under what is split.
    fn highest_full(&self, new: u64) -> usize {
        let fills = |leaves: u32, h: usize| u64::from(leaves) + new >= self.shape.limits[h];
        if fills(self.n, self.height) {
            return (self.height..).take_while(|&h| fills(self.n, h)).last().unwrap_or(self.height);
        }
        (1..self.height).rev().find(|&h| fills(self.leaves[h], h)).unwrap_or(0)
    }

    /// Labels `new` tags just linked behind a place, where h is the highest that is split (0: none), and what must move for
    /// them. Gives how many unmarked ones of the tags that stood before moved.
    fn renumber(&self, words: &mut [u32], place: u32, new: u64, h: usize) -> u32 {
        let shape = &self.shape;
        let label = if place == NO_TAG { 0 } else { u64::from(words[at(place, LABEL)]) };
        let width = shape.widths[h];
        let bound = label - label % shape.widths[h + 1] + shape.widths[h + 1];
        let number = label - label % width;
        let (mut row, by);
        if h == 0 {
            let (x, next) = if place == NO_TAG { (words[FIRST], 0) } else { (words[at(place, NEXT)], label + 1) };
            row = Row { store: self, words, x, moved: 0 };
            row.spread(new, 0, next);
            by = new;
        } else {
            let (x, before) = first_leaf(words, place, number);
            let leaves = u64::from(if h < self.height { self.leaves[h] } else { self.n });
            // The first split comes with the tag that fills the node. From there each takes as many as make s - 1 trees.
            let filling = shape.limits[h] - leaves;
            let split = filling + self.in_splits(h, new - filling);
            row = Row { store: self, words, x, moved: 0 };
            row.path(h, before + split, new - split, leaves + new, number);
            by = ((leaves + split) / shape.least[h] - 1) * width;
        }
        row.shift(by as u32, bound);
        // New tags had no label yet, so they count above.
        row.moved - new as u32
    }

    /// How many of the tags that go in behind one another are taken up by splits at a height.
    fn in_splits(&self, h: usize, new: u64) -> u64 {
        let each = (self.shape.s - 1) * self.shape.least[h];
        new / each * each
    }
}

/// Tags along next that get labels.
struct Row<'a> {
    store: &'a Sound,
    words: &'a mut [u32],
    x: u32,
    moved: u32,
}

impl Row<'_> {
    fn label(&mut self, label: u32) {
        let at = at(self.x, 0);
        let moves = self.words[at + LABEL] != label;
        self.moved += u32::from(moves) & u32::from(self.words[at + KIND] < MARK);
        self.words[at + LABEL] = label;
        self.x = self.words[at + NEXT];
    }

    /// So many leaves under complete trees of a height, which are numbered from `next` on.
    fn spread(&mut self, count: u64, height: usize, mut next: u64) {
        let store = self.store;
        let mut labels = Spread::new(&store.shape, count, height);
        for i in 0..count {
            next = labels.label(i, next);
            self.label(next as u32);
            next += 1;
        }
    }

    /// The same, but the tree that has the tag put in last, the c-th leaf of all, has e leaves more right behind that tag.
    /// Below that tree's top it is so again, one height lower, with what splits there leave over.
    fn path(&mut self, height: usize, c: u64, e: u64, count: u64, number: u64) {
        if height == 0 || e == 0 {
            return self.spread(count, height, number);
        }
        let each = self.store.shape.least[height];
        let trees = (c - 1) / each;
        let width = self.store.shape.widths[height];
        let here = number + trees * width;
        self.spread(trees * each, height, number);
        let split = self.store.in_splits(height - 1, e);
        self.path(height - 1, c - trees * each + split, e - split, each + e, here);
        self.spread(count - (trees + 1) * each - e, height, here + width);
    }

    /// What stands right of it, up to a number, moves.
    fn shift(&mut self, by: u32, bound: u64) {
        while self.x != NO_TAG && u64::from(self.words[at(self.x, LABEL)]) < bound {
            self.label(self.words[at(self.x, LABEL)] + by);
        }
    }
}

/// The first leaf of the node with this number around a place, and how many stand from it up to the place; the front's is
/// the first tag, and none stands before it.
fn first_leaf(words: &[u32], place: u32, number: u64) -> (u32, u64) {
    if place == NO_TAG {
        return (words[FIRST], 0);
    }
    let (mut x, mut many) = (place, 1);
    loop {
        let prior = words[at(x, PRIOR)];
        if prior == NO_TAG || u64::from(words[at(prior, LABEL)]) < number {
            return (x, many);
        }
        (x, many) = (prior, many + 1);
    }
}
