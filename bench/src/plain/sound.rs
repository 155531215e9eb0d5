//! The soundness walk: one pass along next.

use super::shape::{HEIGHTS, Shape, Table};
use crate::words::*;
use std::hint::select_unpredictable;

/// What the walk learns of a sound store.
pub struct Sound {
    pub shape: Shape,
    pub height: usize,
    pub n: u32,
    /// By height up to the root's, the leaves under the watched tag's ancestor.
    pub leaves: [u32; HEIGHTS],
}

/// Bit k of entry c: a tag of kind word c may stand in, or close, an open begin of kind word k, or beside itself where
/// none is open. Takes the place of the tests of kind and mark.
pub(super) static PAIRS: [u32; 32] = pairs();

const fn pairs() -> [u32; 32] {
    let mut table = [0; 32];
    table[1] = 1 << 1;
    table[2] = 1 << 1;
    table[3] = 1 << 1 | 1 << 3;
    table[17] = 1 << 1 | 1 << 17;
    table[18] = 1 << 17;
    table[19] = 1 << 1 | 1 << 17 | 1 << 19;
    table
}

/// No label: labels are below it.
pub(super) const NO_LABEL: u64 = 1 << 32;

/// The open nodes by height.
pub(super) struct Levels<'a> {
    shape: &'a Shape,
    /// The height of the root's children.
    under: usize,
    /// The number behind the open node, and the place of its first leaf.
    pub(super) ends: Table,
    firsts: [u32; HEIGHTS],
    /// The number behind the watched tag's ancestor.
    watched: Table,
    leaves: [u32; HEIGHTS],
}

impl<'a> Levels<'a> {
    /// Before the first label.
    pub(super) fn new(shape: &'a Shape, height: usize, watched: Table) -> Levels<'a> {
        let (firsts, leaves) = ([0; HEIGHTS], [0; HEIGHTS]);
        Levels { shape, under: height - 1, ends: shape.widths, firsts, watched, leaves }
    }

    pub(super) fn close(&mut self, h: usize, place: u32) -> Option<()> {
        let leaves = place - self.firsts[h];
        self.leaves[h] = if self.ends[h] == self.watched[h] { leaves } else { self.leaves[h] };
        let leaves = u64::from(leaves);
        (self.shape.least[h] <= leaves && leaves < self.shape.limits[h]).then_some(())
    }

    /// A label that does not go on in the open node of height 1: nodes close, and new ones begin at it.
    pub(super) fn settle(&mut self, label: u64, place: u32) -> Option<()> {
        let mut h = 1;
        let mut meets = false;
        while h <= self.under && self.ends[h] <= label {
            self.close(h, place)?;
            meets = self.ends[h] == label;
            self.ends[h] = label + self.shape.widths[h];
            self.firsts[h] = place;
            h += 1;
        }
        (meets && label < self.ends[h]).then_some(())
    }
}

/// The shape of a tree of this height with n tags; None where there is none.
pub(super) fn shape_of(s: u32, r: u32, height: u32, n: u32) -> Option<Shape> {
    let shape = Shape::new(s, r)?;
    let (height, n) = (height as usize, u64::from(n));
    if height < 1 || !shape.fits(height) || n > MAX_TAGS as u64 {
        return None;
    }
    let few = height > 1 && n < 2 * shape.least[height - 1];
    (n < shape.limits[height] && !few).then_some(shape)
}

/// None where the words are not sound. There must be at least 8 of them.
pub fn sound(words: &[u32], watched: u32) -> Option<Sound> {
    let (height, n) = (words[HEIGHT], words[COUNT]);
    let shape = shape_of(words[1], words[2], height, n)?;
    if words[0] != 1 || words.len() < words_for(n as usize) {
        return None;
    }
    let height = height as usize;
    let leaves = pass(words, &shape, height, n, watched)?;
    Some(Sound { shape, height, n, leaves })
}

/// The numbers behind a label's ancestors.
fn behind(shape: &Shape, label: u64) -> Table {
    shape.widths.map(|width| label - label % width + width)
}

fn pass(words: &[u32], shape: &Shape, height: usize, n: u32, watched: u32) -> Option<[u32; HEIGHTS]> {
    // SAFETY, for every read below: the words hold n records, and the tags read are below n: x is tested first, the tag
    // beside it is x or a begin that was passed.
    let field = |x: u32, k: usize| unsafe { *words.get_unchecked(at(x, k)) };
    let label = if watched < n { u64::from(field(watched, LABEL)) } else { 0 };
    let mut levels = Levels::new(shape, height, behind(shape, label));
    let (mut x, mut before, mut parent) = (words[FIRST], NO_TAG, NO_TAG);
    let (mut expect, mut marks, mut open) = (0, 0, 0);
    for place in 0..n {
        if n <= x {
            return None;
        }
        let label = u64::from(field(x, LABEL));
        // One test: a node's end makes the label that is waited for one that no tag has.
        if label != expect {
            levels.settle(label, place)?;
        }
        // Kinds come in no order that a processor could guess, so nothing branches on them: what differs by kind is
        // where a word is read. Each test is one that every tag of a sound store passes.
        let kind = field(x, KIND);
        if field(x, PRIOR) != before || 32 <= kind {
            return None;
        }
        let beside = if parent < n { parent } else { x };
        if PAIRS[kind as usize] >> (field(beside, KIND) & 31) & 1 == 0 {
            return None;
        }
        let (odd, high) = (kind & 1, kind >> 1 & 1);
        // A begin's and a text's up, an end's mate.
        if field(x, MATE + odd as usize) != parent {
            return None;
        }
        let up = field(x, UP);
        let partner = select_unpredictable(odd == 0, beside, x);
        if up != field(partner, UP) {
            return None;
        }
        // The mate; a begin has none yet, and its prior is compared again.
        if field(partner, PRIOR + high as usize) != select_unpredictable(high == 0, before, x) {
            return None;
        }
        // An end is not inside its own element, which is still open before it.
        let depth = u64::from(field(x, DEPTH));
        if depth + u64::from(1 - odd) != open {
            return None;
        }
        open = depth + u64::from(1 - high);
        marks += kind >> 4;
        parent = select_unpredictable(high == 0, x, up);
        expect = if label + 1 < levels.ends[1] { label + 1 } else { NO_LABEL };
        before = x;
        x = field(x, NEXT);
    }
    for h in 1..height {
        levels.close(h, n)?;
    }
    levels.leaves[height] = n;
    (x == NO_TAG && parent == NO_TAG && words[STAMP] <= n + marks).then_some(levels.leaves)
}
