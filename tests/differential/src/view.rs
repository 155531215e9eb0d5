//! What a walk knows of the store, read afresh from the words before each call.

use draw::Rng;
use reference::{Fault, Kind, NO_TAG, Tag};

/// A held pair: book, tag, start label, end label.
pub type Pair = [u32; 4];

/// Of words that are no store it knows nothing, as of a book without tags.
#[derive(Default)]
pub struct View {
    pub order: Vec<usize>,
    pub tags: Vec<Tag>,
    pub book: u32,
}

impl View {
    pub fn of(words: &[u32]) -> Option<View> {
        let book = reference::read(words, Fault::None)?;
        Some(View { order: book.order(), tags: book.tags, book: book.number })
    }

    pub fn any(&self, rng: &mut Rng) -> u32 {
        rng.below(self.tags.len()) as u32
    }

    pub fn last(&self) -> u32 {
        self.order.last().map_or(NO_TAG, |&tag| tag as u32)
    }

    /// A tag that is often there, sometimes just past the last, sometimes far out.
    pub fn odd(&self, rng: &mut Rng) -> u32 {
        let n = self.tags.len() as u32;
        let (any, far) = (self.any(rng), rng.word());
        rng.pick(&[any, any, n, n.wrapping_sub(1), n + 1, 1 << 31, NO_TAG, NO_TAG - 1, far])
    }

    /// An unmarked tag of the kind, if a few draws find one.
    pub fn unmarked(&self, rng: &mut Rng, kind: Option<Kind>) -> Option<u32> {
        (0..8).map(|_| self.any(rng)).find(|&tag| {
            self.tags.get(tag as usize).is_some_and(|it| !it.marked && kind.is_none_or(|kind| it.kind == kind))
        })
    }

    /// A tag of the element but its end: mostly one inside, where there is one.
    pub fn inside(&self, rng: &mut Rng, begin: u32) -> u32 {
        let Some(tag) = self.tags.get(begin as usize) else { return NO_TAG };
        let at = |x: usize| self.order.iter().position(|&it| it == x).unwrap_or(0);
        let (from, to) = (at(begin as usize), at(tag.mate));
        self.order[from + rng.below(to.saturating_sub(from).max(1))] as u32
    }

    /// Whether a number is that of an unmarked begin.
    pub fn is_section(&self, tag: u32) -> bool {
        self.tags.get(tag as usize).is_some_and(|it| it.kind == Kind::Begin && !it.marked)
    }

    /// The begin of an element that has something in it, if a few draws find one.
    pub fn around(&self, rng: &mut Rng) -> Option<u32> {
        let inside = self.unmarked(rng, None)?;
        self.tags[inside as usize].up.map(|up| up as u32)
    }

    /// The mate of a tag; of a number that is no tag's, the number.
    pub fn mate(&self, tag: u32) -> u32 {
        self.tags.get(tag as usize).map_or(tag, |it| it.mate as u32)
    }

    /// The pair of a tag as it is now, held or not.
    pub fn pair(&self, tag: u32) -> Pair {
        let label = |tag: u32| self.tags.get(tag as usize).map_or(0, |it| it.label as u32);
        [self.book, tag, label(tag), label(self.mate(tag))]
    }

    /// Mostly the pair as it is; sometimes one word of it is another.
    pub fn nearly(&self, rng: &mut Rng, pair: Pair) -> Pair {
        let [mut book, mut tag, mut start, mut end] = pair;
        match rng.below(12) {
            0 => book = book.wrapping_add(1),
            1 => tag = self.odd(rng),
            2 => start = start.wrapping_add(1),
            3 => end = end.wrapping_sub(1),
            _ => {}
        }
        [book, tag, start, end]
    }
}
