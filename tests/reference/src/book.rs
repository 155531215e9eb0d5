//! The book: a tree, its tags, and the calls on it. A book is always sound; the words are dealt with elsewhere.

use crate::fault::{Blunder, Fault};
use crate::load::nest;
use crate::params::MAX_TAGS;
use crate::reply::{Answer, Held, Inserted, Loaded, Refusal};
use crate::tag::{Kind, Tag};
use crate::tree::Tree;
use crate::words::{NO_TAG, words_for};

#[derive(Clone, PartialEq, Eq, Debug)]
pub struct Book {
    pub tree: Tree,
    pub tags: Vec<Tag>,
    /// The book number, the caller's.
    pub number: u32,
    /// Accepted changes since the load.
    pub stamp: u64,
    pub fault: Fault,
}

impl Book {
    /// What is replied of a book that has come into words as a whole.
    pub fn loaded(&self) -> Loaded {
        Loaded { tags: self.tags.len() as u32, height: self.tree.height }
    }

    /// Refusals after 1 and 2: 4, 8, 9, 6, 7. `len` is the number of words lent.
    pub fn insert(&mut self, kind: u8, place: u32, len: usize) -> Result<Inserted, Refusal> {
        let kinds: &[u8] = match Kind::of_byte(kind) {
            Some(Kind::Begin) => &[1, 2],
            Some(Kind::Text) => &[3],
            _ => return Err(Refusal::Kind),
        };
        if matches!(self.fault, Fault::Misputs(_)) {
            // Blunders are those of whole sheets.
            self.fault = Fault::None;
        }
        self.insert_row(kinds, place, len)
    }

    /// A whole sheet (document 02, CR 5). Refusals after 1 and 2: 4, 5, 8, 9, 6, 7.
    pub fn insert_sheet(&mut self, kinds: &[u8], place: u32, len: usize) -> Result<Inserted, Refusal> {
        if self.fault.misputs(Blunder::NestingLate) {
            self.unmarked_place(place)?;
        }
        // Whatever stands around them: kinds and nesting are told before the place is looked at.
        nest(kinds, 0, None, 0)?;
        if kinds.is_empty() && !self.fault.misputs(Blunder::EmptyStamps) {
            self.unmarked_place(place)?;
            return Ok(Inserted { first: self.tags.len() as u32, moved: 0, split: 0 });
        }
        self.insert_row(kinds, place, len)
    }

    /// Puts tags in one by one, each behind the one before. Refusals: 8, 9, 6, 7.
    fn insert_row(&mut self, kinds: &[u8], place: u32, len: usize) -> Result<Inserted, Refusal> {
        let after = self.unmarked_place(place)?;
        let old = self.tags.len();
        let new = old + kinds.len();
        if new as u64 > MAX_TAGS || len < words_for(new) {
            return Err(Refusal::TooMany);
        }
        if !self.labels_suffice(new) {
            return Err(Refusal::Labels);
        }

        let before = self.tags.clone();
        let up = match after {
            _ if self.fault.misputs(Blunder::NoUp) => None,
            Some(y) if self.tags[y].kind == Kind::Begin => Some(y),
            Some(y) => self.tags[y].up,
            None => None,
        };
        let around = if self.fault.misputs(Blunder::NoDepth) { 0 } else { self.open_after(after) };
        self.tags.extend(nest(kinds, old, up, around)?);
        let (split, counted) = self.put(old, after);
        self.stamp += if self.fault.misputs(Blunder::StampByTags) { kinds.len() as u64 } else { 1 };
        let mut moved = counted.unwrap_or_else(|| self.moved(&before));
        if self.fault == Fault::MovedOffByOne {
            moved += 1;
        }
        Ok(Inserted { first: old as u32, moved, split })
    }

    /// How many elements are open right after a tag, or at the front: by the kinds up to there, not by ups.
    fn open_after(&self, place: Option<usize>) -> usize {
        let Some(y) = place else { return 0 };
        let order = self.order();
        let last = order.iter().position(|&x| x == y).expect("a tag of the book");
        let many = |kind| order[..=last].iter().filter(|&&x| self.tags[x].kind == kind).count();
        many(Kind::Begin) - many(Kind::End)
    }

    /// Puts the tags from this number on into the tree, and gives the greatest height that was split. A blunder may bring
    /// a moved number of its own.
    fn put(&mut self, old: usize, after: Option<usize>) -> (u32, Option<u32>) {
        let backwards = self.fault.misputs(Blunder::Backwards);
        let mut numbers: Vec<usize> = (old..self.tags.len()).collect();
        if backwards {
            numbers.reverse();
        }
        let (mut split, mut place) = (0, after);
        let mut counted = self.fault.misputs(Blunder::MovedInTurn).then_some(0);
        for x in numbers {
            let before = counted.map(|_| self.tags[..x].to_vec());
            let height = self.tree.insert(x, place, &mut self.tags, self.fault);
            split = if self.fault.misputs(Blunder::LastSplit) { height } else { split.max(height) };
            counted = counted.zip(before).map(|(sum, before)| sum + self.moved(&before));
            place = if backwards { after } else { Some(x) };
        }
        (split, counted)
    }

    /// Of the tags that stood before, how many have another label now. Only those count that are unmarked before and after
    /// (document 02, CR 4).
    fn moved(&self, before: &[Tag]) -> u32 {
        let counts = |tag: &Tag| !tag.marked || self.fault == Fault::MarkedMoved;
        let lost = |(old, new): &(&Tag, &Tag)| old.label != new.label && counts(old) && counts(new);
        before.iter().zip(&self.tags).filter(lost).count() as u32
    }

    /// Whether tags can be put in one by one up to this number: each that fills the root needs one height more.
    fn labels_suffice(&self, new: usize) -> bool {
        let (params, mut height) = (self.tree.params, self.tree.height);
        (self.tags.len()..new).all(|n| {
            let fills = n as u64 + 1 >= params.limit(height);
            let first = height == self.tree.height;
            height += u32::from(fills);
            !fills || params.labels_fit(height) || (!first && self.fault.misputs(Blunder::OneHeight))
        })
    }

    /// Refusals after 1 and 2: 8, 9, 10.
    pub fn mark(&mut self, tag: u32) -> Result<u32, Refusal> {
        let tag = self.section(tag)?;
        let mut marked = 0;
        for x in self.inside(tag).into_iter().chain([tag, self.tags[tag].mate]) {
            // A text is its own mate and comes twice; it counts once.
            if !self.tags[x].marked {
                self.tags[x].marked = true;
                marked += 1;
            }
        }
        self.stamp += 1;
        Ok(marked)
    }

    /// Refusals after 1 and 2: 8, 9, 10.
    pub fn hold(&self, tag: u32) -> Result<Held, Refusal> {
        let x = self.section(tag)?;
        let (start, end) = self.pair(x);
        Ok(Held { book: self.number, tag, start, end })
    }

    /// After 1 and 2: stale by book number, 8 for the pair, 8 for d, 10, stale by label or mark, 9 for d.
    pub fn question(&self, pair: Held, d: u32) -> Result<Answer, Refusal> {
        if pair.book != self.number {
            return Ok(Answer::Stale);
        }
        let x = self.tag(pair.tag)?;
        let d = self.tag(d)?;
        if self.tags[x].kind != Kind::Begin {
            return Err(Refusal::WrongTag);
        }
        if (pair.start, pair.end) != self.pair(x) || self.tags[x].marked {
            return Ok(Answer::Stale);
        }
        if self.tags[d].marked {
            return Err(Refusal::Marked);
        }
        Ok(if self.encloses(x, d) { Answer::Yes } else { Answer::No })
    }

    /// Refusals after 1 and 2: 8, 9, 10, 11.
    pub fn list(&self, begin: u32, tags: &mut [u32], labels: &mut [u32]) -> Result<u32, Refusal> {
        let inside = if begin == NO_TAG { self.order() } else { self.inside(self.element(begin)?) };
        let shown: Vec<usize> = inside.into_iter().filter(|&x| !self.tags[x].marked).collect();
        if tags.len() < shown.len() || labels.len() < shown.len() {
            return Err(Refusal::ShortList);
        }
        for (i, &x) in shown.iter().enumerate() {
            tags[i] = x as u32;
            labels[i] = self.tags[x].label as u32;
        }
        Ok(shown.len() as u32)
    }

    /// All tags in book order.
    pub fn order(&self) -> Vec<usize> {
        self.tree.leaves()
    }

    fn tag(&self, tag: u32) -> Result<usize, Refusal> {
        let tag = tag as usize;
        if tag < self.tags.len() { Ok(tag) } else { Err(Refusal::NoSuchTag) }
    }

    /// A tag or the front.
    fn place(&self, place: u32) -> Result<Option<usize>, Refusal> {
        if place == NO_TAG { Ok(None) } else { self.tag(place).map(Some) }
    }

    /// A tag that is not marked, or the front.
    fn unmarked_place(&self, place: u32) -> Result<Option<usize>, Refusal> {
        match self.place(place)? {
            Some(y) if self.tags[y].marked => Err(Refusal::Marked),
            after => Ok(after),
        }
    }

    /// An unmarked begin or text. Refusals: 8, 9, 10.
    pub(crate) fn section(&self, tag: u32) -> Result<usize, Refusal> {
        self.unmarked(tag, &[Kind::Begin, Kind::Text])
    }

    /// An unmarked begin. Refusals: 8, 9, 10.
    pub(crate) fn element(&self, tag: u32) -> Result<usize, Refusal> {
        self.unmarked(tag, &[Kind::Begin])
    }

    fn unmarked(&self, tag: u32, kinds: &[Kind]) -> Result<usize, Refusal> {
        let x = self.tag(tag)?;
        if self.tags[x].marked {
            return Err(Refusal::Marked);
        }
        if kinds.contains(&self.tags[x].kind) { Ok(x) } else { Err(Refusal::WrongTag) }
    }

    /// Start and end label of a section, as words.
    fn pair(&self, x: usize) -> (u32, u32) {
        (self.tags[x].label as u32, self.tags[self.tags[x].mate].label as u32)
    }

    /// The tags strictly between a tag and its mate, by the tree and not by labels.
    fn inside(&self, x: usize) -> Vec<usize> {
        let mate = self.tags[x].mate;
        self.order().into_iter().skip_while(|&y| y != x).skip(1).take_while(|&y| x != mate && y != mate).collect()
    }

    /// Whether d stands under the begin x, by ups and not by labels.
    fn encloses(&self, x: usize, d: usize) -> bool {
        let mut around = self.tags[d].up;
        while let Some(up) = around {
            if up == x {
                return true;
            }
            around = self.tags[up].up;
        }
        false
    }
}
