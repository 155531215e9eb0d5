//! Load: from kinds to a book.

use crate::book::Book;
use crate::fault::Fault;
use crate::params::{MAX_TAGS, Params};
use crate::reply::Refusal;
use crate::tag::{Kind, Tag};
use crate::tree::Tree;
use crate::words::words_for;

/// The tags of bytes that are kinds and nest properly, numbered in their order from `first` on, with `up` around them all,
/// and with it so many elements.
/// Refusals: 4, where a byte is no kind; 5, where begins and ends do not pair up.
pub(crate) fn nest(kinds: &[u8], first: usize, up: Option<usize>, around: usize) -> Result<Vec<Tag>, Refusal> {
    let kinds: Option<Vec<Kind>> = kinds.iter().map(|&byte| Kind::of_byte(byte)).collect();
    let mut tags: Vec<Tag> = Vec::new();
    let mut open: Vec<usize> = Vec::new();
    for (x, kind) in (first..).zip(kinds.ok_or(Refusal::Kind)?) {
        let mut mate = x;
        if kind == Kind::End {
            mate = open.pop().ok_or(Refusal::Nesting)?;
            // A begin's mate is known when its end comes.
            tags[mate - first].mate = x;
        }
        tags.push(Tag::new(kind, mate, open.last().copied().or(up), around + open.len()));
        if kind == Kind::Begin {
            open.push(x);
        }
    }
    if open.is_empty() { Ok(tags) } else { Err(Refusal::Nesting) }
}

impl Book {
    /// Refusals in document 01's order: 3, 6, 1, 4, 5, 7. `len` is the number of words lent.
    pub fn load(s: u32, r: u32, number: u32, kinds: &[u8], len: usize, fault: Fault) -> Result<Book, Refusal> {
        let params = Params::new(s, r, fault).ok_or(Refusal::Parameters)?;
        if kinds.len() as u64 > MAX_TAGS {
            return Err(Refusal::TooMany);
        }
        if len < words_for(kinds.len()) {
            return Err(Refusal::FewWords);
        }
        let mut tags = nest(kinds, 0, None, 0)?;
        if !params.labels_fit(params.load_height(tags.len() as u64)) {
            return Err(Refusal::Labels);
        }
        let tree = Tree::load(params, &mut tags);
        Ok(Book { tree, tags, number, stamp: 0, fault })
    }
}
