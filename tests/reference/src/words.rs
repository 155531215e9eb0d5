//! A book as words: the header and seven words a tag.

use crate::book::Book;

/// Words of the header.
pub const HEADER: usize = 8;

/// Words of a tag.
pub const RECORD: usize = 7;

/// No tag; as a place, the front of the book.
pub const NO_TAG: u32 = u32::MAX;

/// Words for a store of n tags.
pub fn words_for(n: usize) -> usize {
    HEADER + RECORD * n
}

fn word(tag: Option<usize>) -> u32 {
    tag.map_or(NO_TAG, |tag| tag as u32)
}

/// Exactly the words that the book takes, none past them.
pub fn to_words(book: &Book) -> Vec<u32> {
    let order = book.order();
    let n = book.tags.len();
    let params = book.tree.params;
    let mut words = vec![
        1,
        params.s as u32,
        params.r as u32,
        book.tree.height,
        n as u32,
        word(order.first().copied()),
        book.number,
        book.stamp as u32,
    ];
    words.resize(words_for(n), 0);
    for (i, &tag) in order.iter().enumerate() {
        let next = order.get(i + 1).copied();
        let prior = i.checked_sub(1).map(|before| order[before]);
        let it = &book.tags[tag];
        let record =
            [it.label as u32, word(next), word(prior), it.mate as u32, word(it.up), it.kind_word(), it.depth as u32];
        words[HEADER + RECORD * tag..][..RECORD].copy_from_slice(&record);
    }
    words
}
