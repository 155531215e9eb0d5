//! Document 01's word layout, with document 02's depth.

/// No tag; as a place, the front of the book.
pub const NO_TAG: u32 = u32::MAX;

/// No store holds more tags than this.
pub const MAX_TAGS: usize = 200_000;

/// Words of the header, and of a tag.
pub const HEADER: usize = 8;
pub const RECORD: usize = 7;

/// Words of the header by what they hold; s and r are words 1 and 2.
pub const HEIGHT: usize = 3;
pub const COUNT: usize = 4;
pub const FIRST: usize = 5;
pub const BOOK: usize = 6;
pub const STAMP: usize = 7;

/// Words of a tag by what they hold.
pub const LABEL: usize = 0;
pub const NEXT: usize = 1;
pub const PRIOR: usize = 2;
pub const MATE: usize = 3;
pub const UP: usize = 4;
pub const KIND: usize = 5;
pub const DEPTH: usize = 6;

/// Kinds; a marked tag's is greater by MARK.
pub use draw::{BEGIN, END, TEXT};
pub const MARK: u32 = 16;

/// Where a word of a tag stands.
pub fn at(tag: u32, field: usize) -> usize {
    HEADER + RECORD * tag as usize + field
}

/// Words for so many tags.
pub fn words_for(tags: usize) -> usize {
    HEADER + RECORD * tags
}
