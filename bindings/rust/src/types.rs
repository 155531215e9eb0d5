//! What calls take and reply.

use crate::refusal::Refusal;
use std::error::Error;
use std::fmt;

/// A tag's number: it never changes. The order of numbers is that of issue, not that of the book.
#[derive(Clone, Copy, PartialEq, Eq, PartialOrd, Ord, Hash, Debug)]
#[repr(transparent)]
pub struct Tag(u32);

impl Tag {
    /// The tag of a number; none for 4,294,967,295, which stands for no tag.
    pub const fn new(number: u32) -> Option<Tag> {
        match number {
            NO_TAG => None,
            _ => Some(Tag(number)),
        }
    }

    /// Its number.
    pub const fn number(self) -> u32 {
        self.0
    }

    /// A number that the store has issued.
    pub(crate) const fn issued(number: u32) -> Tag {
        Tag(number)
    }
}

impl fmt::Display for Tag {
    fn fmt(&self, f: &mut fmt::Formatter<'_>) -> fmt::Result {
        self.0.fmt(f)
    }
}

impl From<Tag> for u32 {
    fn from(tag: Tag) -> u32 {
        tag.0
    }
}

impl TryFrom<u32> for Tag {
    type Error = NotATag;

    fn try_from(number: u32) -> Result<Tag, NotATag> {
        Tag::new(number).ok_or(NotATag)
    }
}

/// 4,294,967,295 is the number of no tag.
#[derive(Clone, Copy, PartialEq, Eq, Hash, Debug)]
pub struct NotATag;

impl fmt::Display for NotATag {
    fn fmt(&self, f: &mut fmt::Formatter<'_>) -> fmt::Result {
        write!(f, "{NO_TAG} stands for no tag, and no tag has it for a number")
    }
}

impl Error for NotATag {}

/// A tag's place at the moment: labels rise along the book, and any insertion may change them.
#[derive(Clone, Copy, PartialEq, Eq, PartialOrd, Ord, Hash, Debug, Default)]
#[repr(transparent)]
pub struct Label(pub u32);

impl fmt::Display for Label {
    fn fmt(&self, f: &mut fmt::Formatter<'_>) -> fmt::Result {
        self.0.fmt(f)
    }
}

/// What a tag is.
#[derive(Clone, Copy, PartialEq, Eq, Hash, Debug)]
#[repr(u8)]
pub enum Kind {
    /// The begin of an element.
    Begin = 1,
    /// The end of the innermost element that is not ended yet.
    End = 2,
    /// A text.
    Text = 3,
}

/// The kind of a byte that [`kinds_of_xml`](crate::kinds_of_xml) wrote; any other byte is none, as load says of it.
impl TryFrom<u8> for Kind {
    type Error = Refusal;

    fn try_from(byte: u8) -> Result<Kind, Refusal> {
        [Kind::Begin, Kind::End, Kind::Text].into_iter().find(|kind| *kind as u8 == byte).ok_or(Refusal::Kind)
    }
}

/// Where an insertion goes.
#[derive(Clone, Copy, PartialEq, Eq, Hash, Debug)]
pub enum Place {
    /// Before every tag.
    Front,
    /// Right after a tag: after a begin, that is inside its element.
    After(Tag),
}

/// What is listed.
#[derive(Clone, Copy, PartialEq, Eq, Hash, Debug)]
pub enum Within {
    /// The whole book.
    Book,
    /// What stands strictly inside the element of a begin tag.
    Section(Tag),
}

/// The reply of a load, and of reading a file.
#[derive(Clone, Copy, PartialEq, Eq, Hash, Debug)]
#[non_exhaustive]
pub struct Loaded {
    /// How many tags the book has.
    pub tags: u32,
    /// The height of its tree.
    pub height: u32,
}

impl Loaded {
    /// Of a reply to a load, or to the reading of a file.
    pub(crate) fn of(reply: vekhturop_sys::Loaded) -> Result<Loaded, Refusal> {
        Refusal::check(reply.refusal)?;
        Ok(Loaded { tags: reply.tags, height: reply.height })
    }
}

/// The reply of an insertion.
#[derive(Clone, Copy, PartialEq, Eq, Hash, Debug)]
#[non_exhaustive]
pub struct Inserted {
    /// The new text, the new element's begin, or a sheet's first tag. An empty sheet has none: first and last are then the
    /// number that the next new tag will have.
    pub first: Tag,
    /// The new text, the new element's end, or a sheet's last tag.
    pub last: Tag,
    /// How many unmarked tags that were there before have another label now.
    pub moved: u32,
    /// The height of the node that was split, 0 where none was; of more than one, the greatest.
    pub split: u32,
}

impl Inserted {
    /// Of a reply to an insertion of so many tags. One that is accepted brings a book to at most 200,000 tags.
    pub(crate) fn of(reply: vekhturop_sys::Inserted, tags: usize) -> Result<Inserted, Refusal> {
        Refusal::check(reply.refusal)?;
        let last = reply.first + (tags as u32).saturating_sub(1);
        let (first, last) = (Tag::issued(reply.first), Tag::issued(last));
        Ok(Inserted { first, last, moved: reply.moved, split: reply.split })
    }
}

/// A section's two labels as they were when it was held, to be shown with later writes.
#[derive(Clone, Copy, PartialEq, Eq, Hash, Debug)]
#[non_exhaustive]
pub struct HeldPair {
    /// The number of the book.
    pub book: u32,
    /// The section's begin tag, or the text.
    pub tag: Tag,
    /// The label of its begin.
    pub start: Label,
    /// The label of its end; a text's own label.
    pub end: Label,
}

impl HeldPair {
    /// A pair that was kept elsewhere, for instance by a session on another machine.
    pub const fn new(book: u32, tag: Tag, start: Label, end: Label) -> HeldPair {
        HeldPair { book, tag, start, end }
    }
}

/// Whether a held pair's element encloses a tag.
#[derive(Clone, Copy, PartialEq, Eq, Hash, Debug)]
pub enum Answer {
    /// The tag is not strictly inside the element.
    No,
    /// The tag is strictly inside the element.
    Yes,
    /// The pair is of another book, a label of it has changed, or its element is marked: it must be held again.
    Stale,
}

const NO_TAG: u32 = u32::MAX;

impl Place {
    pub(crate) fn number(self) -> u32 {
        match self {
            Place::Front => NO_TAG,
            Place::After(tag) => tag.0,
        }
    }
}

impl Within {
    pub(crate) fn number(self) -> u32 {
        match self {
            Within::Book => NO_TAG,
            Within::Section(begin) => begin.0,
        }
    }
}

impl Answer {
    /// The store answers 0, 1 or 2. Of a library that answers anything else the careful reading is stale: hold again.
    pub(crate) fn of(number: u32) -> Answer {
        match number {
            0 => Answer::No,
            1 => Answer::Yes,
            _ => Answer::Stale,
        }
    }
}
