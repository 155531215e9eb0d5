//! What the calls reply.

/// The refusals by their numbers in documents 01 and 02.
#[derive(Clone, Copy, PartialEq, Eq, Debug)]
pub enum Refusal {
    FewWords = 1,
    NotSound = 2,
    Parameters = 3,
    Kind = 4,
    Nesting = 5,
    TooMany = 6,
    Labels = 7,
    NoSuchTag = 8,
    Marked = 9,
    WrongTag = 10,
    ShortList = 11,
    NotASheet = 12,
    TooDeep = 13,
    NotRead = 14,
    NotAFile = 15,
    ShortBytes = 16,
    OutOfRange = 17,
    NotAllowed = 18,
    ListFull = 19,
}

#[derive(Clone, Copy, PartialEq, Eq, Debug)]
pub struct Loaded {
    pub tags: u32,
    pub height: u32,
}

#[derive(Clone, Copy, PartialEq, Eq, Debug)]
pub struct Inserted {
    pub first: u32,
    pub moved: u32,
    pub split: u32,
}

#[derive(Clone, Copy, PartialEq, Eq, Debug)]
pub struct Held {
    pub book: u32,
    pub tag: u32,
    pub start: u32,
    pub end: u32,
}

#[derive(Clone, Copy, PartialEq, Eq, Debug)]
pub enum Answer {
    No,
    Yes,
    Stale,
}
