//! One tag of the book.

#[derive(Clone, Copy, PartialEq, Eq, Debug)]
pub enum Kind {
    Begin,
    End,
    Text,
}

impl Kind {
    /// The kind of a byte of a load: 1, 2 or 3.
    pub fn of_byte(byte: u8) -> Option<Kind> {
        match byte {
            1 => Some(Kind::Begin),
            2 => Some(Kind::End),
            3 => Some(Kind::Text),
            _ => None,
        }
    }

    fn number(self) -> u32 {
        match self {
            Kind::Begin => 1,
            Kind::End => 2,
            Kind::Text => 3,
        }
    }
}

#[derive(Clone, PartialEq, Eq, Debug)]
pub struct Tag {
    pub kind: Kind,
    pub marked: bool,
    /// The other tag of the element; a text's own number.
    pub mate: usize,
    /// The begin tag of the innermost element around it.
    pub up: Option<usize>,
    /// How many elements are around it.
    pub depth: usize,
    pub label: u64,
}

impl Tag {
    /// An unmarked tag without a label yet: the tree gives it one when it is numbered.
    pub fn new(kind: Kind, mate: usize, up: Option<usize>, depth: usize) -> Tag {
        Tag { kind, marked: false, mate, up, depth, label: 0 }
    }

    /// The kind word: 1, 2, 3, or 17, 18, 19 when marked.
    pub fn kind_word(&self) -> u32 {
        self.kind.number() + if self.marked { 16 } else { 0 }
    }

    /// Kind and mark of a kind word, if it is one.
    pub fn of_kind_word(word: u32) -> Option<(Kind, bool)> {
        let (plain, marked) = if word >= 16 { (word - 16, true) } else { (word, false) };
        Some((Kind::of_byte(u8::try_from(plain).ok()?)?, marked))
    }
}
