//! One call with its arguments, and a case: a start and calls, all that is needed to do it again.

use crate::kinds::{BEGIN, END, TEXT};
use crate::system::System;

#[derive(Clone, PartialEq, Eq, Debug)]
pub enum Call {
    Load {
        s: u32,
        r: u32,
        book: u32,
        kinds: Vec<u8>,
    },
    Insert {
        kind: u8,
        place: u32,
    },
    /// A whole sheet.
    InsertSheet {
        kinds: Vec<u8>,
        place: u32,
    },
    Mark {
        tag: u32,
    },
    Hold {
        tag: u32,
    },
    Question {
        book: u32,
        tag: u32,
        start: u32,
        end: u32,
        d: u32,
    },
    /// With the lengths of the two lent lists.
    List {
        begin: u32,
        tags: usize,
        labels: usize,
    },
    /// A file is written, into so many lent bytes.
    Write {
        bytes: usize,
    },
    /// A file is read: over the words as they are, or over words that a stop has cleared, all to the same.
    Read {
        file: Vec<u8>,
        cleared: Option<u32>,
    },
    /// A load that ends all grants.
    LoadWithGrants {
        s: u32,
        r: u32,
        book: u32,
        kinds: Vec<u8>,
    },
    /// A reading that ends all grants.
    ReadWithGrants {
        file: Vec<u8>,
        cleared: Option<u32>,
    },
    Grant {
        party: u32,
        section: u32,
        rights: u32,
    },
    Revoke {
        party: u32,
        section: u32,
    },
    /// A party's call: a held pair, a tag, a right, and a kind that only an insertion looks at.
    Party {
        party: u32,
        book: u32,
        tag: u32,
        start: u32,
        end: u32,
        d: u32,
        right: u32,
        kind: u8,
    },
}

/// Refusal number or 0, then the fields of the reply in the header's order, then zeros. A number of grants that no word says
/// is the greatest word.
pub type Reply = [u32; 5];

/// The answers of a party's call.
pub const YES: u32 = 1;
pub const STALE: u32 = 2;
pub const INSERTED: u32 = 3;

/// What a call has put in, by its reply.
pub struct Insertion<'a> {
    pub kinds: &'a [u8],
    pub place: u32,
    pub first: u32,
    pub moved: u32,
}

/// The tags of a text or an element.
fn tags_of(kind: u8) -> &'static [u8] {
    if kind == BEGIN { &[BEGIN, END] } else { &[TEXT] }
}

impl Call {
    pub fn name(&self) -> &'static str {
        match self {
            Call::Load { .. } => "load",
            Call::Insert { .. } => "insert",
            Call::InsertSheet { .. } => "sheet",
            Call::Mark { .. } => "mark",
            Call::Hold { .. } => "hold",
            Call::Question { .. } => "question",
            Call::List { .. } => "list",
            Call::Write { .. } => "write",
            Call::Read { .. } => "read",
            Call::LoadWithGrants { .. } => "load ends",
            Call::ReadWithGrants { .. } => "read ends",
            Call::Grant { .. } => "grant",
            Call::Revoke { .. } => "revoke",
            Call::Party { .. } => "party",
        }
    }

    /// The bytes that the call is given to read: kinds or a file.
    pub fn given(&self) -> &[u8] {
        match self {
            Call::Load { kinds: given, .. }
            | Call::LoadWithGrants { kinds: given, .. }
            | Call::InsertSheet { kinds: given, .. }
            | Call::Read { file: given, .. }
            | Call::ReadWithGrants { file: given, .. } => given,
            _ => &[],
        }
    }

    /// s, r and the kinds, where the call is a load.
    pub fn load(&self) -> Option<(u32, u32, &[u8])> {
        match self {
            Call::Load { s, r, kinds, .. } | Call::LoadWithGrants { s, r, kinds, .. } => Some((*s, *r, kinds)),
            _ => None,
        }
    }

    /// The file, where the call reads one.
    pub fn file(&self) -> Option<&[u8]> {
        match self {
            Call::Read { file, .. } | Call::ReadWithGrants { file, .. } => Some(file),
            _ => None,
        }
    }

    /// What the call has put in; None where it is no insertion, or is refused.
    pub fn insertion(&self, reply: &Reply) -> Option<Insertion<'_>> {
        let (kinds, place, first, moved): (&[u8], _, _, _) = match (self, *reply) {
            (Call::Insert { kind, place }, [0, first, moved, ..]) => (tags_of(*kind), *place, first, moved),
            (Call::InsertSheet { kinds, place }, [0, first, moved, ..]) => (kinds, *place, first, moved),
            (Call::Party { kind, d, .. }, [0, INSERTED, first, moved, _]) => (tags_of(*kind), *d, first, moved),
            _ => return None,
        };
        Some(Insertion { kinds, place, first, moved })
    }

    /// What the call is lent, where a system has come to this.
    pub fn over(&self, system: &System) -> System {
        let mut system = system.clone();
        if let Call::Read { cleared: Some(word), .. } | Call::ReadWithGrants { cleared: Some(word), .. } = self {
            system.words.fill(*word);
        }
        system
    }

    /// The lengths of the lists that the call lends.
    pub fn lists(&self) -> (usize, usize) {
        match self {
            Call::List { tags, labels, .. } => (*tags, *labels),
            _ => (0, 0),
        }
    }

    /// How many bytes the call lends to be written.
    pub fn bytes(&self) -> usize {
        match self {
            Call::Write { bytes } => *bytes,
            _ => 0,
        }
    }
}

#[derive(Clone, PartialEq, Eq, Debug)]
pub struct Case {
    pub start: System,
    pub calls: Vec<Call>,
}
