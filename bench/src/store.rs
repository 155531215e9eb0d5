//! What is measured: anything that makes the seven calls on a store over lent slices, keeps books as files and acts for parties,
//! and anything that reads sheets.

/// What a party brings: a held pair (book, tag, start and end label), a tag, a right, a kind, and the grants, all live, each a
/// party, a section and rights.
#[derive(Clone, Copy)]
pub struct Asked<'a> {
    pub party: u32,
    pub pair: [u32; 4],
    pub d: u32,
    pub right: u32,
    pub kind: u8,
    pub grants: &'a [[u32; 3]],
}

/// A reply is a row of words: the refusal's number or 0, then the fields in document 01's order.
pub trait Store {
    fn load(s: u32, r: u32, book: u32, kinds: &[u8], words: &mut [u32]) -> [u32; 3];
    fn insert(kind: u8, place: u32, words: &mut [u32]) -> [u32; 4];
    fn insert_sheet(kinds: &[u8], place: u32, words: &mut [u32]) -> [u32; 4];
    fn mark(tag: u32, words: &mut [u32]) -> [u32; 2];
    fn hold(tag: u32, words: &[u32]) -> [u32; 5];
    /// The pair is book, tag, start and end label. Answers: 0 no, 1 yes, 2 stale.
    fn question(pair: [u32; 4], d: u32, words: &[u32]) -> [u32; 2];
    fn list(begin: u32, words: &[u32], tags: &mut [u32], labels: &mut [u32]) -> [u32; 2];
    fn write_file(words: &[u32], bytes: &mut [u8]) -> [u32; 2];
    fn read_file(bytes: &[u8], words: &mut [u32]) -> [u32; 3];
    /// Answers: 1 yes, 2 stale, 3 inserted, and then the insertion's three.
    fn party(asked: &Asked, words: &mut [u32]) -> [u32; 5];
}

pub trait Reader {
    /// The refusal's number or 0, and the count of kinds.
    fn xml_kinds(text: &[u8], kinds: &mut [u8]) -> (u32, usize);
}

#[cfg(not(feature = "library"))]
pub use crate::plain::Plain as Verified;
#[cfg(feature = "library")]
pub use crate::verified::Verified;

/// Whether the verified store is there, or the plain version in its stead.
pub const LINKED: bool = cfg!(feature = "library");
