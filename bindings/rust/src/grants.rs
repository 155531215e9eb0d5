//! Rights for parties: grants in a lent list, and calls that they allow.

use crate::refusal::Refusal;
use crate::store::Store;
use crate::types::{HeldPair, Inserted, Kind, Loaded, Tag};
use std::ops::BitOr;

/// A record of a list of grants, as the caller keeps it. It may hold any numbers: what gives no right allows nothing.
pub use vekhturop_sys::Grant;

/// What a grant allows on its section.
#[derive(Clone, Copy, PartialEq, Eq, Hash, Debug)]
pub struct Rights(u32);

impl Rights {
    /// To read a tag inside the section.
    pub const READ: Rights = Rights(1);
    /// To write a value there.
    pub const WRITE: Rights = Rights(2);
    /// To insert there.
    pub const INSERT: Rights = Rights(4);

    /// The number that a grant's record has for them.
    pub const fn number(self) -> u32 {
        self.0
    }
}

impl BitOr for Rights {
    type Output = Rights;

    fn bitor(self, other: Rights) -> Rights {
        Rights(self.0 | other.0)
    }
}

/// What a party asks for.
#[derive(Clone, Copy, PartialEq, Eq, Hash, Debug)]
pub enum Ask {
    /// To read the tag.
    Read,
    /// To write its value.
    Write,
    /// To insert a text, or an element by [`Kind::Begin`], right after the tag.
    Insert(Kind),
}

/// The reply to a party's call that is not refused.
#[derive(Clone, Copy, PartialEq, Eq, Hash, Debug)]
pub enum Access {
    /// The party may read, or write.
    Yes,
    /// The pair is of another book, a label of it has changed, or its element is marked: it must be held again.
    Stale,
    /// The tags were inserted; the pair may be stale now.
    Inserted(Inserted),
}

/// Grants in a lent list, of which the first so many records are live.
///
/// A grant names its section by a tag number, and in a new book that number is another tag's. So whoever keeps grants loads
/// and reads files by [`Grants::load`] and [`Grants::read_from`], which end all of them.
///
/// ```
/// use vekhturop::{Access, Ask, Grant, Grants, Kind, Refusal, Rights, Store, Tag, words_for};
///
/// # fn main() -> Result<(), Refusal> {
/// let (mut words, mut list) = (vec![0; words_for(100)], [Grant::default(); 8]);
/// let mut store = Store::new(&mut words);
/// let mut grants = Grants::new(&mut list);
/// grants.load(&mut store, 2, 2, 7, &[Kind::Begin, Kind::Text, Kind::End])?;
///
/// let (section, text) = (Tag::new(0).expect("a tag"), Tag::new(1).expect("a tag"));
/// grants.add(&store, 5, section, Rights::READ | Rights::INSERT)?;
/// let pair = store.hold(section)?;
/// assert_eq!(grants.call(&mut store, 5, &pair, text, Ask::Read), Ok(Access::Yes));
/// assert_eq!(grants.call(&mut store, 5, &pair, text, Ask::Write), Err(Refusal::NotAllowed));
/// assert_eq!(grants.revoke(5, section), Ok(1));
/// assert_eq!(grants.call(&mut store, 5, &pair, text, Ask::Read), Err(Refusal::NotAllowed));
/// # Ok(())
/// # }
/// ```
#[derive(Debug)]
pub struct Grants<'a> {
    list: &'a mut [Grant],
    count: usize,
}

impl<'a> Grants<'a> {
    /// A list in which no grant is live.
    pub fn new(list: &'a mut [Grant]) -> Grants<'a> {
        Grants { list, count: 0 }
    }

    /// A list that was kept elsewhere, with its count. A count above the list's length is refused by every call but a load
    /// and the reading of a file.
    pub fn kept(list: &'a mut [Grant], count: usize) -> Grants<'a> {
        Grants { list, count }
    }

    /// How many grants are live.
    pub fn count(&self) -> usize {
        self.count
    }

    /// The whole list: the live grants, and what stands after them.
    pub fn records(&self) -> &[Grant] {
        self.list
    }

    /// Grants a party, 1 to 65,535, rights on the section of an unmarked begin, and replies how many grants are live now.
    pub fn add(&mut self, store: &Store, party: u32, section: Tag, rights: Rights) -> Result<usize, Refusal> {
        let words = store.words();
        // SAFETY: the pointers and lengths are those of slices, of which one is lent mutably and one is only read; the count
        // is lent mutably beside them.
        let reply = unsafe {
            vekhturop_sys::vk_grant_add(
                party,
                section.number(),
                rights.number(),
                self.list.as_mut_ptr(),
                self.list.len(),
                &mut self.count,
                words.as_ptr(),
                words.len(),
            )
        };
        Refusal::check(reply.refusal)?;
        Ok(reply.count)
    }

    /// Takes out every live grant of a party on a section, and replies how many; the others stay in their order. It looks at
    /// no store.
    pub fn revoke(&mut self, party: u32, section: Tag) -> Result<usize, Refusal> {
        // SAFETY: the pointer and the length are those of a slice that is lent mutably, and so is the count.
        let reply = unsafe {
            vekhturop_sys::vk_grant_revoke(
                party,
                section.number(),
                self.list.as_mut_ptr(),
                self.list.len(),
                &mut self.count,
            )
        };
        Refusal::check(reply.refusal)?;
        Ok(reply.revoked)
    }

    /// A call of a party, which shows a held pair: allowed where a live grant gives it the right on the pair's section and the
    /// section encloses the tag; an insertion also right after the section's begin.
    pub fn call(&self, store: &mut Store, party: u32, pair: &HeldPair, tag: Tag, ask: Ask) -> Result<Access, Refusal> {
        let (right, kind) = match ask {
            Ask::Read => (Rights::READ, 0),
            Ask::Write => (Rights::WRITE, 0),
            Ask::Insert(kind) => (Rights::INSERT, kind as u8),
        };
        let words = store.words_mut();
        // SAFETY: the pointers and lengths are those of slices, of which one is lent mutably and one is only read.
        let reply = unsafe {
            vekhturop_sys::vk_party_call(
                party,
                pair.book,
                pair.tag.number(),
                pair.start.0,
                pair.end.0,
                tag.number(),
                right.number(),
                kind,
                self.list.as_ptr(),
                self.list.len(),
                self.count,
                words.as_mut_ptr(),
                words.len(),
            )
        };
        Access::of(reply, if kind == Kind::Begin as u8 { 2 } else { 1 })
    }

    /// [`Store::load`], which ends all grants where it is accepted.
    pub fn load(&mut self, store: &mut Store, s: u32, r: u32, book: u32, kinds: &[Kind]) -> Result<Loaded, Refusal> {
        let words = store.words_mut();
        // SAFETY: both pointers and lengths are those of slices, of which one is lent mutably, and so is the count. A kind is
        // one byte.
        let reply = unsafe {
            vekhturop_sys::vk_load_with_grants(
                s,
                r,
                book,
                kinds.as_ptr().cast(),
                kinds.len(),
                words.as_mut_ptr(),
                words.len(),
                &mut self.count,
            )
        };
        Loaded::of(reply)
    }

    /// [`Store::read_from`], which ends all grants where it is accepted.
    pub fn read_from<'b>(&mut self, bytes: &[u8], words: &'b mut [u32]) -> Result<(Store<'b>, Loaded), Refusal> {
        // SAFETY: both pointers and lengths are those of slices, of which one is lent mutably, and so is the count.
        let reply = unsafe {
            vekhturop_sys::vk_read_file_with_grants(
                bytes.as_ptr(),
                bytes.len(),
                words.as_mut_ptr(),
                words.len(),
                &mut self.count,
            )
        };
        let loaded = Loaded::of(reply)?;
        Ok((Store::new(words), loaded))
    }
}

impl Access {
    /// Of a reply to a party's call that inserts so many tags. The library answers 1, 2 or 3; of one that answers anything
    /// else the careful reading is stale: hold again.
    fn of(reply: vekhturop_sys::Party, tags: usize) -> Result<Access, Refusal> {
        Refusal::check(reply.refusal)?;
        let vekhturop_sys::Party { refusal, answer, first, moved, split } = reply;
        Ok(match answer {
            1 => Access::Yes,
            3 => Access::Inserted(Inserted::of(vekhturop_sys::Inserted { refusal, first, moved, split }, tags)?),
            _ => Access::Stale,
        })
    }
}
