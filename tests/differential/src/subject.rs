//! What is compared: anything that makes a call on lent slices.

use crate::call::{Call, INSERTED, Reply, STALE, YES};
use crate::sheet::SheetReader;
use crate::system::Grant;
use reference::{Access, Answer, Ask, Fault, Held, Inserted, Loaded, Refusal, Rights, Store, xml_kinds};

/// The slices that a call is lent, of exactly these lengths. What is given are the kinds or the file of the call. The list of
/// grants and its count are lent to all calls; one that is none about grants must leave them.
pub struct Lent<'a> {
    pub given: &'a mut [u8],
    pub words: &'a mut [u32],
    pub tags: &'a mut [u32],
    pub labels: &'a mut [u32],
    pub bytes: &'a mut [u8],
    pub grants: &'a mut [Grant],
    pub count: &'a mut usize,
}

impl<'a> Lent<'a> {
    /// Words alone, and a count that stands for no grants.
    pub fn only(words: &'a mut [u32], count: &'a mut usize) -> Lent<'a> {
        Lent { given: &mut [], words, tags: &mut [], labels: &mut [], bytes: &mut [], grants: &mut [], count }
    }

    /// The same slices, lent on for one call.
    pub fn again(&mut self) -> Lent<'_> {
        let Lent { given, words, tags, labels, bytes, grants, count } = self;
        Lent { given, words, tags, labels, bytes, grants, count }
    }
}

pub trait Subject {
    fn call(&self, call: &Call, lent: Lent) -> Reply;
}

/// The reference, with a fault where a test wants one.
pub struct Reference {
    pub fault: Fault,
}

impl Reference {
    pub const fn right() -> Reference {
        Reference { fault: Fault::None }
    }
}

fn reply<const N: usize>(result: Result<[u32; N], Refusal>) -> Reply {
    let mut reply = [0; 5];
    match result {
        Ok(fields) => reply[1..=N].copy_from_slice(&fields),
        Err(refusal) => reply[0] = refusal as u32,
    }
    reply
}

fn loaded(it: Loaded) -> [u32; 2] {
    [it.tags, it.height]
}

fn inserted(it: Inserted) -> [u32; 3] {
    [it.first, it.moved, it.split]
}

fn accessed(it: Access) -> [u32; 4] {
    match it {
        Access::Yes => [YES, 0, 0, 0],
        Access::Stale => [STALE, 0, 0, 0],
        Access::Inserted(it) => [INSERTED, it.first, it.moved, it.split],
    }
}

/// A number of grants, as a reply has it.
pub(crate) fn counted(many: usize) -> u32 {
    u32::try_from(many).unwrap_or(u32::MAX)
}

/// The list of grants as the reference keeps it, over this store.
fn rights(store: Store, lent: &Lent) -> Rights {
    let grant = |&[party, section, rights]: &Grant| reference::Grant { party, section, rights };
    Rights { store, grants: lent.grants.iter().map(grant).collect(), count: *lent.count }
}

impl Subject for Reference {
    fn call(&self, call: &Call, lent: Lent) -> Reply {
        let mut rights = rights(Store::faulty(lent.words.to_vec(), self.fault), &lent);
        let store = &mut rights.store;
        let reply = match *call {
            Call::Load { s, r, book, ref kinds } => reply(store.load(s, r, book, kinds).map(loaded)),
            Call::Insert { kind, place } => reply(store.insert(kind, place).map(inserted)),
            Call::InsertSheet { ref kinds, place } => reply(store.insert_sheet(kinds, place).map(inserted)),
            Call::Mark { tag } => reply(store.mark(tag).map(|marked| [marked])),
            Call::Hold { tag } => reply(store.hold(tag).map(|it| [it.book, it.tag, it.start, it.end])),
            Call::Question { book, tag, start, end, d } => {
                let answer = store.question(Held { book, tag, start, end }, d);
                reply(answer.map(|it| match it {
                    Answer::No => [0],
                    Answer::Yes => [1],
                    Answer::Stale => [2],
                }))
            }
            Call::List { begin, .. } => reply(store.list(begin, lent.tags, lent.labels).map(|count| [count])),
            Call::Write { .. } => reply(store.write_file(lent.bytes).map(|bytes| [bytes])),
            Call::Read { ref file, .. } => reply(store.read_file(file).map(loaded)),
            Call::LoadWithGrants { s, r, book, ref kinds } => reply(rights.load(s, r, book, kinds).map(loaded)),
            Call::ReadWithGrants { ref file, .. } => reply(rights.read_file(file).map(loaded)),
            Call::Grant { party, section, rights: all } => {
                let grant = reference::Grant { party, section, rights: all };
                reply(rights.grant(grant).map(|count| [counted(count)]))
            }
            Call::Revoke { party, section } => reply(rights.revoke(party, section).map(|gone| [counted(gone)])),
            Call::Party { party, book, tag, start, end, d, right, kind } => {
                let pair = Held { book, tag, start, end };
                reply(rights.call(Ask { party, pair, d, right, kind }).map(accessed))
            }
        };
        lent.words.copy_from_slice(&rights.store.words);
        let records = rights.grants.iter().map(|it| [it.party, it.section, it.rights]);
        lent.grants.iter_mut().zip(records).for_each(|(to, record)| *to = record);
        *lent.count = rights.count;
        reply
    }
}

/// The reference with something done to what is lent after each call, where a test wants that.
pub struct Spoiled(pub fn(&Reply, &Call, Lent));

impl Subject for Spoiled {
    fn call(&self, call: &Call, mut lent: Lent) -> Reply {
        let reply = Reference::right().call(call, lent.again());
        (self.0)(&reply, call, lent);
        reply
    }
}

impl SheetReader for Reference {
    fn kinds(&self, text: &mut [u8], kinds: &mut [u8]) -> (u32, usize) {
        match xml_kinds(text, kinds, self.fault) {
            Ok(count) => (0, count),
            Err(refusal) => (refusal as u32, 0),
        }
    }
}
