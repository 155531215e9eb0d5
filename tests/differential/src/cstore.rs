//! The verified store through its C interface.

use crate::call::{Call, Reply};
use crate::sheet::SheetReader;
use crate::subject::{Lent, Subject, counted};
use vekhturop_sys::Grant;
use vekhturop_sys::{vk_grant_add, vk_grant_revoke, vk_load_with_grants, vk_party_call, vk_read_file_with_grants};
use vekhturop_sys::{vk_hold, vk_insert, vk_insert_sheet, vk_list, vk_load, vk_mark, vk_question};
use vekhturop_sys::{vk_read_file, vk_write_file, vk_xml_kinds};

pub struct CStore;

fn reply<const N: usize>(words: impl Into<[u32; N]>) -> Reply {
    let mut reply = [0; 5];
    reply[..N].copy_from_slice(&words.into());
    reply
}

impl Subject for CStore {
    fn call(&self, call: &Call, lent: Lent) -> Reply {
        // Words, kinds, files and grants are lent through mutable pointers even where the header says const: a store that writes
        // where it must not is then seen in the comparison, and the compiler cannot assume that nothing changed.
        let Lent { given, words, tags, labels, bytes, grants, count } = lent;
        let (from, from_len) = (given.as_mut_ptr(), given.len());
        let (to, len) = (words.as_mut_ptr(), words.len());
        // A record is three words, as the header's struct is.
        let (list, room) = (grants.as_mut_ptr().cast::<Grant>(), grants.len());
        // SAFETY: every pointer and length is that of one of the slices lent to this function, or of the count, which do not
        // overlap since all are lent mutably.
        unsafe {
            match *call {
                Call::Load { s, r, book, .. } => reply(vk_load(s, r, book, from, from_len, to, len)),
                Call::Insert { kind, place } => reply(vk_insert(kind, place, to, len)),
                Call::InsertSheet { place, .. } => reply(vk_insert_sheet(from, from_len, place, to, len)),
                Call::Mark { tag } => reply(vk_mark(tag, to, len)),
                Call::Hold { tag } => reply(vk_hold(tag, to, len)),
                Call::Question { book, tag, start, end, d } => reply(vk_question(book, tag, start, end, d, to, len)),
                Call::List { begin, .. } => {
                    let (tags, tags_len) = (tags.as_mut_ptr(), tags.len());
                    reply(vk_list(begin, to, len, tags, tags_len, labels.as_mut_ptr(), labels.len()))
                }
                Call::Write { .. } => reply(vk_write_file(to, len, bytes.as_mut_ptr(), bytes.len())),
                Call::Read { .. } => reply(vk_read_file(from, from_len, to, len)),
                Call::LoadWithGrants { s, r, book, .. } => {
                    reply(vk_load_with_grants(s, r, book, from, from_len, to, len, count))
                }
                Call::ReadWithGrants { .. } => reply(vk_read_file_with_grants(from, from_len, to, len, count)),
                Call::Grant { party, section, rights } => {
                    let it = vk_grant_add(party, section, rights, list, room, count, to, len);
                    reply([it.refusal, counted(it.count)])
                }
                Call::Revoke { party, section } => {
                    let it = vk_grant_revoke(party, section, list, room, count);
                    reply([it.refusal, counted(it.revoked)])
                }
                Call::Party { party, book, tag, start, end, d, right, kind } => {
                    reply(vk_party_call(party, book, tag, start, end, d, right, kind, list, room, *count, to, len))
                }
            }
        }
    }
}

impl SheetReader for CStore {
    fn kinds(&self, text: &mut [u8], kinds: &mut [u8]) -> (u32, usize) {
        // The text is lent through a mutable pointer for the same reason.
        // SAFETY: both pointers and lengths are those of slices that are lent mutably.
        let reply = unsafe { vk_xml_kinds(text.as_mut_ptr(), text.len(), kinds.as_mut_ptr(), kinds.len()) };
        (reply.refusal, reply.count)
    }
}
