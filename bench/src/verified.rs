//! The verified store through its C interface.

use crate::store::{Asked, Reader, Store};
use vekhturop_sys::{vk_hold, vk_insert, vk_insert_sheet, vk_list, vk_load, vk_mark, vk_question};
use vekhturop_sys::{vk_party_call, vk_read_file, vk_write_file, vk_xml_kinds};

pub struct Verified;

// SAFETY, for all eleven: every pointer and length is that of a slice lent for the call.
impl Store for Verified {
    fn load(s: u32, r: u32, book: u32, kinds: &[u8], words: &mut [u32]) -> [u32; 3] {
        unsafe { vk_load(s, r, book, kinds.as_ptr(), kinds.len(), words.as_mut_ptr(), words.len()) }.into()
    }

    fn insert(kind: u8, place: u32, words: &mut [u32]) -> [u32; 4] {
        unsafe { vk_insert(kind, place, words.as_mut_ptr(), words.len()) }.into()
    }

    fn insert_sheet(kinds: &[u8], place: u32, words: &mut [u32]) -> [u32; 4] {
        unsafe { vk_insert_sheet(kinds.as_ptr(), kinds.len(), place, words.as_mut_ptr(), words.len()) }.into()
    }

    fn mark(tag: u32, words: &mut [u32]) -> [u32; 2] {
        unsafe { vk_mark(tag, words.as_mut_ptr(), words.len()) }.into()
    }

    fn hold(tag: u32, words: &[u32]) -> [u32; 5] {
        unsafe { vk_hold(tag, words.as_ptr(), words.len()) }.into()
    }

    fn question([book, tag, start, end]: [u32; 4], d: u32, words: &[u32]) -> [u32; 2] {
        unsafe { vk_question(book, tag, start, end, d, words.as_ptr(), words.len()) }.into()
    }

    fn list(begin: u32, words: &[u32], tags: &mut [u32], labels: &mut [u32]) -> [u32; 2] {
        let (words, len) = (words.as_ptr(), words.len());
        let (tags, tags_len) = (tags.as_mut_ptr(), tags.len());
        unsafe { vk_list(begin, words, len, tags, tags_len, labels.as_mut_ptr(), labels.len()) }.into()
    }

    fn write_file(words: &[u32], bytes: &mut [u8]) -> [u32; 2] {
        unsafe { vk_write_file(words.as_ptr(), words.len(), bytes.as_mut_ptr(), bytes.len()) }.into()
    }

    fn read_file(bytes: &[u8], words: &mut [u32]) -> [u32; 3] {
        unsafe { vk_read_file(bytes.as_ptr(), bytes.len(), words.as_mut_ptr(), words.len()) }.into()
    }

    fn party(asked: &Asked, words: &mut [u32]) -> [u32; 5] {
        let &Asked { party, pair: [book, tag, start, end], d, right, kind, grants } = asked;
        // A grant's record is three words.
        let (list, len) = (grants.as_ptr().cast(), grants.len());
        let (words, words_len) = (words.as_mut_ptr(), words.len());
        unsafe { vk_party_call(party, book, tag, start, end, d, right, kind, list, len, len, words, words_len) }.into()
    }
}

impl Reader for Verified {
    fn xml_kinds(text: &[u8], kinds: &mut [u8]) -> (u32, usize) {
        let reply = unsafe { vk_xml_kinds(text.as_ptr(), text.len(), kinds.as_mut_ptr(), kinds.len()) };
        (reply.refusal, reply.count)
    }
}
