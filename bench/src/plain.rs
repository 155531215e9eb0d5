//! A plain unverified version of the store: the same calls on the same words and texts, as a Rust programmer would write
//! them for speed. It is what the verified store's speed is held against; tests compare it with the reference.

mod file;
mod insert;
mod load;
mod read;
mod rights;
mod shape;
mod sound;
mod spread;
mod xml;

use crate::store::{Asked, Reader, Store};
pub use file::bytes_for;

pub struct Plain;

impl Store for Plain {
    fn load(s: u32, r: u32, book: u32, kinds: &[u8], words: &mut [u32]) -> [u32; 3] {
        load::load(s, r, book, kinds, words)
    }

    fn insert(kind: u8, place: u32, words: &mut [u32]) -> [u32; 4] {
        insert::insert(kind, place, words)
    }

    fn insert_sheet(kinds: &[u8], place: u32, words: &mut [u32]) -> [u32; 4] {
        insert::insert_sheet(kinds, place, words)
    }

    fn mark(tag: u32, words: &mut [u32]) -> [u32; 2] {
        read::mark(tag, words)
    }

    fn hold(tag: u32, words: &[u32]) -> [u32; 5] {
        read::hold(tag, words)
    }

    fn question(pair: [u32; 4], d: u32, words: &[u32]) -> [u32; 2] {
        read::question(pair, d, words)
    }

    fn list(begin: u32, words: &[u32], tags: &mut [u32], labels: &mut [u32]) -> [u32; 2] {
        read::list(begin, words, tags, labels)
    }

    fn write_file(words: &[u32], bytes: &mut [u8]) -> [u32; 2] {
        file::write(words, bytes)
    }

    fn read_file(bytes: &[u8], words: &mut [u32]) -> [u32; 3] {
        file::read(bytes, words)
    }

    fn party(asked: &Asked, words: &mut [u32]) -> [u32; 5] {
        rights::party(asked, words)
    }
}

impl Reader for Plain {
    fn xml_kinds(text: &[u8], kinds: &mut [u8]) -> (u32, usize) {
        xml::xml_kinds(text, kinds)
    }
}

/// A refusal gives its number alone.
fn refused<const N: usize>(refusal: u32) -> [u32; N] {
    let mut reply = [0; N];
    reply[0] = refusal;
    reply
}
