//! The store over words: every call reads the book out of the words first, and an accepted change writes it back.

use crate::book::Book;
use crate::fault::Fault;
use crate::reply::{Answer, Held, Inserted, Loaded, Refusal};
use crate::sound::read;
use crate::words::{HEADER, to_words};

/// The words stand open, so that a test may damage them and compare them.
#[derive(Clone, PartialEq, Eq, Debug, Default)]
pub struct Store {
    pub words: Vec<u32>,
    pub fault: Fault,
}

impl Store {
    pub fn new(words: Vec<u32>) -> Store {
        Store { words, fault: Fault::None }
    }

    /// For tests of a comparison: a store that does one thing wrongly.
    pub fn faulty(words: Vec<u32>, fault: Fault) -> Store {
        Store { words, fault }
    }

    pub fn load(&mut self, s: u32, r: u32, book: u32, kinds: &[u8]) -> Result<Loaded, Refusal> {
        let book = Book::load(s, r, book, kinds, self.words.len(), self.fault)?;
        self.write(&book);
        Ok(book.loaded())
    }

    pub fn insert(&mut self, kind: u8, place: u32) -> Result<Inserted, Refusal> {
        let mut book = self.book()?;
        let reply = book.insert(kind, place, self.words.len())?;
        self.write(&book);
        Ok(reply)
    }

    pub fn insert_sheet(&mut self, kinds: &[u8], place: u32) -> Result<Inserted, Refusal> {
        let mut book = self.book()?;
        let reply = book.insert_sheet(kinds, place, self.words.len())?;
        self.write(&book);
        Ok(reply)
    }

    pub fn mark(&mut self, tag: u32) -> Result<u32, Refusal> {
        let mut book = self.book()?;
        let reply = book.mark(tag)?;
        self.write(&book);
        Ok(reply)
    }

    pub fn hold(&self, tag: u32) -> Result<Held, Refusal> {
        self.book()?.hold(tag)
    }

    pub fn question(&self, pair: Held, d: u32) -> Result<Answer, Refusal> {
        self.book()?.question(pair, d)
    }

    pub fn list(&self, begin: u32, tags: &mut [u32], labels: &mut [u32]) -> Result<u32, Refusal> {
        self.book()?.list(begin, tags, labels)
    }

    /// Refusals 1 and 2.
    pub fn book(&self) -> Result<Book, Refusal> {
        if self.words.len() < HEADER {
            return Err(Refusal::FewWords);
        }
        read(&self.words, self.fault).ok_or(Refusal::NotSound)
    }

    /// The words past the book stay.
    pub(crate) fn write(&mut self, book: &Book) {
        let words = to_words(book);
        self.words[..words.len()].copy_from_slice(&words);
    }
}
