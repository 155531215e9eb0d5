//! A second implementation of the label store, written from document 01 and document 003 alone.
//!
//! It keeps an explicit tree of nodes with children, where the verified store keeps words only. The two share no code
//! and no idea of how to do it, so that agreeing word for word means something. Speed is no aim: every call of
//! [`Store`] reads the whole store out of its words and writes it back. [`Program`] is the book program over one.
//! [`xml_kinds`] reads a sheet of XML, written from the standard's productions and the rules that cut them down. Files
//! are written from the tree and read as a row of records, from document 02. [`Rights`] is a store with a list of grants.

mod book;
mod command;
mod fault;
mod file;
mod load;
mod params;
mod program;
mod reply;
mod rights;
mod sheet;
mod sound;
mod store;
mod tag;
mod tree;
mod words;

pub use book::Book;
pub use command::{Command, LONGEST_LINE};
pub use fault::{Blunder, Breach, Clause, Fault, Lapse, Slip};
pub use file::bytes_for;
pub use params::{LABELS, MAX_TAGS, Params};
pub use program::{PROGRAM_TAGS, Program, lines};
pub use reply::{Answer, Held, Inserted, Loaded, Refusal};
pub use rights::{Access, Ask, Grant, INSERT, READ, Rights, WRITE};
pub use sheet::{DEPTH, xml_kinds};
pub use sound::read;
pub use store::Store;
pub use tag::{Kind, Tag};
pub use tree::{Inner, Node, Tree};
pub use words::{HEADER, NO_TAG, RECORD, to_words, words_for};
