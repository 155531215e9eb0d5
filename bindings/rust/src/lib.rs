//! A label store for long documents of nested tags: a safe layer over the C interface of the verified store.
//!
//! Each tag of a book has a number for life, its [`Tag`], and a [`Label`] for now. Labels rise along the book, so a section
//! encloses a tag when its two labels lie either side of the tag's. A session holds a section's pair of labels and shows
//! it with each write; the store answers yes, no, or stale where an insertion has changed them since.
//!
//! ```
//! use vekhturop::{words_for, Answer, Kind, Place, Store, Tag};
//!
//! # fn main() -> Result<(), vekhturop::Refusal> {
//! let mut words = vec![0; words_for(100)];
//! let mut store = Store::new(&mut words);
//! store.load(2, 2, 7, &[Kind::Begin, Kind::Text, Kind::End])?;
//!
//! let begin = Tag::new(0).expect("a tag");
//! let pair = store.hold(begin)?;
//! let text = store.insert_text(Place::After(begin))?;
//! if store.question(&pair, text.first)? == Answer::Stale {
//!     let pair = store.hold(begin)?;
//!     assert_eq!(store.question(&pair, text.first)?, Answer::Yes);
//! }
//! # Ok(())
//! # }
//! ```
//!
//! [`Store::write_to`] keeps a book as the bytes of a file, and [`Store::read_from`] brings it back. [`kinds_of_xml`] reads
//! a sheet of XML as the kinds that a book is loaded from, or that [`Store::insert_sheet`] puts into one. [`Grants`] keeps
//! what parties may do on which sections, and acts for them.

#![warn(missing_docs)]

mod grants;
mod refusal;
mod sheet;
mod store;
mod types;

pub use grants::{Access, Ask, Grant, Grants, Rights};
pub use refusal::Refusal;
pub use sheet::kinds_of_xml;
pub use store::{Store, bytes_for, words_for};
pub use types::{Answer, HeldPair, Inserted, Kind, Label, Loaded, NotATag, Place, Tag, Within};
