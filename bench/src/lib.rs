//! The benchmark of the label store. Times are given as ratios, of medians of one run; for sheets as MB/s too.
//!
//! `plain` is the unverified version that the verified store is held against, `verified` the C interface, `calls` what
//! is timed and how, files too, `insert_sheets` the same of whole sheets, `rights` of parties' calls, `small` of a book of
//! eight tags and `xml` of reading sheets, `branches` what a branch on the kind costs, `moved` and `bits` the figures by which
//! s and r are chosen, `others` what could be chosen in place of the L-Tree. `report` puts all of it into tables, `plot` draws heat maps and `picture` trees.

pub mod bits;
pub mod books;
pub mod branches;
pub mod calls;
pub mod insert_sheets;
pub mod moved;
pub mod others;
pub mod picture;
pub mod plain;
pub mod plot;
pub mod report;
pub mod rights;
pub mod small;
pub mod store;
pub mod svg;
pub mod table;
#[cfg(feature = "library")]
pub mod verified;
pub mod words;
pub mod xml;
