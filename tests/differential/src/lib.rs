//! The comparison of two label stores, of one with document 01's bare list, of two programs that read the book program's
//! lines, and of two readers of sheets.
//!
//! By calls: `subject` names what is compared and `system` what it works on, `session` makes one call on both sides and
//! compares, `bare` and `due` set it beside the bare list, `in_turn` a whole sheet beside single texts, the generators
//! (`history` with its `view`, `shape`, `limits`, `insert_sheets`, `damage`, `flaw`) choose the calls, and `shrink` and
//! `case_edit` make a failure short.
//!
//! By lines: `program` names what is compared, `process` starts the book program and `pieces` cuts what is written to
//! it, `near`, `scripts` and `writer` make the lines, and `shorten` and `edit` make a failure short.
//!
//! By files: calls too, which `files` chooses, with the bytes that `file_damage` makes; `kept` sets each file beside the
//! one before it.
//!
//! By rights: calls too, which `rights` chooses, on a store with a list of grants; `isolation` sets each history beside the
//! one without the calls of parties that have no grant.
//!
//! By sheets: `sheet` names what is compared and makes a failure short, `printed` prints trees, and `sheets` draws texts
//! that are nearly sheets.
//!
//! `plan` is a whole run of each, and `script` and `report` print what was found.

pub mod bare;
pub mod call;
pub(crate) mod case_edit;
#[cfg(feature = "library")]
pub mod cstore;
pub mod damage;
pub mod due;
pub mod edit;
pub mod file_damage;
pub mod files;
pub mod flaw;
pub mod history;
pub mod in_turn;
pub mod insert_sheets;
pub mod isolation;
pub mod kept;
pub mod kinds;
pub mod limits;
pub mod near;
pub mod pieces;
pub mod plan;
pub mod printed;
pub mod process;
pub mod program;
pub mod report;
pub mod rights;
pub mod script;
pub mod scripts;
pub mod session;
pub mod shape;
pub mod sheet;
pub mod sheets;
pub mod shorten;
pub mod shrink;
pub mod subject;
pub mod system;
pub mod view;
pub mod writer;
