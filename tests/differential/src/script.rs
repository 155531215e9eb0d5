//! A case as lines of document 01's book program, as far as its lines can say it. What they cannot say stands behind a
//! number sign, which the program would answer with a question mark.

use crate::call::{Call, Case};
use crate::kinds::{BEGIN, END, TEXT};
use crate::system::System;
use reference::{HEADER, LONGEST_LINE, NO_TAG, PROGRAM_TAGS, RECORD};

const PROGRAM_WORDS: usize = HEADER + RECORD * PROGRAM_TAGS;

pub(crate) fn tag(tag: u32) -> String {
    if tag == NO_TAG { "front".into() } else { tag.to_string() }
}

/// Kinds by their letters.
fn letters(kinds: &[u8]) -> Option<String> {
    let letter = |kind: &u8| match *kind {
        BEGIN => Some('B'),
        END => Some('E'),
        TEXT => Some('T'),
        _ => None,
    };
    kinds.iter().map(letter).collect()
}

pub(crate) fn load(s: u32, r: u32, book: u32, kinds: &[u8]) -> Option<String> {
    Some(format!("load {s} {r} {book} {}", letters(kinds)?).trim_end().into())
}

/// The line that makes the program make this call, if there is one. Its lists have room for all its tags.
fn line(call: &Call) -> Option<String> {
    let said = match call {
        Call::Load { s, r, book, kinds } => load(*s, *r, *book, kinds)?,
        Call::Insert { kind: BEGIN, place } => format!("element {}", tag(*place)),
        Call::Insert { kind: TEXT, place } => format!("text {}", tag(*place)),
        Call::Mark { tag: it } => format!("mark {}", tag(*it)),
        Call::List { begin: NO_TAG, tags, labels } if *tags.min(labels) >= PROGRAM_TAGS => "list".into(),
        _ => return None,
    };
    (said.len() <= LONGEST_LINE).then_some(said)
}

fn starts_as_the_program(case: &Case) -> bool {
    case.start == System::from(vec![0; PROGRAM_WORDS])
}

/// The case as an input of the book program, if it is one. Where the last call is no listing, one is added: it shows
/// what the call has left behind.
pub fn input(case: &Case) -> Option<String> {
    let mut lines: Vec<String> = case.calls.iter().map(line).collect::<Option<_>>()?;
    if !matches!(case.calls.last(), Some(Call::List { .. })) {
        lines.push("list".into());
    }
    starts_as_the_program(case).then(|| lines.join("\n") + "\n")
}

fn letters_or_bytes(kinds: &[u8]) -> String {
    letters(kinds).unwrap_or_else(|| format!("{kinds:?}"))
}

fn digits(file: &[u8]) -> String {
    file.iter().map(|byte| format!("{byte:02x}")).collect()
}

/// A call that no line says. A file's bytes stand as C and Rust write them in hexadecimal, without spaces, a sheet's kinds by
/// their letters, where all have one.
fn said(call: &Call) -> String {
    match call {
        Call::InsertSheet { kinds, place } => {
            format!("# InsertSheet {{ kinds: {}, place: {} }}", letters_or_bytes(kinds), tag(*place))
        }
        Call::LoadWithGrants { s, r, book, kinds } => {
            format!("# LoadWithGrants {{ s: {s}, r: {r}, book: {book}, kinds: {} }}", letters_or_bytes(kinds))
        }
        Call::Read { file, cleared } => format!("# Read {{ file: {}, cleared: {cleared:?} }}", digits(file)),
        Call::ReadWithGrants { file, cleared } => {
            format!("# ReadWithGrants {{ file: {}, cleared: {cleared:?} }}", digits(file))
        }
        _ => format!("# {call:?}"),
    }
}

/// The case for a reader, whole.
pub fn script(case: &Case) -> String {
    let mut lines = Vec::new();
    let System { words, grants, count } = &case.start;
    if words.len() != PROGRAM_WORDS {
        lines.push(format!("# over {} words; the program has {PROGRAM_WORDS}", words.len()));
    }
    if words.iter().any(|word| *word != 0) {
        lines.push(format!("# over these words: {words:?}"));
    }
    if !grants.is_empty() || *count != 0 {
        lines.push(format!("# with these grants (party, section, rights), count {count}: {grants:?}"));
    }
    lines.extend(case.calls.iter().map(|call| line(call).unwrap_or_else(|| said(call))));
    lines.join("\n")
}
