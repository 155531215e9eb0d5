//! The plain version gives the same replies, words and kinds as the reference: random histories, sound stores of random
//! shape, damaged stores, the limits of document 01, files and damaged ones, sheets and texts that are nearly sheets.

use bench::plain::Plain;
use bench::store::{Reader, Store};
use bench::xml;
use differential::call::{Call, Reply};
use differential::plan;
use differential::session::Tally;
use differential::sheet::{SheetReader, compare};
use differential::subject::{Lent, Subject};

struct PlainSubject;

fn reply<const N: usize>(words: [u32; N]) -> Reply {
    let mut reply = [0; 5];
    reply[..N].copy_from_slice(&words);
    reply
}

impl Subject for PlainSubject {
    fn call(&self, call: &Call, lent: Lent) -> Reply {
        let Lent { given, words, tags, labels, bytes, .. } = lent;
        match *call {
            Call::Load { s, r, book, .. } => reply(Plain::load(s, r, book, given, words)),
            Call::Insert { kind, place } => reply(Plain::insert(kind, place, words)),
            Call::InsertSheet { place, .. } => reply(Plain::insert_sheet(given, place, words)),
            Call::Mark { tag } => reply(Plain::mark(tag, words)),
            Call::Hold { tag } => reply(Plain::hold(tag, words)),
            Call::Question { book, tag, start, end, d } => reply(Plain::question([book, tag, start, end], d, words)),
            Call::List { begin, .. } => reply(Plain::list(begin, words, tags, labels)),
            Call::Write { .. } => reply(Plain::write_file(words, bytes)),
            Call::Read { .. } => reply(Plain::read_file(given, words)),
            _ => unreachable!("the plain version keeps no grants"),
        }
    }
}

#[test]
fn the_plain_version_agrees_with_the_reference() {
    plan::calls(&PlainSubject, &mut Tally::new(), 5, 60).expect("no difference");
}

#[test]
fn plain_files_agree_with_the_reference() {
    plan::files(&PlainSubject, &mut Tally::new(), 5, 40).expect("no difference");
}

impl SheetReader for PlainSubject {
    fn kinds(&self, text: &mut [u8], kinds: &mut [u8]) -> (u32, usize) {
        Plain::xml_kinds(text, kinds)
    }
}

#[test]
fn the_plain_reader_agrees_with_the_reference() {
    plan::sheets(&PlainSubject, &mut Tally::new(), 5, 225).expect("no difference");
}

/// The sheets that are timed, those of one tag made short enough for a test; and of these with one attribute repeated, the first,
/// one from the middle and the last: it is found, in one batch and in several.
#[test]
fn the_timed_sheets_are_read_alike() {
    for sheet in xml::sheets().into_iter().chain(xml::one_tags(60_000)) {
        assert_eq!(compare(&PlainSubject, &sheet.text), Ok(0), "{}", sheet.name);
        let text = String::from_utf8(sheet.text).expect("plain text");
        let Some(inside) = text.strip_suffix("/>").filter(|_| text.starts_with("<pass ")) else { continue };
        if inside.contains("/>") {
            continue;
        }
        let names: Vec<&str> = inside.split(' ').skip(1).filter_map(|it| Some(it.split_once('=')?.0)).collect();
        assert!(names.len() >= 1_000, "{}", sheet.name);
        for name in [names[0], names[names.len() / 2], names[names.len() - 1]] {
            assert_eq!(compare(&PlainSubject, format!("{inside} {name}=''/>").as_bytes()), Ok(12), "{name}");
        }
    }
}
