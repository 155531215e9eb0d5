//! A book as a file, and back (document 02, CR 3, and CR 7 for depth). A file is first cut into records, each by its own length,
//! and only then is anything asked of them; what they say is laid out as words, with depths as their kinds nest, and these are
//! judged as all words are.

use crate::book::Book;
use crate::fault::{Fault, Lapse};
use crate::reply::{Loaded, Refusal};
use crate::sound::read;
use crate::store::Store;
use crate::tag::{Kind, Tag};
use crate::words::{HEADER, RECORD, to_words, words_for};

/// The kinds of records.
const HEADER_KIND: u16 = 1;
const TAG_KIND: u16 = 2;
const LAST_KIND: u16 = 3;

/// Words of the header's record: all words of the header but the first.
const ROW: usize = 7;

/// Words of a tag that a file keeps: all but its depth, the last.
fn kept(fault: Fault) -> usize {
    if fault.misfiles(Lapse::DepthKept) { RECORD } else { RECORD - 1 }
}

/// Bytes for the file of n tags.
pub fn bytes_for(n: usize) -> usize {
    44 + 34 * n
}

struct Record {
    kind: u16,
    words: Vec<u32>,
}

impl Record {
    fn new(kind: u16, words: impl Into<Vec<u32>>) -> Record {
        Record { kind, words: words.into() }
    }

    fn has(&self, kind: u16, words: usize) -> bool {
        self.kind == kind && self.words.len() == words
    }

    fn bytes(&self, fault: Fault) -> Vec<u8> {
        let kind = if fault.misfiles(Lapse::KindsTurned) { self.kind.swap_bytes() } else { self.kind };
        let words: Vec<u8> = self.words.iter().flat_map(|word| word.to_le_bytes()).collect();
        let length = (words.len() + kind_counted(fault)) as u32;
        [&length.to_le_bytes()[..], &kind.to_le_bytes(), &words].concat()
    }

    /// The record that the bytes begin with, and what stands behind it; None where there is no whole record.
    fn cut(bytes: &[u8], fault: Fault) -> Option<(Record, &[u8])> {
        let (length, behind) = bytes.split_first_chunk()?;
        let length = (u32::from_le_bytes(*length) as usize + 2).checked_sub(kind_counted(fault))?;
        let (it, rest) = behind.split_at_checked(length)?;
        let (kind, words) = it.split_first_chunk()?;
        let kind = u16::from_le_bytes(*kind);
        let kind = if fault.misfiles(Lapse::KindsTurned) { kind.swap_bytes() } else { kind };
        let (words, part) = words.as_chunks();
        let words: Vec<u32> = words.iter().map(|word| u32::from_le_bytes(*word)).collect();
        part.is_empty().then_some((Record { kind, words }, rest))
    }
}

/// Bytes that a record's length counts beside its words: the two of its kind.
fn kind_counted(fault: Fault) -> usize {
    if fault.misfiles(Lapse::LengthOfWords) { 0 } else { 2 }
}

fn to_file(book: &Book) -> Vec<u8> {
    let fault = book.fault;
    let words = to_words(book);
    let mut header = Record::new(HEADER_KIND, &words[1..HEADER]);
    if fault.misfiles(Lapse::StampLost) {
        header.words[ROW - 1] = 0;
    }
    let mut order = book.order();
    if fault.misfiles(Lapse::ByNumber) {
        order.sort();
    }
    let tag = |x: usize| [&[x as u32], &words[HEADER + RECORD * x..][..kept(fault)]].concat();
    let tags = order.iter().map(|&x| Record::new(TAG_KIND, tag(x)));
    let last = Record::new(LAST_KIND, [book.tags.len() as u32]);
    [header].into_iter().chain(tags).chain([last]).flat_map(|record| record.bytes(fault)).collect()
}

/// Puts depths into the words of n tags, along next as far as it leads: each tag has as many as are open around it. Where next
/// leads nowhere, an end closes nothing or a kind is none, the words are told to be unsound when they are judged.
fn deepen(words: &mut [u32], n: usize) {
    let (mut here, mut open) = (words[5] as usize, 0_usize);
    for _ in 0..n {
        if here >= n {
            return;
        }
        let record = &mut words[HEADER + RECORD * here..][..RECORD];
        let kind = Tag::of_kind_word(record[5]).map(|(kind, _)| kind);
        open = open.saturating_sub(usize::from(kind == Some(Kind::End)));
        record[6] = open as u32;
        open += usize::from(kind == Some(Kind::Begin));
        here = record[1] as usize;
    }
}

/// What bytes of the form say: the words of the header, and those of each tag in the order of the records.
struct File {
    header: Vec<u32>,
    tags: Vec<Vec<u32>>,
}

impl File {
    /// None where the bytes are not of the form.
    fn of_bytes(bytes: &[u8], fault: Fault) -> Option<File> {
        let (header, mut rest) = Record::cut(bytes, fault).filter(|(it, _)| it.has(HEADER_KIND, ROW))?;
        let mut file = File { header: header.words, tags: Vec::new() };
        let last = loop {
            let (record, behind) = Record::cut(rest, fault)?;
            rest = behind;
            if !record.has(TAG_KIND, 1 + kept(fault)) {
                break record;
            }
            file.tags.push(record.words);
        };
        let n = file.tags.len() as u32;
        if fault.misfiles(Lapse::HeaderCount) {
            file.header[3] = n;
        }
        let counted = file.header[3] == n && (last.words.first() == Some(&n) || fault.misfiles(Lapse::LastCount));
        let ended = last.has(LAST_KIND, 1) && (rest.is_empty() || fault.misfiles(Lapse::MoreBehind));
        (counted && ended).then_some(file)
    }

    /// The words that the records lay out; None where a number is no tag's or comes twice.
    fn words(&self) -> Option<Vec<u32>> {
        let mut words = [&[1], &self.header[..]].concat();
        words.resize(words_for(self.tags.len()), 0);
        let mut met = vec![false; self.tags.len()];
        for tag in &self.tags {
            let number = tag[0] as usize;
            if std::mem::replace(met.get_mut(number)?, true) {
                return None;
            }
            words[HEADER + RECORD * number..][..tag.len() - 1].copy_from_slice(&tag[1..]);
        }
        deepen(&mut words, self.tags.len());
        Some(words)
    }

    /// The book of the file; None where its words are not sound or its tags do not come in book order.
    fn book(&self, fault: Fault) -> Option<Book> {
        let book = read(&self.words()?, fault)?;
        let in_order = book.order().iter().zip(&self.tags).all(|(&x, tag)| x == tag[0] as usize);
        (in_order || fault.misfiles(Lapse::AnyOrder)).then_some(book)
    }
}

impl Store {
    /// Writes the book, and gives the number of bytes. Refusals: 1, 2, 16. Bytes past the file stay.
    pub fn write_file(&self, bytes: &mut [u8]) -> Result<u32, Refusal> {
        if bytes.len() < bytes_for(0) && self.fault.misfiles(Lapse::RoomFirst) {
            return Err(Refusal::ShortBytes);
        }
        let file = to_file(&self.book()?);
        if bytes.len() + usize::from(self.fault.misfiles(Lapse::ByteLate)) < file.len() {
            return Err(Refusal::ShortBytes);
        }
        bytes.iter_mut().zip(&file).for_each(|(to, byte)| *to = *byte);
        Ok(file.len() as u32)
    }

    /// Reads a book. Refusals: 15, 1, 2. Words past the book stay.
    pub fn read_file(&mut self, bytes: &[u8]) -> Result<Loaded, Refusal> {
        let fault = self.fault;
        if self.words.len() < HEADER && fault.misfiles(Lapse::WordsFirst) {
            return Err(Refusal::FewWords);
        }
        let file = File::of_bytes(bytes, fault).ok_or(Refusal::NotAFile)?;
        let book = file.book(fault).ok_or(Refusal::NotSound);
        if fault.misfiles(Lapse::SoundFirst) {
            book.as_ref().map_err(|refusal| *refusal)?;
        }
        if self.words.len() < words_for(file.tags.len()) {
            return Err(Refusal::FewWords);
        }
        if fault.misfiles(Lapse::HeaderEarly) {
            self.words[1..HEADER].copy_from_slice(&file.header);
        }
        let (book, first) = (book?, self.words[0]);
        self.write(&book);
        if fault.misfiles(Lapse::FirstWordStays) {
            self.words[0] = first;
        }
        Ok(book.loaded())
    }
}
