//! Books as files: document 02's specimens, and every refusal of the two calls.

use vekhturop::Kind::{Begin, End};
use vekhturop::{Loaded, Place, Refusal, Store, Tag, bytes_for, words_for};

/// The words of the book that document 01 prints, with room for so many tags, and behind so many of its insertions.
fn printed(tags: usize, insertions: usize) -> Vec<u32> {
    let mut words = vec![0; words_for(tags)];
    let mut store = Store::new(&mut words);
    store.load(2, 2, 7, &[Begin, Begin, End, Begin, End, End]).expect("a book");
    for _ in 0..insertions {
        store.insert_text(Place::After(Tag::new(2).expect("a tag"))).expect("room");
    }
    words
}

/// What writing into so many bytes replies, and the bytes, which were all 9.
fn written(words: &mut [u32], lent: usize) -> (Result<usize, Refusal>, Vec<u8>) {
    let before = words.to_vec();
    let mut bytes = vec![9; lent];
    let reply = Store::new(words).write_to(&mut bytes);
    assert_eq!(words, before, "writing reads the words");
    (reply, bytes)
}

fn file(words: &mut [u32], tags: usize) -> Vec<u8> {
    let (reply, file) = written(words, bytes_for(tags));
    assert_eq!(reply, Ok(file.len()));
    file
}

/// What reading into so many words replies, and the words, which were all 5.
fn read_into(lent: usize, file: &[u8]) -> (Result<(u32, u32), Refusal>, Vec<u32>) {
    let mut words = vec![5; lent];
    let reply = Store::read_from(file, &mut words).map(|(_, Loaded { tags, height, .. })| (tags, height));
    (reply, words)
}

fn refused(lent: usize, file: &[u8], refusal: Refusal) {
    assert_eq!(read_into(lent, file), (Err(refusal), vec![5; lent]));
}

#[test]
fn an_empty_book_is_44_bytes() {
    let mut words = [0; words_for(0)];
    Store::new(&mut words).load(2, 2, 7, &[]).expect("a book");
    let header =
        [30, 0, 0, 0, 1, 0, 2, 0, 0, 0, 2, 0, 0, 0, 1, 0, 0, 0, 0, 0, 0, 0, 255, 255, 255, 255, 7, 0, 0, 0, 0, 0, 0, 0];
    let last = [6, 0, 0, 0, 3, 0, 0, 0, 0, 0];
    let file = [&header[..], &last].concat();
    assert_eq!(written(&mut words, 44), (Ok(44), file.clone()));
    assert_eq!(written(&mut words, 43), (Err(Refusal::TooFewBytes), vec![9; 43]));
    assert_eq!(read_into(8, &file), (Ok((0, 1)), words.to_vec()));
    refused(7, &file, Refusal::TooFewWords);
    refused(7, &[], Refusal::NotAFile);
    assert_eq!(Store::read_from(&[], &mut []).map(|_| ()), Err(Refusal::NotAFile));
}

/// What is lent past the file or the book stays, and tags come in book order.
#[test]
fn the_printed_book_is_kept() {
    let mut words = printed(8, 2);
    let (reply, bytes) = written(&mut words, 320);
    assert_eq!((reply, &bytes[316..]), (Ok(316), &[9; 4][..]));
    let file = &bytes[..316];
    let numbers: Vec<u8> = (1..=8).map(|row| file[34 * row + 6]).collect();
    assert_eq!(numbers, [0, 1, 2, 7, 6, 3, 4, 5]);
    assert_eq!(read_into(64, file), (Ok((8, 3)), words.clone()));
    words.push(5);
    assert_eq!(read_into(65, file), (Ok((8, 3)), words));
}

/// A store that was read is used as any other.
#[test]
fn a_book_goes_on_where_it_was_kept() {
    let mut words = printed(8, 1);
    let bytes = file(&mut words, 7);
    let mut others = vec![0; words_for(8)];
    let (mut again, _) = Store::read_from(&bytes, &mut others).expect("a file");
    let mut store = Store::new(&mut words);
    let two = Place::After(Tag::new(2).expect("a tag"));
    assert_eq!(again.insert_text(two), store.insert_text(two));
    assert_eq!(again.words(), store.words());
}

#[test]
fn bytes_that_are_no_file() {
    let file = file(&mut printed(6, 0), 6);
    refused(50, &file[..247], Refusal::NotAFile);
    refused(50, &[&file[..], &[0]].concat(), Refusal::NotAFile);
    for (at, byte) in [(0, 31), (4, 3), (5, 1), (18, 7), (38, 3), (242, 2), (244, 7)] {
        let mut damaged = file.clone();
        damaged[at] = byte;
        refused(7, &damaged, Refusal::NotAFile);
    }
}

#[test]
fn files_that_say_no_book() {
    let file = file(&mut printed(6, 0), 6);
    refused(49, &file, Refusal::TooFewWords);
    let rows = |i: usize| 34 * i..34 * (i + 1);
    let exchanged = [&file[..136], &file[rows(5)], &file[rows(4)], &file[204..]].concat();
    let doubled = [&file[..170], &file[rows(4)], &file[204..]].concat();
    let with = |at: usize, byte: u8| [&file[..at], &[byte], &file[at + 1..]].concat();
    // Number 6 for tag 4, a gap before the label of tag 5, a stamp above n.
    for damaged in [exchanged, doubled, with(176, 6), with(214, 8), with(30, 7)] {
        refused(50, &damaged, Refusal::NotSound);
        refused(49, &damaged, Refusal::TooFewWords);
    }
    assert_eq!(read_into(50, &with(30, 6)).0, Ok((6, 2)));
}

#[test]
fn words_that_are_not_written() {
    assert_eq!(written(&mut [0; 7], 0).0, Err(Refusal::TooFewWords));
    assert_eq!(written(&mut [0; 8], 0).0, Err(Refusal::NotSound));
    assert_eq!(written(&mut [0; 8], 44), (Err(Refusal::NotSound), vec![9; 44]));
    assert_eq!(written(&mut printed(6, 0), 247), (Err(Refusal::TooFewBytes), vec![9; 247]));
}

/// As many begins as can be open are read back on the stack that a thread has.
#[test]
fn a_deep_book_is_kept() {
    for deep in [1_024, 1_025, 100_000] {
        let mut words = vec![0; words_for(2 * deep)];
        let kinds = [vec![Begin; deep], vec![End; deep]].concat();
        Store::new(&mut words).load(2, 2, 7, &kinds).expect("a book");
        let bytes = file(&mut words, 2 * deep);
        assert_eq!(read_into(words.len(), &bytes).1, words);
    }
}
