//! Depth with every tag: what the calls leave, what a file brings back, and the one function that reads it.

use vekhturop::Kind::{Begin, End, Text};
use vekhturop::{Loaded, Place, Refusal, Store, Tag, Within, bytes_for, words_for};

fn tag(number: u32) -> Tag {
    Tag::new(number).expect("a tag")
}

/// The depths by number of so many tags.
fn depths(store: &Store, tags: u32) -> Vec<u32> {
    (0..tags).map(|x| store.depth(tag(x)).expect("a tag of the book")).collect()
}

#[test]
fn insertions_marks_and_the_tag_after_the_last() {
    let mut words = vec![0; words_for(10)];
    let mut store = Store::new(&mut words);
    store.load(2, 2, 7, &[Begin, Begin, End, Begin, End, End]).expect("a book");
    store.insert_text(Place::After(tag(2))).expect("room");
    store.insert_element(Place::After(tag(1))).expect("room");
    assert_eq!(depths(&store, 9), [0, 1, 1, 1, 1, 0, 1, 2, 2]);
    assert_eq!((store.depth(tag(9)), store.depth(tag(u32::MAX - 1))), (None, None));
    store.mark(tag(1)).expect("a section");
    store.insert_text(Place::Front).expect("room");
    assert_eq!(depths(&store, 10), [0, 1, 1, 1, 1, 0, 1, 2, 2, 0]);
}

#[test]
fn a_sheet_stands_as_deep_as_its_place() {
    for (place, expected) in [
        (Place::After(tag(0)), [0, 0, 1, 2, 2, 2, 1, 1]),
        (Place::After(tag(1)), [0, 0, 0, 1, 1, 1, 0, 0]),
        (Place::Front, [0, 0, 0, 1, 1, 1, 0, 0]),
    ] {
        let mut words = vec![0; words_for(8)];
        let mut store = Store::new(&mut words);
        store.load(4, 4, 7, &[Begin, End]).expect("a book");
        store.insert_sheet(&[Begin, Text, Begin, End, End, Text], place).expect("room");
        assert_eq!(depths(&store, 8), expected);
    }
}

/// Of words that hold no record for a tag there is no depth, and no call takes words whose depths are not right.
#[test]
fn words_that_are_no_book() {
    for mut words in [vec![], vec![9; 4], vec![9; 5], vec![9; words_for(1) - 1]] {
        assert_eq!(Store::new(&mut words).depth(tag(0)), None);
    }
    let mut words = vec![0; words_for(3)];
    Store::new(&mut words).load(2, 2, 7, &[Begin, Text, End]).expect("a book");
    for x in 0..3 {
        let mut damaged = words.clone();
        damaged[8 + 7 * x + 6] += 1;
        let store = Store::new(&mut damaged);
        assert_eq!(store.list(Within::Book), Err(Refusal::NotSound), "{x}");
        assert_eq!(store.depth(tag(x as u32)), Some(if x == 1 { 2 } else { 1 }), "the word as it stands");
    }
}

/// A file from before there was depth, which the library wrote then: it is read with the depths of its nesting, and is written
/// again as it was.
#[test]
fn a_file_from_before() {
    let file = include_bytes!("../../../tests/reference/tests/before-depth.bin");
    let mut words = vec![0; words_for(29)];
    let (store, Loaded { tags, height, .. }) = Store::read_from(file, &mut words).expect("a book");
    assert_eq!((tags, height), (29, 4));
    let expected = [0, 1, 1, 2, 1, 1, 2, 2, 2, 1, 0, 0, 0, 0, 2, 2, 3, 0, 1, 1, 1, 0, 0, 3, 4, 4, 4, 3, 3];
    assert_eq!(depths(&store, tags), expected);
    let mut again = vec![0; bytes_for(29)];
    assert_eq!((store.write_to(&mut again), &again[..]), (Ok(file.len()), &file[..]));
}
