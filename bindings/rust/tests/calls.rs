//! Every call, and every refusal that this crate lets a caller meet, on the book that document 01 prints.

use vekhturop::Kind::{Begin, End, Text};
use vekhturop::{Answer, Inserted, Kind, Label, Loaded, Place, Refusal, Store, Tag, words_for};
use vekhturop::{HeldPair, NotATag, Within};

const PRINTED: [Kind; 6] = [Begin, Begin, End, Begin, End, End];

fn tag(number: u32) -> Tag {
    Tag::new(number).expect("a tag")
}

/// Loads the printed book, with room for so many tags.
fn with_book(tags: usize, test: impl FnOnce(&mut Store)) {
    let mut words = vec![0; words_for(tags)];
    let mut store = Store::new(&mut words);
    let loaded = store.load(2, 2, 7, &PRINTED);
    assert_eq!(loaded.map(shape), Ok((6, 2)));
    test(&mut store);
}

fn shape(loaded: Loaded) -> (u32, u32) {
    (loaded.tags, loaded.height)
}

/// First and last new tag, moved, split.
fn reply(inserted: Inserted) -> (u32, u32, u32, u32) {
    (inserted.first.number(), inserted.last.number(), inserted.moved, inserted.split)
}

fn listed(store: &Store, within: Within) -> Vec<(u32, u32)> {
    let list = store.list(within).expect("a list");
    list.into_iter().map(|(t, l)| (t.number(), l.0)).collect()
}

#[test]
fn the_printed_insertions() {
    with_book(10, |store| {
        assert_eq!(store.insert_text(Place::After(tag(2))).map(reply), Ok((6, 6, 1, 0)));
        assert_eq!(store.insert_text(Place::After(tag(2))).map(reply), Ok((7, 7, 4, 2)));
        let book = [(0, 0), (1, 1), (2, 3), (7, 4), (6, 9), (3, 10), (4, 12), (5, 13)];
        assert_eq!(listed(store, Within::Book), book);
        assert_eq!(listed(store, Within::Section(tag(0))), book[1..7]);
    });
}

#[test]
fn marked_tags_move_and_do_not_count() {
    with_book(10, |store| {
        assert_eq!(store.mark(tag(3)), Ok(2));
        assert_eq!(store.insert_text(Place::After(tag(2))).map(reply), Ok((6, 6, 0, 0)));
        assert_eq!(store.insert_text(Place::After(tag(2))).map(reply), Ok((7, 7, 2, 2)));
        assert_eq!(listed(store, Within::Book), [(0, 0), (1, 1), (2, 3), (7, 4), (6, 9), (5, 13)]);
    });
}

#[test]
fn an_element_goes_in_with_its_end_behind_it() {
    with_book(10, |store| {
        let element = store.insert_element(Place::Front).expect("room");
        assert_eq!((element.first, element.last), (tag(6), tag(7)));
        let order: Vec<u32> = listed(store, Within::Book).iter().map(|it| it.0).collect();
        assert_eq!(order, [6, 7, 0, 1, 2, 3, 4, 5]);
    });
}

#[test]
fn a_pair_is_held_asked_and_gets_stale() {
    with_book(10, |store| {
        let outer = store.hold(tag(0)).expect("a section");
        let pair = HeldPair::new(7, tag(0), Label(0), Label(7));
        assert_eq!(outer, pair);
        let inner = store.hold(tag(1)).expect("a section");
        store.insert_text(Place::After(tag(2))).expect("room");
        assert_eq!(store.question(&outer, tag(6)), Ok(Answer::Yes));
        assert_eq!(store.question(&outer, tag(0)), Ok(Answer::No));
        store.insert_text(Place::After(tag(2))).expect("room");
        assert_eq!(store.question(&outer, tag(6)), Ok(Answer::Stale));
        assert_eq!(store.question(&inner, tag(6)), Ok(Answer::No));
    });
}

#[test]
fn a_marked_section_is_listed_no_more() {
    with_book(10, |store| {
        assert_eq!(store.mark(tag(3)), Ok(2));
        assert_eq!(listed(store, Within::Section(tag(0))), [(1, 1), (2, 3)]);
        assert_eq!(store.mark(tag(3)), Err(Refusal::TagMarked));
    });
}

#[test]
fn a_list_goes_into_lent_lists() {
    with_book(10, |store| {
        let (mut tags, mut labels) = ([tag(99); 5], [Label(99); 5]);
        let count = store.list_into(Within::Section(tag(0)), &mut tags, &mut labels);
        assert_eq!(count, Ok(4));
        assert_eq!(tags.map(Tag::number), [1, 2, 3, 4, 99]);
        assert_eq!(labels.map(|it| it.0), [1, 3, 4, 6, 99]);

        let (before, after) = (tags, labels);
        let short = store.list_into(Within::Section(tag(0)), &mut tags[..3], &mut labels);
        assert_eq!(short, Err(Refusal::ListTooShort));
        assert_eq!((tags, labels), (before, after));
    });
}

#[test]
fn loads_that_are_refused() {
    let mut words = vec![5; words_for(200)];
    let mut store = Store::new(&mut words);
    let many = vec![Text; 200_001];
    assert_eq!(store.load(1, 2, 0, &PRINTED), Err(Refusal::Degree));
    assert_eq!(store.load(2, 2, 0, &many), Err(Refusal::TooManyTags));
    assert_eq!(store.load(2, 2, 0, &[Text; 201]), Err(Refusal::TooFewWords));
    assert_eq!(store.load(2, 2, 0, &[Begin, Text]), Err(Refusal::Nesting));
    assert_eq!(store.load(16, 2, 0, &[Text; 128]), Err(Refusal::OutOfLabels));
    assert!(store.words().iter().all(|it| *it == 5));
    assert_eq!(store.load(16, 2, 0, &[Text; 127]).map(shape), Ok((127, 6)));
}

/// Where 15^H and 255^H pass 2^32: with (4, 4) and (16, 16) at 131,072 texts, with (8, 2) at 512.
#[test]
fn loads_up_to_the_last_power_of_b() {
    let mut words = vec![0; words_for(131_072)];
    let mut store = Store::new(&mut words);
    let texts = vec![Text; 131_072];
    for (s, r, most, height) in [(4, 4, 131_071, 8), (16, 16, 131_071, 4), (8, 2, 511, 8)] {
        assert_eq!(store.load(s, r, 7, &texts[..most]).map(shape), Ok((most as u32, height)));
        assert_eq!(store.load(s, r, 7, &texts[..most + 1]), Err(Refusal::OutOfLabels));
    }
}

/// (4, 4), (2, 8) and (8, 2) have one base, and each its own tree: two nodes of r texts, 15 apart.
#[test]
fn labels_in_base_15() {
    for (s, r) in [(4, 4), (2, 8), (8, 2)] {
        let mut words = vec![0; words_for(16)];
        let mut store = Store::new(&mut words);
        assert_eq!(store.load(s, r, 7, &vec![Text; 2 * r as usize]).map(shape), Ok((2 * r, 2)));
        let labels: Vec<u32> = listed(&store, Within::Book).iter().map(|it| it.1).collect();
        assert_eq!(labels, (0..r).chain(15..15 + r).collect::<Vec<_>>());
    }
}

#[test]
fn calls_that_are_refused_change_nothing() {
    with_book(6, |store| {
        let before = store.words().to_vec();
        let pair = store.hold(tag(1)).expect("a section");
        assert_eq!(store.insert_text(Place::Front), Err(Refusal::TooManyTags));
        assert_eq!(store.insert_text(Place::After(tag(6))), Err(Refusal::NoSuchTag));
        assert_eq!(store.mark(tag(2)), Err(Refusal::NotASection));
        assert_eq!(store.hold(tag(5)), Err(Refusal::NotASection));
        assert_eq!(store.question(&pair, tag(6)), Err(Refusal::NoSuchTag));
        assert_eq!(store.list(Within::Section(tag(2))), Err(Refusal::NotASection));
        assert_eq!(store.words(), before);
    });
}

#[test]
fn words_that_say_no_store() {
    let mut few = [1; 7];
    assert_eq!(Store::new(&mut few).hold(tag(0)), Err(Refusal::TooFewWords));
    assert_eq!(Store::new(&mut []).list(Within::Book), Err(Refusal::TooFewWords));
    let mut full = [u32::MAX; words_for(3)];
    assert_eq!(Store::new(&mut full).list(Within::Book), Err(Refusal::NotSound));
    assert_eq!(Store::new(&mut full).mark(tag(0)), Err(Refusal::NotSound));
}

#[test]
fn an_empty_book() {
    let mut words = [0; words_for(1)];
    let mut store = Store::new(&mut words);
    assert_eq!(store.load(2, 2, 7, &[]).map(shape), Ok((0, 1)));
    assert_eq!(store.list(Within::Book), Ok(vec![]));
    assert_eq!(store.insert_text(Place::Front).map(|it| it.first), Ok(tag(0)));
}

#[test]
fn no_tag_is_no_tag() {
    assert_eq!(Tag::new(u32::MAX), None);
    assert_eq!(Tag::new(3).map(Tag::number), Some(3));
    assert_eq!(Tag::try_from(u32::MAX), Err(NotATag));
    assert_eq!(Tag::try_from(3).map(u32::from), Ok(3));
}

#[test]
fn a_refusal_is_an_error_with_a_number() {
    let error: Box<dyn std::error::Error> = Box::new(Refusal::NoSuchTag);
    assert_eq!(error.to_string(), "the book has issued no tag of that number");
    assert_eq!(Refusal::NoSuchTag.number(), 8);
}

#[test]
fn tags_and_labels_are_shown_as_numbers() {
    assert_eq!(format!("{}={}", tag(12), Label(34)), "12=34");
    assert_eq!(format!("{:>4}", tag(12)), "  12");
}
