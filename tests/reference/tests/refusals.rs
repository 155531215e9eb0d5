//! The refusals in document 01's order, and that a refused call changes nothing.

use reference::{Answer, HEADER, Held, NO_TAG, RECORD, Refusal, Store};

const BEGIN: u8 = 1;
const END: u8 = 2;
const TEXT: u8 = 3;

fn store_for(tags: usize) -> Store {
    Store::new(vec![9; HEADER + RECORD * tags])
}

/// B T E T with the first element marked or not, over words for exactly these tags and `more`.
fn small(more: usize) -> Store {
    let mut store = store_for(4 + more);
    store.load(2, 2, 7, &[BEGIN, TEXT, END, TEXT]).unwrap();
    store
}

#[test]
fn load_in_the_order_3_6_1_4_5_7() {
    let many = vec![9; 200_001];
    let mut none = Store::new(Vec::new());
    assert_eq!(none.load(17, 2, 7, &many), Err(Refusal::Parameters));
    assert_eq!(none.load(2, 1, 7, &many), Err(Refusal::Parameters));
    assert_eq!(none.load(2, 2, 7, &many), Err(Refusal::TooMany));
    assert_eq!(none.load(2, 2, 7, &[9]), Err(Refusal::FewWords));
    assert_eq!(none.load(2, 2, 7, &[]), Err(Refusal::FewWords));
    let mut store = store_for(128);
    let before = store.clone();
    assert_eq!(store.load(2, 2, 7, &[END, 9]), Err(Refusal::Kind));
    assert_eq!(store.load(16, 2, 7, &[END; 128]), Err(Refusal::Nesting));
    assert_eq!(store.load(16, 2, 7, &[BEGIN]), Err(Refusal::Nesting));
    assert_eq!(store.load(16, 2, 7, &[TEXT; 128]), Err(Refusal::Labels));
    assert_eq!(store, before);
}

#[test]
fn insert_in_the_order_1_2_4_8_9_6_7() {
    assert_eq!(Store::new(vec![1; 7]).insert(9, 9), Err(Refusal::FewWords));
    assert_eq!(store_for(1).insert(9, 9), Err(Refusal::NotSound));
    let mut store = small(1);
    store.mark(0).unwrap();
    let before = store.clone();
    assert_eq!(store.insert(END, 9), Err(Refusal::Kind));
    assert_eq!(store.insert(17, 9), Err(Refusal::Kind));
    assert_eq!(store.insert(BEGIN, 4), Err(Refusal::NoSuchTag));
    for marked in 0..3 {
        assert_eq!(store.insert(BEGIN, marked), Err(Refusal::Marked));
    }
    assert_eq!(store.insert(BEGIN, 3), Err(Refusal::TooMany));
    assert_eq!(store, before);
    assert_eq!(store.insert(TEXT, 3).unwrap().first, 4);
    assert_eq!(store.insert(TEXT, 3), Err(Refusal::TooMany));
}

#[test]
fn over_200_000_tags() {
    let mut store = store_for(200_002);
    store.load(2, 16, 7, &[TEXT; 199_999]).unwrap();
    assert_eq!(store.insert(BEGIN, 0), Err(Refusal::TooMany));
    assert_eq!(store.insert(TEXT, 0).unwrap().first, 199_999);
    assert_eq!(store.insert(TEXT, 0), Err(Refusal::TooMany));
}

#[test]
fn mark_hold_and_list() {
    let mut store = small(0);
    assert_eq!(store.mark(NO_TAG), Err(Refusal::NoSuchTag));
    assert_eq!(store.mark(2), Err(Refusal::WrongTag));
    assert_eq!(store.hold(4), Err(Refusal::NoSuchTag));
    assert_eq!(store.hold(2), Err(Refusal::WrongTag));
    assert_eq!(store.hold(3), Ok(Held { book: 7, tag: 3, start: 4, end: 4 }));
    let (mut tags, mut labels) = ([5; 4], [6; 4]);
    assert_eq!(store.list(3, &mut tags, &mut labels), Err(Refusal::WrongTag));
    assert_eq!(store.list(2, &mut tags, &mut labels), Err(Refusal::WrongTag));
    assert_eq!(store.list(4, &mut tags, &mut labels), Err(Refusal::NoSuchTag));
    assert_eq!(store.list(NO_TAG, &mut tags, &mut labels[..3]), Err(Refusal::ShortList));
    assert_eq!(store.list(NO_TAG, &mut tags[..3], &mut labels), Err(Refusal::ShortList));
    assert_eq!((tags, labels), ([5; 4], [6; 4]));
    assert_eq!(store.list(0, &mut tags, &mut labels), Ok(1));
    assert_eq!((tags, labels), ([1, 5, 5, 5], [1, 6, 6, 6]));
    assert_eq!(store.mark(1), Ok(1));
    assert_eq!(store.list(0, &mut [], &mut []), Ok(0));
    assert_eq!(store.mark(0), Ok(2));
    for marked in 0..3 {
        assert_eq!(store.mark(marked), Err(Refusal::Marked));
        assert_eq!(store.hold(marked), Err(Refusal::Marked));
        assert_eq!(store.list(marked, &mut tags, &mut labels), Err(Refusal::Marked));
    }
    assert_eq!(store.list(NO_TAG, &mut tags, &mut labels), Ok(1));
    assert_eq!((tags, labels), ([3, 5, 5, 5], [4, 6, 6, 6]));
    assert_eq!(store.words[7], 2);
}

#[test]
fn question_in_its_own_order() {
    let mut store = small(0);
    let pair = Held { book: 7, tag: 0, start: 0, end: 3 };
    assert_eq!(store.hold(0), Ok(pair));
    // The book number counts before everything, tags that are none included.
    assert_eq!(store.question(Held { book: 8, tag: 99, ..pair }, 99), Ok(Answer::Stale));
    assert_eq!(store.question(Held { tag: 4, ..pair }, 0), Err(Refusal::NoSuchTag));
    assert_eq!(store.question(Held { tag: 2, ..pair }, 4), Err(Refusal::NoSuchTag));
    assert_eq!(store.question(Held { tag: 2, ..pair }, 1), Err(Refusal::WrongTag));
    assert_eq!(store.question(Held { tag: 3, ..pair }, 1), Err(Refusal::WrongTag));
    assert_eq!(store.question(Held { end: 4, ..pair }, 1), Ok(Answer::Stale));
    assert_eq!(store.question(Held { start: 1, ..pair }, 1), Ok(Answer::Stale));
    let answers: Vec<_> = (0..4).map(|d| store.question(pair, d).unwrap()).collect();
    assert_eq!(answers, [Answer::No, Answer::Yes, Answer::No, Answer::No]);
    store.mark(1).unwrap();
    assert_eq!(store.question(Held { end: 4, ..pair }, 1), Ok(Answer::Stale));
    assert_eq!(store.question(pair, 1), Err(Refusal::Marked));
    store.mark(0).unwrap();
    assert_eq!(store.question(pair, 1), Ok(Answer::Stale));
    assert_eq!(store.question(Held { tag: 2, ..pair }, 1), Err(Refusal::WrongTag));
}
