//! Rights for parties (document 02, CR 6): the specimens, the orders of refusals, and what a load and a file read end.

use vekhturop::Kind::{Begin, End, Text};
use vekhturop::{
    Access, Ask, Grant, Grants, HeldPair, Inserted, Kind, Label, Refusal, Rights, Store, Tag, bytes_for, words_for,
};

const PRINTED: [Kind; 6] = [Begin, Begin, End, Begin, End, End];

fn tag(number: u32) -> Tag {
    Tag::new(number).expect("a tag")
}

fn pair(number: u32, start: u32, end: u32) -> HeldPair {
    HeldPair::new(7, tag(number), Label(start), Label(end))
}

/// First and last new tag, moved, split.
fn inserted(reply: Result<Access, Refusal>) -> Option<(u32, u32, u32, u32)> {
    match reply {
        Ok(Access::Inserted(Inserted { first, last, moved, split, .. })) => {
            Some((first.number(), last.number(), moved, split))
        }
        _ => None,
    }
}

/// A grant's record.
fn grant(party: u32, section: u32, rights: u32) -> Grant {
    Grant { party, section, rights }
}

/// The three grants of the specimens, on the printed book with room for 8 tags.
fn granted<'a>(store: &mut Store, list: &'a mut [Grant]) -> Grants<'a> {
    let mut grants = Grants::kept(list, 9);
    assert_eq!(grants.add(store, 5, tag(0), Rights::READ), Err(Refusal::OutOfRange), "a count above the list");
    let loaded = grants.load(store, 2, 2, 7, &PRINTED).expect("a load takes any count");
    assert_eq!((loaded.tags, loaded.height, grants.count()), (6, 2, 0));
    assert_eq!(grants.add(store, 5, tag(0), Rights::READ | Rights::INSERT), Ok(1));
    assert_eq!(grants.add(store, 6, tag(1), Rights::READ | Rights::WRITE | Rights::INSERT), Ok(2));
    assert_eq!(grants.add(store, 5, tag(0), Rights::WRITE), Ok(3));
    grants
}

#[test]
fn grants_are_refused_by_the_table() {
    let (mut words, mut list) = (vec![0; words_for(8)], [Grant::default(); 3]);
    let mut store = Store::new(&mut words);
    let mut grants = Grants::new(&mut list);
    assert_eq!(grants.add(&store, 5, tag(0), Rights::READ), Err(Refusal::NotSound));
    assert_eq!(grants.add(&store, 0, tag(0), Rights::READ), Err(Refusal::OutOfRange), "before the store is read");
    grants.load(&mut store, 2, 2, 7, &PRINTED).expect("a book");
    assert_eq!(grants.add(&store, 65_536, tag(0), Rights::READ), Err(Refusal::OutOfRange));
    assert_eq!(grants.add(&store, 65_535, tag(6), Rights::READ), Err(Refusal::NoSuchTag));
    assert_eq!(grants.add(&store, 65_535, tag(2), Rights::READ), Err(Refusal::NotASection));
    let mut grants = granted(&mut store, &mut list);
    assert_eq!(grants.add(&store, 5, tag(9), Rights::READ), Err(Refusal::NoSuchTag), "8 before 19");
    assert_eq!(grants.add(&store, 5, tag(2), Rights::READ), Err(Refusal::NotASection), "10 before 19");
    assert_eq!(grants.add(&store, 5, tag(0), Rights::READ), Err(Refusal::GrantsFull));
    store.mark(tag(3)).expect("a section");
    assert_eq!(grants.add(&store, 5, tag(3), Rights::READ), Err(Refusal::TagMarked), "9 before 19");
    assert_eq!(grants.records(), [grant(5, 0, 5), grant(6, 1, 7), grant(5, 0, 2)]);
}

#[test]
fn calls_are_allowed_by_grants() {
    let (mut words, mut list) = (vec![0; words_for(8)], [Grant::default(); 3]);
    let mut store = Store::new(&mut words);
    let grants = granted(&mut store, &mut list);
    let (book, inner) = (pair(0, 0, 7), pair(1, 1, 3));
    let mut call = |party, pair: &HeldPair, d, ask| grants.call(&mut store, party, pair, tag(d), ask);

    assert_eq!(call(5, &book, 3, Ask::Read), Ok(Access::Yes));
    assert_eq!(call(5, &book, 3, Ask::Write), Ok(Access::Yes), "by the third grant");
    assert_eq!(call(6, &book, 3, Ask::Read), Err(Refusal::NotAllowed), "on another section");
    assert_eq!(call(5, &book, 0, Ask::Read), Err(Refusal::NotAllowed), "the section's own begin");
    assert_eq!(call(5, &book, 5, Ask::Insert(Text)), Err(Refusal::NotAllowed), "behind the section's end");
    let other = HeldPair::new(8, tag(0), Label(0), Label(7));
    assert_eq!(call(5, &other, 3, Ask::Read), Ok(Access::Stale));
    assert_eq!(call(5, &pair(9, 0, 7), 3, Ask::Read), Err(Refusal::NoSuchTag));
    assert_eq!(call(5, &book, 9, Ask::Read), Err(Refusal::NoSuchTag));
    assert_eq!(call(9, &book, 3, Ask::Insert(End)), Err(Refusal::NotAllowed), "18 before 4");
    assert_eq!(call(5, &book, 3, Ask::Insert(End)), Err(Refusal::Kind));

    assert_eq!(inserted(call(6, &inner, 1, Ask::Insert(Text))), Some((6, 6, 0, 0)), "right behind the begin");
    assert_eq!(call(6, &inner, 6, Ask::Read), Ok(Access::Yes));
    assert_eq!(call(6, &inner, 2, Ask::Insert(Text)), Err(Refusal::NotAllowed));
    assert_eq!(inserted(call(6, &inner, 1, Ask::Insert(Text))), Some((7, 7, 5, 2)));
    assert_eq!(call(6, &inner, 1, Ask::Insert(Text)), Ok(Access::Stale), "by its own insertion");
    assert_eq!(call(6, &pair(1, 1, 9), 6, Ask::Insert(Begin)), Err(Refusal::TooManyTags));
    assert_eq!(store.words()[7], 2, "two changes");
}

#[test]
fn an_element_of_a_party_has_two_tags() {
    let (mut words, mut list) = (vec![0; words_for(8)], [Grant::default(); 3]);
    let mut store = Store::new(&mut words);
    let grants = granted(&mut store, &mut list);
    assert_eq!(
        inserted(grants.call(&mut store, 6, &pair(1, 1, 3), tag(1), Ask::Insert(Begin))),
        Some((6, 7, 4, 2)),
        "the two split the root"
    );
}

#[test]
fn revoking_ends_a_partys_grants_on_a_section() {
    let (mut words, mut list) = (vec![0; words_for(8)], [Grant::default(); 3]);
    let mut store = Store::new(&mut words);
    let mut grants = granted(&mut store, &mut list);
    assert_eq!(grants.revoke(5, tag(0)), Ok(2));
    assert_eq!((grants.count(), grants.records()), (1, &[grant(6, 1, 7), grant(6, 1, 7), grant(5, 0, 2)][..]));
    assert_eq!(grants.call(&mut store, 5, &pair(0, 0, 7), tag(3), Ask::Write), Err(Refusal::NotAllowed));
    assert_eq!(
        grants.call(&mut store, 6, &pair(1, 1, 3), tag(1), Ask::Read),
        Err(Refusal::NotAllowed),
        "its own begin"
    );
    assert_eq!(grants.revoke(5, tag(0)), Ok(0));
    assert_eq!(grants.revoke(0, tag(0)), Err(Refusal::OutOfRange));
    assert_eq!(grants.revoke(6, tag(4_000_000_000)), Ok(0), "any section may be named");
}

/// A grant names a tag number, which is another tag's in a new book.
#[test]
fn a_load_and_a_file_read_end_all_grants() {
    let (mut words, mut list) = (vec![0; words_for(8)], [Grant::default(); 3]);
    let mut store = Store::new(&mut words);
    let mut grants = granted(&mut store, &mut list);
    let mut file = vec![0; bytes_for(6)];
    let bytes = store.write_to(&mut file).expect("a file");

    assert_eq!(grants.load(&mut store, 1, 2, 7, &PRINTED), Err(Refusal::Degree));
    assert_eq!(grants.count(), 3, "a refused load leaves them");
    let mut others = vec![0; words_for(8)];
    assert_eq!(grants.read_from(&file[..bytes - 1], &mut others).err(), Some(Refusal::NotAFile));
    assert_eq!(grants.count(), 3, "and so does a file that is refused");
    let (mut again, loaded) = grants.read_from(&file[..bytes], &mut others).expect("the file");
    assert_eq!((loaded.tags, again.words(), grants.count()), (6, store.words(), 0));
    assert_eq!(grants.call(&mut again, 5, &pair(0, 0, 7), tag(3), Ask::Read), Err(Refusal::NotAllowed));
}

/// Nothing is refused for what stands in a list: a record gives a right where its rights, divided by it, are odd.
#[test]
fn odd_records_are_the_callers() {
    let mut words = vec![0; words_for(6)];
    let mut store = Store::new(&mut words);
    store.load(2, 2, 7, &PRINTED).expect("a book");
    let mut list = [grant(0, u32::MAX, u32::MAX), grant(5, 0, 9), grant(5, 0, 16)];
    let grants = Grants::kept(&mut list, 3);
    assert_eq!(grants.call(&mut store, 5, &pair(0, 0, 7), tag(3), Ask::Read), Ok(Access::Yes), "9 is odd");
    assert_eq!(
        grants.call(&mut store, 5, &pair(0, 0, 7), tag(3), Ask::Write),
        Err(Refusal::NotAllowed),
        "4 and 8 are not"
    );
    let none = Grants::new(&mut []);
    assert_eq!(none.call(&mut store, 5, &pair(0, 0, 7), tag(3), Ask::Read), Err(Refusal::NotAllowed));
}
