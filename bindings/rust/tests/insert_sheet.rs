//! Whole sheets by one call (document 02, CR 5): the specimens, every refusal, and sheets beside the single insertions that
//! they stand for.

use vekhturop::Kind::{Begin, End, Text};
use vekhturop::{Answer, Inserted, Kind, Place, Refusal, Store, Tag, Within, kinds_of_xml, words_for};

const PRINTED: [Kind; 6] = [Begin, Begin, End, Begin, End, End];

fn tag(number: u32) -> Tag {
    Tag::new(number).expect("a tag")
}

fn after(number: u32) -> Place {
    Place::After(tag(number))
}

/// The words of a book of these kinds, with room for so many tags more.
fn loaded(s: u32, r: u32, kinds: &[Kind], more: usize) -> Vec<u32> {
    let mut words = vec![0; words_for(kinds.len() + more)];
    Store::new(&mut words).load(s, r, 7, kinds).expect("a book");
    words
}

/// First and last new tag, moved, split.
fn reply(inserted: Inserted) -> (u32, u32, u32, u32) {
    (inserted.first.number(), inserted.last.number(), inserted.moved, inserted.split)
}

/// Tags and labels in book order.
fn listed(store: &Store) -> (Vec<u32>, Vec<u32>) {
    store.list(Within::Book).expect("a list").into_iter().map(|(tag, label)| (tag.number(), label.0)).unzip()
}

/// From a text to tags of a book: the sheet nests below the begin that it goes in behind.
#[test]
fn a_sheet_goes_into_a_book() {
    let text = b"<alloy><pass>gap 4</pass>2 passes</alloy>";
    let mut bytes = vec![0; text.len()];
    let count = kinds_of_xml(text, &mut bytes).expect("a sheet");
    let kinds: Vec<Kind> = bytes[..count].iter().map(|byte| Kind::try_from(*byte).expect("a kind")).collect();
    assert_eq!(kinds, [Begin, Begin, Text, End, Text, End]);

    let mut words = loaded(2, 2, &PRINTED, 6);
    let mut store = Store::new(&mut words);
    assert_eq!(store.insert_sheet(&kinds, after(1)).map(reply), Ok((6, 11, 4, 2)));
    let book = (vec![0, 1, 6, 7, 8, 9, 10, 11, 2, 3, 4, 5], vec![0, 1, 3, 4, 9, 10, 12, 13, 18, 19, 21, 22]);
    assert_eq!(listed(&store), book);
    assert_eq!((store.words()[3], store.words()[7]), (3, 1), "height and stamp");
    let pair = store.hold(tag(1)).expect("a section");
    assert_eq!((6..12).map(|it| store.question(&pair, tag(it))).collect::<Vec<_>>(), [Ok(Answer::Yes); 6]);
    let pair = store.hold(tag(7)).expect("the pass");
    assert_eq!(store.question(&pair, tag(8)), Ok(Answer::Yes));
    assert_eq!(store.question(&pair, tag(10)), Ok(Answer::No));
}

/// Labels are a matter of how many tags go in, and where: so many texts, each behind the one before, have the same.
#[test]
fn a_sheet_has_the_labels_of_single_texts() {
    let sheet = [Begin, Text, Begin, Begin, End, End, End, Text, Begin, End, Text];
    for (s, r) in [(2, 2), (3, 2), (2, 3), (4, 4), (16, 2)] {
        for place in [Place::Front, after(0), after(2), after(5)] {
            let (mut one, mut other) = (loaded(s, r, &PRINTED, 11), loaded(s, r, &PRINTED, 11));
            let (mut whole, mut single) = (Store::new(&mut one), Store::new(&mut other));
            let reply = whole.insert_sheet(&sheet, place).expect("room");
            let (mut behind, mut split) = (place, 0);
            for _ in sheet {
                let text = single.insert_text(behind).expect("room");
                (behind, split) = (Place::After(text.first), split.max(text.split));
            }
            assert_eq!(listed(&whole), listed(&single), "({s}, {r}), {place:?}");
            assert_eq!((reply.split, reply.first, reply.last), (split, tag(6), tag(16)));
        }
    }
}

/// An element, or texts one behind the other: the very words, but for the stamp.
#[test]
fn a_flat_sheet_is_its_single_insertions() {
    let (mut one, mut other) = (loaded(2, 2, &PRINTED, 3), loaded(2, 2, &PRINTED, 3));
    let (mut whole, mut single) = (Store::new(&mut one), Store::new(&mut other));
    assert_eq!(whole.insert_sheet(&[Begin, End], after(2)), single.insert_element(after(2)));
    assert_eq!(whole.words(), single.words());
    assert_eq!(whole.insert_sheet(&[Text], Place::Front), single.insert_text(Place::Front));
    assert_eq!(whole.words(), single.words());

    let (mut one, mut other) = (loaded(2, 2, &[], 8), loaded(2, 2, &[], 8));
    let mut whole = Store::new(&mut one);
    assert_eq!(whole.insert_sheet(&[Text; 3], Place::Front).map(reply), Ok((0, 2, 0, 0)));
    assert_eq!(whole.insert_sheet(&[Text; 5], Place::Front).map(reply), Ok((3, 7, 3, 2)));
    let mut single = Store::new(&mut other);
    for place in [Place::Front, after(0), after(1), Place::Front, after(3), after(4), after(5), after(6)] {
        single.insert_text(place).expect("room");
    }
    assert_eq!((one[7], other[7]), (2, 8));
    other[7] = 2;
    assert_eq!(one, other);
}

#[test]
fn an_empty_sheet_changes_nothing() {
    let mut words = loaded(2, 2, &[Text; 3], 0);
    let before = words.clone();
    let mut store = Store::new(&mut words);
    assert_eq!(store.insert_sheet(&[], after(0)).map(reply), Ok((3, 3, 0, 0)));
    assert_eq!(store.insert_sheet(&[], Place::Front).map(reply), Ok((3, 3, 0, 0)));
    assert_eq!(store.insert_sheet(&[], after(3)), Err(Refusal::NoSuchTag));
    assert_eq!(store.words(), before);
    assert_eq!(Store::new(&mut [1; 7]).insert_sheet(&[], Place::Front), Err(Refusal::TooFewWords));
    assert_eq!(Store::new(&mut [1; 8]).insert_sheet(&[], Place::Front), Err(Refusal::NotSound));
}

#[test]
fn sheets_that_are_refused_change_nothing() {
    let mut words = loaded(2, 2, &PRINTED, 1);
    let many = vec![Text; 200_001];
    let mut store = Store::new(&mut words);
    assert_eq!(store.mark(tag(3)), Ok(2));
    let before = store.words().to_vec();
    assert_eq!(store.insert_sheet(&[Begin], after(9)), Err(Refusal::Nesting));
    assert_eq!(store.insert_sheet(&[End, Begin], after(0)), Err(Refusal::Nesting));
    assert_eq!(store.insert_sheet(&many, after(6)), Err(Refusal::NoSuchTag));
    assert_eq!(store.insert_sheet(&many, after(4)), Err(Refusal::TagMarked));
    assert_eq!(store.insert_sheet(&many, after(0)), Err(Refusal::TooManyTags));
    assert_eq!(store.insert_sheet(&[Text; 2], after(0)), Err(Refusal::TooManyTags));
    assert_eq!(store.words(), before);
    assert_eq!(store.insert_sheet(&[Text], after(0)).map(|it| it.first), Ok(tag(6)));
}

/// Document 01's specimen K, up to the last tag that its labels reach and past it.
#[test]
fn a_sheet_up_to_the_last_label() {
    let mut words = loaded(16, 2, &[Text; 127], 897);
    let mut store = Store::new(&mut words);
    assert_eq!(store.insert_sheet(&[Text; 897], after(5)), Err(Refusal::OutOfLabels));
    assert_eq!(store.insert_sheet(&[Text; 896], after(5)).map(reply), Ok((127, 1_022, 121, 5)));
    assert_eq!(store.insert_sheet(&[Text], after(5)), Err(Refusal::OutOfLabels));
    assert_eq!(store.words()[3], 6);
}
