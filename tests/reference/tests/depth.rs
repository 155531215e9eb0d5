//! Depth with every tag: specimens worked out by hand from document 02, CR 7.

use reference::{Fault, HEADER, Inserted, Loaded, NO_TAG, RECORD, Refusal, Store, bytes_for};

const DEPTH: usize = 6;

/// BBEBEE.
const PRINTED: [u8; 6] = [1, 1, 2, 1, 2, 2];

/// The depths by number, of all tags that were issued.
fn depths(store: &Store) -> Vec<u32> {
    (0..store.words[4] as usize).map(|x| store.words[HEADER + RECORD * x + DEPTH]).collect()
}

fn loaded(lent: usize, s: u32, r: u32, kinds: &[u8]) -> Store {
    let mut store = Store::new(vec![0; lent]);
    store.load(s, r, 7, kinds).unwrap();
    store
}

/// The printed load with a text after tag 2 and then an element after tag 1.
fn nine(lent: usize) -> Store {
    let mut store = loaded(lent, 2, 2, &PRINTED);
    assert_eq!(store.insert(3, 2), Ok(Inserted { first: 6, moved: 1, split: 0 }));
    assert_eq!(store.insert(1, 1), Ok(Inserted { first: 7, moved: 5, split: 2 }));
    store
}

#[test]
fn the_printed_load() {
    const N: u32 = NO_TAG;
    let records = [
        [0, 1, N, 5, N, 1, 0],
        [1, 2, 0, 2, 0, 1, 1],
        [3, 3, 1, 1, 0, 2, 1],
        [4, 4, 2, 4, 0, 1, 1],
        [6, 5, 3, 3, 0, 2, 1],
        [7, N, 4, 0, N, 2, 0],
    ];
    assert_eq!(loaded(50, 2, 2, &PRINTED).words[HEADER..], *records.as_flattened());
}

#[test]
fn insertions_and_a_mark() {
    let mut store = nine(71);
    let before = [0, 1, 1, 1, 1, 0, 1, 2, 2];
    assert_eq!(depths(&store), before);
    assert_eq!(store.insert(3, NO_TAG), Err(Refusal::TooMany));
    assert_eq!(store.clone().mark(1), Ok(4));
    let mut marked = store.clone();
    marked.mark(1).unwrap();
    assert_eq!(depths(&marked), before);
    store.words.resize(78, 0);
    assert_eq!(store.insert(3, NO_TAG), Ok(Inserted { first: 9, moved: 2, split: 0 }));
    assert_eq!(depths(&store)[9], 0);
}

/// Of the nine tags no depth may be any other.
#[test]
fn any_other_depth_is_refused() {
    let store = nine(71);
    for x in 0..9 {
        let at = HEADER + RECORD * x + DEPTH;
        let depth = store.words[at];
        for other in [depth + 1, depth.wrapping_sub(1), NO_TAG] {
            let mut damaged = store.clone();
            damaged.words[at] = other;
            assert_eq!(damaged.hold(0).map(|_| ()), Err(Refusal::NotSound), "{x} {other}");
        }
    }
}

#[test]
fn seven_words_a_tag() {
    let mut store = Store::new(vec![0; 28]);
    assert_eq!(store.load(2, 2, 7, &[3; 3]), Err(Refusal::FewWords));
    store.words.push(0);
    assert_eq!(store.load(2, 2, 7, &[3; 3]), Ok(Loaded { tags: 3, height: 1 }));
}

#[test]
fn files_keep_six_words() {
    let store = nine(71);
    let mut bytes = vec![0; 350];
    assert_eq!((store.write_file(&mut bytes), bytes_for(9)), (Ok(350), 350));
    let read = |lent: usize| {
        let mut again = Store::new(vec![9; lent]);
        let reply = again.read_file(&bytes);
        (reply.map(|it| (it.tags, it.height)), again.words)
    };
    assert_eq!(read(71), (Ok((9, 3)), store.words.clone()));
    assert_eq!(read(70), (Err(Refusal::FewWords), vec![9; 70]));
    assert_eq!(read(78), (Ok((9, 3)), [&store.words[..], &[9; 7]].concat()));
}

/// A sheet stands as deep as its place: BTBEET in an element, after it and at the front; BBTETE inside another.
#[test]
fn sheets() {
    let sheet = [1, 3, 1, 2, 2, 3];
    let put = |place: u32, lent: usize| {
        let mut store = loaded(lent, 4, 4, &[1, 2]);
        let reply = store.insert_sheet(&sheet, place).map(|it| (it.first, it.moved, it.split));
        (reply, depths(&store))
    };
    assert_eq!(put(0, 64), (Ok((2, 1, 0)), vec![0, 0, 1, 2, 2, 2, 1, 1]));
    assert_eq!(put(1, 64), (Ok((2, 0, 0)), vec![0, 0, 0, 1, 1, 1, 0, 0]));
    assert_eq!(put(NO_TAG, 64), (Ok((2, 2, 0)), vec![0, 0, 0, 1, 1, 1, 0, 0]));
    assert_eq!(put(0, 63), (Err(Refusal::TooMany), vec![0, 0]));
    let mut store = Store::faulty(vec![0; 92], Fault::None);
    store.load(2, 2, 7, &PRINTED).unwrap();
    store.insert_sheet(&[1, 1, 3, 2, 3, 2], 1).unwrap();
    assert_eq!(depths(&store)[6..], [2, 3, 4, 3, 3, 2]);
}

/// A file from before there was depth, of 29 tags with sheets, insertions and a marked section, which the library wrote then: it
/// is read, with the depths of its nesting, and is written again as it was.
#[test]
fn a_file_from_before() {
    let file = include_bytes!("before-depth.bin");
    let mut store = Store::new(vec![0; HEADER + RECORD * 29]);
    assert_eq!(store.read_file(file), Ok(Loaded { tags: 29, height: 4 }));
    let expected = [0, 1, 1, 2, 1, 1, 2, 2, 2, 1, 0, 0, 0, 0, 2, 2, 3, 0, 1, 1, 1, 0, 0, 3, 4, 4, 4, 3, 3];
    assert_eq!(depths(&store), expected);
    let mut again = vec![0; file.len()];
    assert_eq!((store.write_file(&mut again), &again[..]), (Ok(1_030), &file[..]));
}
