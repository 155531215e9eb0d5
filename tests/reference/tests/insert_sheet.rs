//! A whole sheet by one call (document 02, CR 5): the specimens, the refusals in their order, and sheets beside the single
//! insertions that they stand for.

use reference::{Blunder, Fault, HEADER, Inserted, NO_TAG, RECORD, Refusal, Store};

const BEGIN: u8 = 1;
const END: u8 = 2;
const TEXT: u8 = 3;

fn kinds(letters: &str) -> Vec<u8> {
    letters.bytes().map(|c| 1 + "BET".bytes().position(|k| k == c).unwrap() as u8).collect()
}

fn loaded(s: u32, r: u32, letters: &str, more: usize) -> Store {
    let mut store = Store::new(vec![0; HEADER + RECORD * (letters.len() + more)]);
    store.load(s, r, 7, &kinds(letters)).unwrap();
    store
}

fn texts(s: u32, r: u32, n: usize, more: usize) -> Store {
    loaded(s, r, &"T".repeat(n), more)
}

fn inserted(first: u32, moved: u32, split: u32) -> Result<Inserted, Refusal> {
    Ok(Inserted { first, moved, split })
}

/// Tag numbers and labels along next, of marked tags too.
fn along(store: &Store) -> (Vec<u32>, Vec<u32>) {
    let (mut tags, mut labels) = (Vec::new(), Vec::new());
    let mut here = store.words[5];
    while here != NO_TAG {
        let record = &store.words[HEADER + RECORD * here as usize..];
        tags.push(here);
        labels.push(record[0]);
        here = record[1];
    }
    (tags, labels)
}

fn height(store: &Store) -> u32 {
    store.words[3]
}

fn stamp(store: &Store) -> u32 {
    store.words[7]
}

#[test]
fn a_begin_and_its_end_are_an_element() {
    let (mut sheet, mut element) = (loaded(2, 2, "BBEBEE", 2), loaded(2, 2, "BBEBEE", 2));
    assert_eq!(sheet.insert_sheet(&[BEGIN, END], 2), inserted(6, 3, 2));
    assert_eq!(element.insert(BEGIN, 2), inserted(6, 3, 2));
    assert_eq!(sheet, element);
}

#[test]
fn a_sheet_nests_below_the_begin_of_its_place() {
    let mut store = loaded(2, 2, "BBEBEE", 6);
    assert_eq!(store.insert_sheet(&kinds("BBTETE"), 1), inserted(6, 4, 2));
    let (tags, labels) = along(&store);
    assert_eq!(tags, [0, 1, 6, 7, 8, 9, 10, 11, 2, 3, 4, 5]);
    assert_eq!(labels, [0, 1, 3, 4, 9, 10, 12, 13, 18, 19, 21, 22]);
    let field = |tag: usize, at: usize| store.words[HEADER + RECORD * tag + at];
    assert_eq!([6, 7, 8, 9, 10, 11].map(|tag| field(tag, 4)), [1, 6, 7, 6, 6, 1]);
    assert_eq!([6, 7, 8, 9, 10, 11].map(|tag| field(tag, 3)), [11, 9, 8, 7, 10, 6]);
    assert_eq!((height(&store), stamp(&store)), (3, 1));
}

#[test]
fn sheets_at_the_front_of_an_empty_book() {
    let mut store = loaded(2, 2, "", 8);
    assert_eq!(store.insert_sheet(&[TEXT; 3], NO_TAG), inserted(0, 0, 0));
    assert_eq!(store.insert_sheet(&[TEXT; 5], NO_TAG), inserted(3, 3, 2));
    assert_eq!(along(&store).1, [0, 1, 3, 4, 9, 10, 12, 13]);
    assert_eq!((height(&store), stamp(&store)), (3, 2));
}

#[test]
fn sheets_that_split_below_the_root() {
    let mut store = texts(2, 2, 8, 3);
    assert_eq!(store.insert_sheet(&[TEXT; 3], 3), inserted(8, 0, 1));
    assert_eq!(along(&store).1, [0, 1, 3, 4, 6, 7, 8, 9, 10, 12, 13]);

    let five = [0, 1, 3, 4, 9, 10, 12, 13, 14, 18, 19, 21, 22];
    let mut store = texts(2, 2, 8, 5);
    assert_eq!(store.insert_sheet(&[TEXT; 5], 3), inserted(8, 4, 2));
    assert_eq!(along(&store).1, five);

    // Marked tags move with the others and do not count.
    let mut store = texts(2, 2, 8, 5);
    assert_eq!((store.mark(4), store.mark(7)), (Ok(1), Ok(1)));
    assert_eq!(store.insert_sheet(&[TEXT; 5], 3), inserted(8, 2, 2));
    assert_eq!(along(&store).1, five);

    let mut store = texts(3, 2, 9, 6);
    assert_eq!(store.insert_sheet(&[TEXT; 6], 4), inserted(9, 4, 1));
    assert_eq!(along(&store).1, [0, 1, 5, 6, 25, 26, 30, 31, 35, 36, 37, 38, 40, 41, 42]);
}

#[test]
fn a_sheet_that_raises_the_height_twice() {
    let mut store = texts(2, 2, 4, 20);
    assert_eq!(store.insert_sheet(&[TEXT; 20], 0), inserted(4, 3, 3));
    let tree = [0, 1, 3, 4, 9, 10, 12, 13];
    assert_eq!(along(&store).1, [0, 27, 54].map(|at| tree.map(|label| at + label)).concat());
    assert_eq!(height(&store), 4);
}

/// Document 01's specimen K, up to the last tag that its labels reach and past it.
#[test]
fn a_sheet_up_to_the_last_label() {
    let mut store = texts(16, 2, 127, 1_000);
    let before = store.clone();
    assert_eq!(store.insert_sheet(&[TEXT; 897], 5), Err(Refusal::Labels));
    assert_eq!(store, before);
    assert_eq!(store.insert_sheet(&[TEXT; 896], 5), inserted(127, 121, 5));
    assert_eq!((height(&store), store.words[4], stamp(&store)), (6, 1_023, 1));
    assert_eq!(store.insert_sheet(&[TEXT], 5), Err(Refusal::Labels));
}

/// The first height that a sheet needs may fit, and the next not: with s = 16 and r = 2 H = 5 goes over to 6, and no
/// further.
#[test]
fn every_height_on_the_way_must_fit() {
    let mut store = texts(16, 2, 63, 1_000);
    assert_eq!(height(&store), 5);
    assert_eq!(store.insert_sheet(&[TEXT; 961], 5), Err(Refusal::Labels));
    assert!(store.insert_sheet(&[TEXT; 960], 5).is_ok());
    assert_eq!(height(&store), 6);
}

#[test]
fn the_empty_sheet_changes_nothing() {
    let mut store = texts(2, 2, 3, 0);
    let before = store.clone();
    assert_eq!(store.insert_sheet(&[], 0), inserted(3, 0, 0));
    assert_eq!(store.insert_sheet(&[], NO_TAG), inserted(3, 0, 0));
    assert_eq!(store.insert_sheet(&[], 3), Err(Refusal::NoSuchTag));
    assert_eq!(store, before);
    assert_eq!(Store::new(vec![1; 7]).insert_sheet(&[], NO_TAG), Err(Refusal::FewWords));
    assert_eq!(Store::new(vec![1; 8]).insert_sheet(&[], NO_TAG), Err(Refusal::NotSound));
    store.mark(1).unwrap();
    assert_eq!(store.insert_sheet(&[], 1), Err(Refusal::Marked));
}

#[test]
fn refusals_in_the_order_1_2_4_5_8_9_6_7() {
    assert_eq!(Store::new(vec![1; 7]).insert_sheet(&[9], 9), Err(Refusal::FewWords));
    assert_eq!(Store::new(vec![1; 8]).insert_sheet(&[9], 9), Err(Refusal::NotSound));
    let mut store = texts(2, 2, 3, 0);
    store.mark(1).unwrap();
    let before = store.clone();
    let many = vec![TEXT; 200_001];
    assert_eq!(store.insert_sheet(&[BEGIN, 4], 9), Err(Refusal::Kind));
    assert_eq!(store.insert_sheet(&[END, 17], 9), Err(Refusal::Kind));
    assert_eq!(store.insert_sheet(&[BEGIN], 9), Err(Refusal::Nesting));
    assert_eq!(store.insert_sheet(&[END, BEGIN], 0), Err(Refusal::Nesting));
    assert_eq!(store.insert_sheet(&many, 9), Err(Refusal::NoSuchTag));
    assert_eq!(store.insert_sheet(&many, 1), Err(Refusal::Marked));
    assert_eq!(store.insert_sheet(&many, 0), Err(Refusal::TooMany));
    assert_eq!(store.insert_sheet(&[TEXT], 0), Err(Refusal::TooMany));
    assert_eq!(store, before);
    // Too few words come before too few labels.
    let mut store = texts(16, 2, 127, 896);
    assert_eq!(store.insert_sheet(&[TEXT; 897], 0), Err(Refusal::TooMany));
    assert!(store.insert_sheet(&[TEXT; 896], 0).is_ok());
}

#[test]
fn at_200_000_tags() {
    let mut store = texts(2, 16, 199_997, 10);
    assert_eq!(store.insert_sheet(&[TEXT; 4], 0), Err(Refusal::TooMany));
    assert_eq!(store.insert_sheet(&[BEGIN, TEXT, END], 0).map(|it| it.first), Ok(199_997));
    assert_eq!(store.insert_sheet(&[TEXT], 0), Err(Refusal::TooMany));
    assert_eq!(store.insert_sheet(&[], 0), inserted(200_000, 0, 0));
}

/// A sheet of texts and elements one behind the other, beside the calls that put these in: all words but the stamp.
#[test]
fn a_flat_sheet_is_its_single_insertions() {
    for (s, r) in [(2, 2), (3, 2), (2, 3), (4, 4), (16, 2)] {
        for place in [NO_TAG, 0, 4, 9] {
            let (mut sheet, mut single) = (texts(s, r, 10, 30), texts(s, r, 10, 30));
            let reply = sheet.insert_sheet(&kinds("TBETTTBEBETTTTBET"), place).unwrap();
            let (mut split, mut behind) = (0, place);
            for kind in kinds("TBTTTBBTTTTBT") {
                let reply = single.insert(kind, behind).unwrap();
                split = split.max(reply.split);
                behind = reply.first + u32::from(kind == BEGIN);
            }
            assert_eq!((reply.first, reply.split), (10, split), "s {s}, r {r}, behind {place}");
            assert_eq!((stamp(&sheet), stamp(&single)), (1, 13));
            single.words[7] = 1;
            assert_eq!(sheet, single, "s {s}, r {r}, behind {place}");
        }
    }
}

/// Replies and words of a few sheets, under a fault.
fn short_history(fault: Fault) -> (Vec<Result<Inserted, Refusal>>, Vec<u32>) {
    let mut store = Store::faulty(vec![0; HEADER + RECORD * 1_400], fault);
    store.load(16, 2, 7, &kinds("BTTTTE")).unwrap();
    let rows: [(&[u8], u32); 6] =
        [(&[], 0), (&[END], 9), (&[BEGIN, TEXT, END], 1), (&[TEXT; 90], 2), (&[TEXT; 300], 3), (&[TEXT; 900], 0)];
    (rows.map(|(kinds, place)| store.insert_sheet(kinds, place)).to_vec(), store.words)
}

#[test]
fn each_blunder_shows() {
    for blunder in Blunder::ALL {
        assert!(short_history(Fault::Misputs(blunder)) != short_history(Fault::None), "{blunder:?}");
    }
}
