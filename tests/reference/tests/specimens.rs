//! Specimens A to L of document 01, its printed case, and its run from K.

use reference::{Answer, Fault, HEADER, Held, Inserted, Loaded, NO_TAG, RECORD, Refusal, Store};

const BEGIN: u8 = 1;
const TEXT: u8 = 3;

fn store_for(tags: usize) -> Store {
    Store::new(vec![0; HEADER + RECORD * tags])
}

fn loaded(s: u32, r: u32, kinds: &str, tags: usize) -> Store {
    let mut store = store_for(tags);
    let kinds: Vec<u8> = kinds.bytes().map(|c| 1 + "BET".bytes().position(|k| k == c).unwrap() as u8).collect();
    store.load(s, r, 7, &kinds).unwrap();
    store
}

fn height(store: &Store) -> u32 {
    store.words[3]
}

/// Tag numbers and labels of the whole book.
fn listed(store: &Store) -> (Vec<u32>, Vec<u32>) {
    let n = store.words[4] as usize;
    let (mut tags, mut labels) = (vec![0; n], vec![0; n]);
    let count = store.list(NO_TAG, &mut tags, &mut labels).unwrap() as usize;
    (tags[..count].to_vec(), labels[..count].to_vec())
}

#[test]
fn a_to_d_loads() {
    for (kinds, h, labels) in
        [("", 1, vec![]), ("TTT", 1, vec![0, 1, 2]), ("TTTT", 2, vec![0, 1, 3, 4]), ("TTTTT", 2, vec![0, 1, 3, 4, 5])]
    {
        let store = loaded(2, 2, kinds, 5);
        assert_eq!(height(&store), h, "{kinds}");
        assert_eq!(listed(&store).1, labels, "{kinds}");
    }
}

#[test]
fn e_a_node_of_height_1_splits() {
    let mut store = loaded(2, 2, "TTTTT", 6);
    assert_eq!(store.insert(TEXT, 4), Ok(Inserted { first: 5, moved: 1, split: 1 }));
    assert_eq!(listed(&store), (vec![0, 1, 2, 3, 4, 5], vec![0, 1, 3, 4, 6, 7]));
}

#[test]
fn f_g_the_printed_case() {
    let mut store = store_for(2000);
    assert_eq!(store.load(2, 2, 7, &[1, 1, 2, 1, 2, 2]), Ok(Loaded { tags: 6, height: 2 }));
    assert_eq!(store.insert(TEXT, 2), Ok(Inserted { first: 6, moved: 1, split: 0 }));
    assert_eq!(store.insert(TEXT, 2), Ok(Inserted { first: 7, moved: 4, split: 2 }));
    assert_eq!(listed(&store), (vec![0, 1, 2, 7, 6, 3, 4, 5], vec![0, 1, 3, 4, 9, 10, 12, 13]));
    assert_eq!(store.words[7], 2);
}

/// Document 02, CR 4: a marked tag moves and does not count.
#[test]
fn marked_tags_do_not_count_as_moved() {
    let inserted = |first, moved, split| Ok(Inserted { first, moved, split });
    let mut store = loaded(2, 2, "TTTT", 5);
    assert_eq!((store.mark(1), store.insert(TEXT, 0)), (Ok(1), inserted(4, 0, 0)));
    assert_eq!(listed(&store), (vec![0, 4, 2, 3], vec![0, 1, 3, 4]));

    let mut store = loaded(2, 2, "TTTT", 6);
    assert_eq!((store.mark(3), store.insert(TEXT, 0)), (Ok(1), inserted(4, 1, 0)));
    assert_eq!(store.insert(TEXT, 0), inserted(5, 3, 1));

    let mut store = loaded(2, 2, "TTT", 4);
    assert_eq!((store.mark(1), store.insert(TEXT, 2)), (Ok(1), inserted(3, 1, 1)));

    let mut store = loaded(2, 2, "BTE", 5);
    assert_eq!((store.mark(0), store.insert(TEXT, NO_TAG)), (Ok(3), inserted(3, 0, 1)));
    assert_eq!(store.insert(TEXT, NO_TAG), inserted(4, 1, 0));
}

#[test]
fn h_i_j_held_pairs() {
    let mut store = loaded(2, 2, "BBEBEE", 8);
    let pair = |tag, start, end| Held { book: 7, tag, start, end };
    let (zero, one, three) = (pair(0, 0, 7), pair(1, 1, 3), pair(3, 4, 6));
    for held in [zero, one, three] {
        assert_eq!(store.hold(held.tag), Ok(held));
    }
    store.insert(TEXT, 2).unwrap();
    assert_eq!(store.question(three, 6), Ok(Answer::Stale));
    assert_eq!(store.question(zero, 6), Ok(Answer::Yes));
    store.insert(TEXT, 2).unwrap();
    assert_eq!(store.hold(1), Ok(one));
    assert_eq!(store.question(one, 6), Ok(Answer::No));
    assert_eq!(store.question(zero, 6), Ok(Answer::Stale));
}

#[test]
fn k_l_loads_at_the_limit_of_labels() {
    let mut store = store_for(128);
    assert_eq!(store.load(16, 2, 7, &[TEXT; 127]), Ok(Loaded { tags: 127, height: 6 }));
    assert_eq!(store.load(16, 2, 7, &[TEXT; 128]), Err(Refusal::Labels));
}

/// Where 15^H and 255^H pass 2^32: with (4, 4) and (16, 16) at 131,072 texts, with (8, 2) at 512.
#[test]
fn loads_up_to_the_last_power_of_b() {
    let mut store = store_for(131_072);
    let texts = vec![TEXT; 131_072];
    for (s, r, most, height) in [(4, 4, 131_071, 8), (16, 16, 131_071, 4), (8, 2, 511, 8)] {
        assert_eq!(store.load(s, r, 7, &texts[..most]), Ok(Loaded { tags: most as u32, height }));
        assert_eq!(store.load(s, r, 7, &texts[..most + 1]), Err(Refusal::Labels));
    }
}

/// (4, 4), (2, 8) and (8, 2) have one base, and each its own tree.
#[test]
fn labels_in_base_15() {
    for (s, r) in [(4, 4), (2, 8), (8, 2)] {
        let store = loaded(s, r, &"T".repeat(2 * r as usize), 16);
        assert_eq!(height(&store), 2);
        assert_eq!(listed(&store).1, (0..r).chain(15..15 + r).collect::<Vec<_>>());
    }
}

/// The run of document 01 from K, with texts added at one place, at the front, at the end, and at changing places.
#[test]
fn run_from_k_to_1023_tags() {
    let places: [fn(u32) -> u32; 4] = [|_| 63, |_| NO_TAG, |n| n - 1, |n| n * n % 127];
    for place in places {
        let mut store = store_for(1100);
        store.load(16, 2, 7, &[TEXT; 127]).unwrap();
        for n in 127..1023 {
            if n == 1022 {
                assert_eq!(store.insert(BEGIN, 0), Err(Refusal::Labels));
            }
            let reply = store.insert(TEXT, place(n)).unwrap();
            assert_eq!(reply.first, n);
        }
        assert_eq!(store.words[4], 1023);
        let before = store.words.clone();
        assert_eq!(store.insert(TEXT, 0), Err(Refusal::Labels));
        assert_eq!(store.insert(BEGIN, 0), Err(Refusal::Labels));
        assert_eq!(store.words, before);
    }
}

/// The words after a load and a few insertions beside a marked text, under a fault.
fn short_history(fault: Fault) -> (Vec<String>, Vec<u32>) {
    let mut store = Store::faulty(vec![0; HEADER + RECORD * 40], fault);
    let mut replies = vec![format!("{:?}", store.load(2, 2, 7, &[3, 1, 2, 3, 1, 2]))];
    replies.push(format!("{:?}", store.mark(0)));
    for place in [2, 2, NO_TAG, 1, 1, 1, 1, 1, 1] {
        replies.push(format!("{:?}", store.insert(TEXT, place)));
    }
    (replies, store.words)
}

#[test]
fn each_seeded_fault_shows() {
    let faults = [
        Fault::LowestFull,
        Fault::RightSiblingsStay,
        Fault::BaseF,
        Fault::MarkedLeftOut,
        Fault::MovedOffByOne,
        Fault::MarkedMoved,
    ];
    for fault in faults {
        assert_ne!(short_history(fault), short_history(Fault::None), "{fault:?}");
    }
}
