//! Words and books: what is written reads back, random histories stay sound, and damaged words never do harm.

use reference::{Fault, HEADER, NO_TAG, RECORD, Refusal, Store, Tree, read, to_words};

/// A small generator; the numbers need only be various.
struct Random(u64);

impl Random {
    fn below(&mut self, bound: u32) -> u32 {
        self.0 = self.0.wrapping_mul(6364136223846793005).wrapping_add(1442695040888963407);
        ((self.0 >> 33) % u64::from(bound)) as u32
    }
}

/// After every accepted call the words read back as the book that wrote them, and numbering the whole tree afresh
/// changes no label: the places that were renumbered were enough.
#[test]
fn random_histories_stay_sound() {
    let mut random = Random(1);
    for round in 0..60 {
        let (s, r) = (2 + random.below(15), 2 + random.below(15));
        let mut store = Store::new(vec![7; HEADER + RECORD * 400]);
        let kinds = vec![3; random.below(40) as usize];
        store.load(s, r, round, &kinds).unwrap();
        for _ in 0..150 {
            let n = store.words[4];
            let place = if random.below(8) == 0 { NO_TAG } else { random.below(n.max(1)) };
            let accepted = match random.below(10) {
                0 => store.mark(place).is_ok(),
                1..=3 => store.insert(1, place).is_ok(),
                4 => store.insert_sheet(&[1, 3, 2, 3].repeat(random.below(4) as usize), place).is_ok(),
                _ => store.insert(3, place).is_ok(),
            };
            let book = read(&store.words, Fault::None).expect("sound after every call");
            let words = to_words(&book);
            assert_eq!(words[..], store.words[..words.len()], "accepted: {accepted}");
            let mut fresh = book.clone();
            renumber_all(&mut fresh);
            assert_eq!(fresh, book);
        }
    }
}

/// The labels that document 01 defines, from the tree alone.
fn renumber_all(book: &mut reference::Book) {
    fn go(node: &reference::Inner, height: u32, number: u64, base: u64, labels: &mut Vec<(usize, u64)>) {
        for (i, child) in node.children.iter().enumerate() {
            let number = number + i as u64 * base.pow(height - 1);
            match child {
                reference::Node::Leaf(tag) => labels.push((*tag, number)),
                reference::Node::Inner(inner) => go(inner, height - 1, number, base, labels),
            }
        }
    }
    let Tree { params, height, root } = &book.tree;
    let mut labels = Vec::new();
    go(root, *height, 0, params.base, &mut labels);
    for (tag, label) in labels {
        book.tags[tag].label = label;
    }
}

fn loaded(s: u32, r: u32, kinds: &[u8]) -> Store {
    let mut store = Store::new(vec![0; HEADER + RECORD * kinds.len()]);
    store.load(s, r, 7, kinds).unwrap();
    store
}

fn label(store: &mut Store, tag: usize) -> &mut u32 {
    &mut store.words[HEADER + RECORD * tag]
}

#[test]
fn random_words_never_panic() {
    let mut random = Random(2);
    for _ in 0..20_000 {
        let mut words: Vec<u32> = (0..random.below(40)).map(|_| random.below(5)).collect();
        if let Some(first) = words.first_mut() {
            *first = 1;
        }
        let _ = Store::new(words).insert(3, NO_TAG);
    }
}

#[test]
fn headers_past_all_bounds() {
    let heights = [(3, 0), (3, 2), (3, u32::MAX)];
    let counts = [(4, 2), (4, 4), (4, 715_827_882), (4, u32::MAX)];
    let others = [(0, 0), (1, 1), (2, 17), (5, 1), (7, 4)];
    for (place, word) in [&heights[..], &counts[..], &others[..]].concat() {
        let mut store = loaded(2, 2, &[3, 3, 3]);
        store.words[place] = word;
        assert_eq!(store.hold(0), Err(Refusal::NotSound), "word {place} = {word}");
    }
}

#[test]
fn gaps_and_thin_nodes_are_not_sound() {
    // Labels 0 1 3 4 are sound; every other rising four below 9 has a gap or a node of one leaf.
    let mut sound = Vec::new();
    for mask in 0u32..512 {
        let labels: Vec<u32> = (0..9).filter(|bit| mask >> bit & 1 == 1).collect();
        if labels.len() == 4 {
            let mut store = loaded(2, 2, &[3; 4]);
            for (tag, &it) in labels.iter().enumerate() {
                *label(&mut store, tag) = it;
            }
            if store.book().is_ok() {
                sound.push(labels);
            }
        }
    }
    assert_eq!(sound, [[0, 1, 3, 4]]);
}

/// Document 01 asks for no second child of the root, only for enough leaves: with s = 3 four leaves may stand in one
/// node of height 1.
#[test]
fn a_root_with_one_child_is_sound() {
    let mut store = loaded(3, 2, &[3; 4]);
    for tag in 0..4 {
        *label(&mut store, tag) = tag as u32;
    }
    assert!(store.book().is_ok());
    assert_eq!(store.words[3], 2);
}
