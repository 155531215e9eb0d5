//! What the generators promise: sound shapes are sound, damage gives both verdicts, and the bare list is strict.

use differential::bare::{Bare, counts};
use differential::call::{Call, Case};
use differential::damage::variants;
use differential::due::load_refusal;
use differential::history::history;
use differential::kinds;
use differential::script::{input, script};
use differential::session::{Session, Tally};
use differential::shape;
use differential::subject::Reference;
use draw::Rng;
use reference::{Fault, HEADER, NO_TAG, Program, RECORD, Store};

#[test]
fn shapes_are_sound_for_all_s_and_r() {
    let mut rng = Rng::new(1);
    for s in 2..=16 {
        for r in 2..=16 {
            for _ in 0..6 {
                let words = shape::any(&mut rng, s, r, 300);
                assert!(reference::read(&words, Fault::None).is_some(), "s {s}, r {r}: {words:?}");
            }
        }
    }
}

#[test]
fn nested_kinds_load() {
    let mut rng = Rng::new(2);
    for n in 0..200 {
        let kinds = kinds::nested(&mut rng, n);
        assert_eq!(kinds.len(), n);
        let mut store = Store::new(vec![0; HEADER + RECORD * n]);
        assert!(store.load(2, 2, 0, &kinds).is_ok());
    }
}

#[test]
fn damage_gives_both_verdicts() {
    let mut rng = Rng::new(3);
    let (mut sound, mut unsound) = (0, 0);
    for _ in 0..20 {
        let words = shape::any(&mut rng, 2, 2, 9);
        for damaged in variants(&words, &mut rng) {
            match reference::read(&damaged, Fault::None) {
                Some(_) => sound += 1,
                None => unsound += 1,
            }
        }
    }
    assert!(sound > 500 && unsound > 5_000, "{sound} sound, {unsound} not");
}

/// The printed case of document 01 as a bare list, and words it must not accept.
#[test]
fn the_bare_list_is_strict() {
    let mut store = Store::new(vec![0; HEADER + RECORD * 8]);
    store.load(2, 2, 7, &[1, 1, 2, 1, 2, 2]).unwrap();
    let mut bare = Bare::load(2, 2, &[1, 1, 2, 1, 2, 2]);
    for first in [6, 7] {
        let before = store.words.clone();
        let reply = store.insert(3, 2).unwrap();
        assert_eq!(reply.first, first);
        bare.accepted(&Call::Insert { kind: 3, place: 2 }, &[0, reply.first, reply.moved, reply.split, 0]).unwrap();
        // More moved than tags have another label.
        assert!(bare.check(&store.words).unwrap_err().contains("another label"));
        bare.relabelled(&before, &store.words);
    }
    assert_eq!(bare.check(&store.words), Ok(()));
    // Height, tag count, order of the book, a label too great, two labels alike.
    for (at, word) in [(3, 2), (4, 7), (5, 1), (HEADER + RECORD * 5, 27), (HEADER + RECORD, 0)] {
        let mut words = store.words.clone();
        words[at] = word;
        assert!(bare.check(&words).is_err(), "word {at} = {word}");
    }
    // More moved than the insertions and the load have paid for.
    bare.accepted(&Call::Insert { kind: 3, place: NO_TAG }, &[0, 8, 1_000, 0, 0]).unwrap();
    store.words.resize(HEADER + RECORD * 9, 0);
    store.insert(3, NO_TAG).unwrap();
    assert!(bare.check(&store.words).unwrap_err().contains("T ="));
}

/// Refusals from the calls alone, on B T E T with the text 1 marked, over words for six tags.
#[test]
fn the_bare_list_knows_the_refusals() {
    let mut bare = Bare::load(2, 2, &[1, 3, 2, 3]);
    assert_eq!(bare.accepted(&Call::Mark { tag: 1 }, &[0, 1, 0, 0, 0]), Ok(()));
    let words = HEADER + RECORD * 6;
    let list = |begin, tags, labels| Call::List { begin, tags, labels };
    let sheet = |kinds: &[u8], place| Call::InsertSheet { kinds: kinds.to_vec(), place };
    for (call, due) in [
        (Call::Insert { kind: 2, place: 9 }, 4),
        (Call::Insert { kind: 3, place: 4 }, 8),
        (Call::Insert { kind: 3, place: 1 }, 9),
        (Call::Insert { kind: 1, place: NO_TAG }, 0),
        (Call::Insert { kind: 3, place: 3 }, 0),
        (sheet(&[1, 4], 9), 4),
        (sheet(&[2, 0], 9), 4),
        (sheet(&[1], 9), 5),
        (sheet(&[2, 1], 3), 5),
        (sheet(&[3; 9], 4), 8),
        (sheet(&[3; 9], 1), 9),
        (sheet(&[3; 3], 3), 6),
        (sheet(&[1, 2], NO_TAG), 0),
        (sheet(&[], 4), 8),
        (sheet(&[], 3), 0),
        (sheet(&[3; 200_001], 3), 6),
        (Call::Mark { tag: NO_TAG }, 8),
        (Call::Mark { tag: 1 }, 9),
        (Call::Hold { tag: 2 }, 10),
        (Call::Hold { tag: 3 }, 0),
        (list(4, 0, 0), 8),
        (list(1, 0, 0), 9),
        (list(3, 9, 9), 10),
        (list(NO_TAG, 2, 3), 11),
        (list(NO_TAG, 3, 3), 0),
        (list(0, 0, 0), 0),
    ] {
        assert_eq!(bare.refusal(&call, words), Some(due), "{call:?}");
    }
    assert_eq!(bare.refusal(&Call::Insert { kind: 1, place: 0 }, words - 1), Some(6));
    assert_eq!(bare.refusal(&Call::Insert { kind: 3, place: 0 }, words - 1), Some(0));
    // The element has one tag left to mark inside it, and its own two.
    assert!(bare.accepted(&Call::Mark { tag: 0 }, &[0, 3, 0, 0, 0]).is_err());
    // New tags take the next numbers.
    assert!(bare.accepted(&Call::Insert { kind: 3, place: 3 }, &[0, 5, 0, 0, 0]).is_err());

    // Specimens K and L, and the end of the run from K.
    assert_eq!(load_refusal(16, 2, &[3; 127], 9_999), 0);
    assert_eq!(load_refusal(16, 2, &[3; 128], 9_999), 7);
    let mut bare = Bare::load(16, 2, &[3; 127]);
    assert_eq!(bare.refusal(&sheet(&[3; 896], 5), 9_999), Some(0));
    assert_eq!(bare.refusal(&sheet(&[3; 897], 5), 9_999), Some(7));
    // The first root split has room for its labels, the second not.
    assert_eq!(Bare::load(16, 2, &[3; 63]).refusal(&sheet(&[3; 961], 5), 9_999), Some(7));
    for n in 127..1_022 {
        bare.accepted(&Call::Insert { kind: 3, place: 0 }, &[0, n, 0, 0, 0]).unwrap();
    }
    assert_eq!(bare.refusal(&Call::Insert { kind: 1, place: 0 }, 9_999), Some(7));
    assert_eq!(bare.refusal(&Call::Insert { kind: 3, place: 0 }, 9_999), Some(0));
    bare.accepted(&Call::Insert { kind: 3, place: 0 }, &[0, 1_022, 0, 0, 0]).unwrap();
    assert_eq!(bare.refusal(&Call::Insert { kind: 3, place: 0 }, 9_999), Some(7));
}

/// A sheet's tags take their places and count as an element's two do, and H rises with each that fills the root.
#[test]
fn the_bare_list_takes_sheets() {
    let (mut store, mut bare) = (Store::new(vec![0; HEADER + RECORD * 30]), Bare::load(2, 2, &[3; 4]));
    store.load(2, 2, 7, &[3; 4]).unwrap();
    for (kinds, place) in [(&[3; 20][..], 0), (&[], 3), (&[1, 1, 2, 3, 2], NO_TAG)] {
        let before = store.words.clone();
        let reply = store.insert_sheet(kinds, place).unwrap();
        let call = Call::InsertSheet { kinds: kinds.to_vec(), place };
        let said = [0, reply.first, reply.moved, reply.split, 0];
        assert_eq!(counts(&call, &said, &before, &store.words), Ok(()));
        assert_eq!(bare.accepted(&call, &said), Ok(()));
        bare.relabelled(&before, &store.words);
        assert_eq!(bare.check(&store.words), Ok(()));
    }
    assert_eq!(store.words[3..5], [4, 29]);
    // A sheet that is said to have gone in and has not.
    bare.accepted(&Call::InsertSheet { kinds: vec![3], place: 0 }, &[0, 29, 0, 0, 0]).unwrap();
    assert!(bare.check(&store.words).is_err());
}

/// Moved and marked are counted in the words, whoever replies them.
#[test]
fn counts_are_differences_between_words() {
    let mut store = Store::new(vec![0; HEADER + RECORD * 8]);
    store.load(2, 2, 7, &[1, 1, 2, 1, 2, 2]).unwrap();
    let before = store.words.clone();
    let insert = Call::Insert { kind: 3, place: 2 };
    store.insert(3, 2).unwrap();
    assert_eq!(counts(&insert, &[0, 6, 1, 0, 0], &before, &store.words), Ok(()));
    assert!(counts(&insert, &[0, 6, 2, 0, 0], &before, &store.words).is_err());
    // The marked tag that moves does not count, and so the last one alone does.
    let mut other = Store::new(vec![0; HEADER + RECORD * 4]);
    other.load(2, 2, 7, &[3, 3, 3]).unwrap();
    other.mark(1).unwrap();
    let unmoved = other.words.clone();
    other.insert(3, 0).unwrap();
    let insert = Call::Insert { kind: 3, place: 0 };
    assert_eq!(counts(&insert, &[0, 3, 1, 1, 0], &unmoved, &other.words), Ok(()));
    assert!(counts(&insert, &[0, 3, 2, 1, 0], &unmoved, &other.words).is_err());

    let before = store.words.clone();
    store.mark(1).unwrap();
    assert_eq!(counts(&Call::Mark { tag: 1 }, &[0, 2, 0, 0, 0], &before, &store.words), Ok(()));
    assert!(counts(&Call::Mark { tag: 1 }, &[0, 1, 0, 0, 0], &before, &store.words).is_err());
}

#[test]
fn a_script_is_what_the_program_reads() {
    let calls = vec![
        Call::Load { s: 2, r: 2, book: 7, kinds: vec![1, 1, 2, 1, 2, 2] },
        Call::Load { s: 2, r: 2, book: 7, kinds: vec![] },
        Call::Insert { kind: 3, place: 2 },
        Call::Insert { kind: 1, place: NO_TAG },
        Call::Mark { tag: 0 },
        Call::List { begin: NO_TAG, tags: 2_000, labels: 2_000 },
        Call::Hold { tag: 1 },
    ];
    let mut case = Case { start: vec![0; HEADER + RECORD * 2_000].into(), calls };
    let lines = "load 2 2 7 BBEBEE\nload 2 2 7\ntext 2\nelement front\nmark 0\nlist\n";
    assert_eq!(script(&case), format!("{lines}# Hold {{ tag: 1 }}"));
    assert_eq!(input(&case), None);
    case.calls.pop();
    assert_eq!(input(&case).as_deref(), Some(lines));
    let sheets = [(vec![1, 3, 2], 4), (vec![], NO_TAG), (vec![1, 4], 0)];
    let calls = sheets.map(|(kinds, place)| Call::InsertSheet { kinds, place }).to_vec();
    let printed = script(&Case { calls, ..case.clone() });
    assert_eq!(printed.lines().next(), Some("# InsertSheet { kinds: BTE, place: 4 }"));
    let others = "# InsertSheet { kinds: , place: front }\n# InsertSheet { kinds: [1, 4], place: 0 }";
    assert!(printed.ends_with(others), "{printed}");
    // A listing shows what another last call has left behind.
    case.calls.pop();
    assert_eq!(input(&case).as_deref(), Some(lines));
    // No line says another start, a list with too little room or a kind that has no letter.
    assert_eq!(input(&Case { start: vec![0; 8].into(), ..case.clone() }), None);
    for call in [
        Call::List { begin: NO_TAG, tags: 2_000, labels: 8 },
        Call::List { begin: 0, tags: 2_000, labels: 2_000 },
        Call::Load { s: 2, r: 2, book: 7, kinds: vec![4] },
        Call::Load { s: 2, r: 2, book: 7, kinds: vec![3; 2_100] },
        Call::Insert { kind: 2, place: 0 },
        Call::InsertSheet { kinds: vec![3], place: 0 },
    ] {
        assert_eq!(input(&Case { calls: vec![call.clone()], ..case.clone() }), None, "{call:?}");
    }
}

/// What the lines of a case do in the program is what its calls do in a store.
#[test]
fn a_script_does_what_its_calls_do() {
    let mut rng = Rng::new(6);
    let mut said = 0;
    for round in 0..200 {
        let (reference, mut tally) = (Reference::right(), Tally::new());
        let mut session = Session::new(&reference, &mut tally, vec![0; HEADER + RECORD * 2_000]);
        history(&mut session, &mut rng, 2 + round % 4, 2 + round / 4 % 3, 40, 60).expect("no difference");
        let (words, mut case) = (session.system.words.clone(), session.case().clone());
        // No line says a sheet: what comes of one could not be told.
        if case.calls.iter().any(|call| matches!(call, Call::InsertSheet { .. })) {
            continue;
        }
        said += 1;
        case.calls.retain(|call| input(&Case { start: case.start.clone(), calls: vec![call.clone()] }).is_some());
        let mut program = Program::default();
        program.run(input(&case).expect("all calls are lines").as_bytes());
        assert_eq!(program.store.words, words);
    }
    assert!(said > 30, "{said}");
}
