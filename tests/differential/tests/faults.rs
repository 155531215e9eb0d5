//! The harness must fail on every seeded fault, and say it briefly. Needs no library.

use differential::call::{Call, Case, Reply};
use differential::flaw::{Flaw, flawed};
use differential::in_turn;
use differential::insert_sheets;
use differential::limits;
use differential::plan;
use differential::program::due;
use differential::report;
use differential::script::{input, script};
use differential::session::{Failure, Tally, replay};
use differential::shrink::shrink;
use differential::subject::{Lent, Reference, Spoiled, Subject};
use draw::Rng;
use reference::{Blunder, Clause, Fault, HEADER, NO_TAG, Program, RECORD, Store};

fn histories(subject: &dyn Subject, seed: u64) -> Result<(), Failure> {
    plan::histories(subject, &mut Tally::new(), &mut Rng::new(seed), 40)
}

#[test]
fn the_reference_agrees_with_itself() {
    let mut tally = Tally::new();
    plan::calls(&Reference::right(), &mut tally, 1, 16).expect("no difference");
    // Every refusal that document 01's table names must have come, and every call must have been accepted.
    let expected: &[(&str, &[u32])] = &[
        ("load", &[0, 1, 3, 4, 5, 6, 7]),
        ("insert", &[0, 1, 2, 4, 6, 7, 8, 9]),
        ("sheet", &[0, 1, 2, 4, 5, 6, 7, 8, 9]),
        ("mark", &[0, 1, 2, 8, 9, 10]),
        ("hold", &[0, 1, 2, 8, 9, 10]),
        ("question", &[1, 2, 8, 9, 10]),
        ("yes", &[0]),
        ("no", &[0]),
        ("stale", &[0]),
        ("list", &[0, 1, 2, 8, 9, 10, 11]),
    ];
    for (name, refusals) in expected {
        let met: Vec<u32> = tally.keys().filter(|(it, _)| it == name).map(|(_, refusal)| *refusal).collect();
        assert_eq!(met, *refusals, "{name}");
    }
}

/// Fails, shrinks, and the short case fails again.
fn caught(fault: Fault) -> String {
    let subject = Reference { fault };
    let failure = histories(&subject, 3).expect_err("the fault must show");
    let (case, _) = shrink(&subject, failure.case, failure.what);
    assert!(replay(&subject, &case).is_some());
    assert!(replay(&Reference::right(), &case).is_none());
    // The book program can replay it: with the same fault it prints something else than it must.
    let input = input(&case).expect("lines can say it");
    assert_ne!(Program::faulty(fault).run(input.as_bytes()), due(input.as_bytes()), "{fault:?}");
    let script = script(&case);
    println!("{fault:?}\n{script}");
    // A load of nothing, and the eight tags that fill a root of height 2 where s and r are 2.
    assert!(case.calls.len() <= 9 && script.len() <= 100, "{fault:?} is not short");
    script
}

#[test]
fn lowest_full_is_caught() {
    let script = caught(Fault::LowestFull);
    assert!(script.starts_with("load "), "{script}");
}

#[test]
fn right_siblings_not_moved_is_caught() {
    let script = caught(Fault::RightSiblingsStay);
    assert!(script.starts_with("load "), "{script}");
}

#[test]
fn base_f_is_caught() {
    let script = caught(Fault::BaseF);
    assert_eq!(script.lines().count(), 1, "{script}");
}

#[test]
fn marked_left_out_is_caught() {
    let script = caught(Fault::MarkedLeftOut);
    assert!(script.contains("mark "), "{script}");
}

#[test]
fn moved_off_by_one_is_caught() {
    let script = caught(Fault::MovedOffByOne);
    assert!(script.lines().count() <= 2, "{script}");
}

#[test]
fn marked_moved_is_caught() {
    let script = caught(Fault::MarkedMoved);
    assert!(script.contains("mark "), "{script}");
}

/// What the comparison has of sheets that go in by one call.
fn sheets(subject: &dyn Subject, seed: u64) -> Result<(), Failure> {
    let (mut tally, mut rng) = (Tally::new(), Rng::new(seed));
    plan::sheet_places(subject, &mut tally, &mut rng, 20)
        .and_then(|()| insert_sheets::labels(subject, &mut tally, &mut rng, 1_100))
}

#[test]
fn every_blunder_with_sheets_is_caught() {
    assert!(sheets(&Reference::right(), 9).is_ok());
    for blunder in Blunder::ALL {
        let subject = Reference { fault: Fault::Misputs(blunder) };
        assert!(sheets(&subject, 9).is_err(), "{blunder:?}");
        // Behind loads it is shown more briefly, where it shows there.
        let failure = histories(&subject, 3).and_then(|()| sheets(&subject, 9)).expect_err("the blunder must show");
        let (case, what) = shrink(&subject, failure.case, failure.what);
        assert_eq!(replay(&subject, &case).map(|(_, what)| what), Some(what));
        assert!(replay(&Reference::right(), &case).is_none());
        // No line of the book program says a sheet, so words and calls are shown.
        let printed = script(&case);
        println!("{blunder:?}\n{printed}");
        assert!(printed.contains("InsertSheet") && input(&case).is_none(), "{printed}");
        // Labels run out only where there are many tags.
        let most = if blunder == Blunder::OneHeight { 3_000 } else { 100 };
        assert!(case.calls.len() <= 3 && printed.len() <= most, "{blunder:?} is not short");
    }
}

/// By calls of the store itself: a store that inserts sheets in another way than texts is told, though the reference were to
/// do the same.
#[test]
fn a_sheet_is_set_beside_single_texts() {
    let mut store = Store::new(vec![0; HEADER + RECORD * 40]);
    store.load(2, 2, 7, &[3; 9]).expect("a book");
    let before = store.words.clone();
    let check = |split, after: &[u32]| {
        in_turn::check(&Reference::right(), 12, 4, &before, &[0, 9, 0, split, 0], after).err().unwrap_or_default()
    };
    let split = store.insert_sheet(&[1, 3, 2].repeat(4), 4).expect("room").split;
    assert_eq!(check(split, &store.words), "");
    assert!(check(split + 1, &store.words).contains("split height"));
    store.words[HEADER] += 1;
    assert!(check(split, &store.words).contains("other labels"));
}

/// What is printed of a difference by calls: an input of the book program with what it must print, where lines can say
/// the case, and else the words and the calls.
#[test]
fn a_report_can_be_replayed() {
    let load = Call::Load { s: 2, r: 2, book: 7, kinds: vec![3] };
    let insert = Call::Insert { kind: 3, place: NO_TAG };
    let case = Case { start: vec![0; HEADER + RECORD * 2_000].into(), calls: vec![load, insert] };
    let printed = report::of_calls(&case, "a difference", "test-calls");
    let (lines, rest) = printed.split_once("# replay: ./book ").expect("it names a file");
    assert_eq!(lines, "load 2 2 7 T\ntext front\nlist\n# call 2 differs: a difference (test-calls)\n");
    let (path, rest) = rest.split_once('\n').expect("more comes");
    assert_eq!(rest, "# it must print:\nok 1 1\nok 1 1 0\n1 0\n0 1\nend 2\n");
    assert_eq!(std::fs::read_to_string(path).expect("the file is there"), "load 2 2 7 T\ntext front\nlist\n");
    std::fs::remove_file(path).expect("it can be removed");

    let case = Case { start: vec![1; 8].into(), calls: vec![Call::Hold { tag: 0 }] };
    let printed = report::of_calls(&case, "a difference", "test-calls");
    assert!(printed.contains("# over these words: [1, 1, 1, 1, 1, 1, 1, 1]\n# Hold { tag: 0 }\n"), "{printed}");
    assert!(!printed.contains("replay"), "{printed}");
}

#[test]
fn writing_where_a_call_must_not_is_caught() {
    let after_refusal = Spoiled(|reply, _, lent| {
        if let (8, Some(last)) = (reply[0], lent.words.last_mut()) {
            *last ^= 1;
        }
    });
    let failure = histories(&after_refusal, 5).expect_err("a refused call wrote");
    assert_eq!(failure.what, "refusal 8 changed words");

    let past_the_store = Spoiled(|reply, _, lent| {
        if let (0, Some(last)) = (reply[0], lent.words.last_mut()) {
            *last ^= 1;
        }
    });
    histories(&past_the_store, 5).expect_err("words past the store were written");

    let past_the_list = Spoiled(|_, _, lent| {
        if let Some(last) = lent.tags.last_mut() {
            *last = 0;
        }
    });
    let failure = histories(&past_the_list, 5).expect_err("a list was written past its count");
    assert!(failure.what.starts_with("tags["), "{}", failure.what);

    let into_the_kinds = Spoiled(|_, _, lent| {
        if let Some(first) = lent.given.first_mut() {
            *first += 16;
        }
    });
    let failure = histories(&into_the_kinds, 5).expect_err("a load wrote into its kinds");
    assert_eq!(failure.what, "the store wrote into what it was given to read");
}

/// The reference, but where this gives a reply for a call on some words, that one.
struct Elsewhere(fn(&Call, &[u32]) -> Option<Reply>);

impl Subject for Elsewhere {
    fn call(&self, call: &Call, lent: Lent) -> Reply {
        (self.0)(call, lent.words).unwrap_or_else(|| Reference::right().call(call, lent))
    }
}

/// A table of powers that ends one height too early or too late must show at its end: at loads, and at the insertion that
/// raises H to the last height.
#[test]
fn a_table_of_powers_that_ends_elsewhere_is_caught() {
    const OUT_OF_LABELS: Reply = [7, 0, 0, 0, 0];
    let ends = |wrong: fn(&Call, &[u32]) -> Option<Reply>| {
        let caught = limits::tables(&Elsewhere(wrong), &mut Tally::new(), &mut Rng::new(7));
        caught.expect_err("a table ended elsewhere").what
    };
    let early = ends(|call, _| {
        matches!(call, Call::Load { s: 4, r: 4, kinds, .. } if kinds.len() == 131_071).then_some(OUT_OF_LABELS)
    });
    assert_eq!(early, "reply [7, 0, 0, 0, 0], the reference says [0, 131071, 8, 0, 0]");
    let late = ends(|call, _| match call {
        Call::Load { s: 16, r: 16, kinds, .. } if kinds.len() == 131_072 => Some([0, 131_072, 5, 0, 0]),
        _ => None,
    });
    assert_eq!(late, "reply [0, 131072, 5, 0, 0], the reference says [7, 0, 0, 0, 0]");
    let raised = ends(|call, words| {
        let last_of_height_3 = matches!(words, [1, 16, 16, 3, 65_535, ..]);
        (matches!(call, Call::Insert { .. }) && last_of_height_3).then_some(OUT_OF_LABELS)
    });
    assert!(raised.starts_with("reply [7, 0, 0, 0, 0], the reference says [0, 65535, "), "{raised}");
}

/// No height at the end of a table of powers, or past it, is that of a small book; and one of which only a part is read
/// must show.
#[test]
fn heights_past_the_powers_are_refused() {
    struct Cut;

    impl Subject for Cut {
        fn call(&self, call: &Call, lent: Lent) -> Reply {
            let mut words = lent.words.to_vec();
            if let Some(height) = words.get_mut(3) {
                *height %= 256;
            }
            Reference::right().call(call, Lent { words: &mut words, ..lent })
        }
    }

    let mut tally = Tally::new();
    limits::heights(&Reference::right(), &mut tally, &mut Rng::new(8)).expect("no difference");
    assert!(tally.keys().all(|(_, refusal)| *refusal == 2), "{tally:?}");
    let caught = limits::heights(&Cut, &mut Tally::new(), &mut Rng::new(8)).expect_err("the store was served");
    assert!(caught.what.ends_with("the reference says [2, 0, 0, 0, 0]"), "{}", caught.what);
}

/// A soundness test that overlooks one clause must be caught by stores that are not sound, and by nothing else.
#[test]
fn every_overlooked_clause_is_caught() {
    for clause in Clause::ALL {
        let subject = Reference { fault: Fault::Overlooks(clause) };
        assert!(histories(&subject, 6).is_ok(), "{clause:?}");
        let (mut tally, mut rng) = (Tally::new(), Rng::new(4));
        let caught = plan::damages(&subject, &mut tally, &mut rng, 40)
            .and_then(|()| plan::flaws(&subject, &mut tally, &mut rng, 40))
            .expect_err("an unsound store was served");
        assert!(caught.what.contains("the reference says [2, 0, 0, 0, 0]"), "{clause:?}: {}", caught.what);
    }
}

/// Each flaw of a tree must be seen by the clause that names it alone: the store is sound but for that.
#[test]
fn each_flaw_breaks_one_clause() {
    let mut rng = Rng::new(5);
    for (flaw, clause) in [
        (Flaw::Thin, Clause::Thin),
        (Flaw::Full, Clause::Full),
        (Flaw::ThinRoot, Clause::ThinRoot),
        (Flaw::FullRoot, Clause::FullRoot),
        (Flaw::Gap, Clause::Gaps),
    ] {
        let mut found = 0;
        for (s, r) in (2..=16).flat_map(|s| (2..=16).map(move |r| (s, r))) {
            if let Some(words) = flawed(&mut rng, s, r, flaw, 6_000) {
                assert!(reference::read(&words, Fault::None).is_none(), "{flaw:?}, s {s}, r {r}");
                assert!(reference::read(&words, Fault::Overlooks(clause)).is_some(), "{flaw:?}, s {s}, r {r}");
                found += 1;
            }
        }
        assert!(found > 200, "{flaw:?} for {found} of 225");
    }
}
