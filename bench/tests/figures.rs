//! The books that are measured on, and what is made of the figures.

use bench::books::{SHEETS, Sheet};
use bench::calls::{Bench, Case, Times};
use bench::plain::Plain;
use bench::report::{Section, files, filled, targets};
use bench::store::Store;
use bench::words::*;
use bench::{bits, books, insert_sheets, moved, rights, small, xml};
use draw::Rng;

fn listed(words: &[u32], n: usize) -> (Vec<u32>, Vec<u32>) {
    let (mut tags, mut labels) = (vec![0; n], vec![0; n]);
    assert_eq!(Plain::list(NO_TAG, words, &mut tags, &mut labels), [0, n as u32]);
    (tags, labels)
}

#[test]
fn a_shuffled_book_is_the_same_book() {
    let rng = &mut Rng::new(3);
    let kinds = Sheet::Random.kinds(500, rng);
    let book = books::loaded::<Plain>(3, 2, &kinds).expect("labels fit");
    let shuffled = books::shuffled(&book, rng);
    let ((_, before), (tags, after)) = (listed(&book, 500), listed(&shuffled, 500));
    assert_eq!(before, after);
    let along: Vec<u32> = tags.iter().map(|&tag| shuffled[at(tag, KIND)]).collect();
    assert_eq!(along, kinds.iter().map(|&kind| u32::from(kind)).collect::<Vec<_>>());
}

/// A section of seven passes of three settings has 2 + 7 * (2 + 3 * 3) tags; what is left of the book is texts.
#[test]
fn a_regular_sheet_is_sections_of_passes() {
    let kinds = Sheet::Regular.kinds(160, &mut Rng::new(1));
    let letters: String = kinds.iter().map(|&kind| ['B', 'E', 'T'][usize::from(kind) - 1]).collect();
    let section = format!("B{}E", "BBTEBTEBTEE".repeat(7));
    assert_eq!(section.len(), 79);
    assert_eq!(letters, format!("{section}{section}TT"));
}

fn timed(case: Case, repetitions: usize) -> Times {
    let mut bench = Bench::new(case).expect("labels fit");
    (0..repetitions).for_each(|_| bench.repeat());
    bench.times()
}

/// Every call is accepted and both subjects reply alike, which `repeat` asserts; a book that does not fit is left out.
#[test]
fn cases_are_timed_or_left_out() {
    for (sheet, _) in SHEETS {
        for shuffled in [false, true] {
            assert!(timed(Case { n: 300, s: 4, r: 4, sheet, shuffled }, 50).bare > 0.0);
        }
        assert!(Bench::new(Case { n: 300, s: 16, r: 2, sheet, shuffled: false }).is_none());
    }
}

/// Files have a table of their own, and for books of 20,000 tags just loaded they are judged twice each: beside the walk, and
/// beside plain ones. A book of another size is only told.
#[test]
fn files_are_judged() {
    let case = |n, shuffled| Case { n, s: 2, r: 2, sheet: Sheet::Random, shuffled };
    let all = [case(300, false), case(20_000, false), case(20_000, true)].map(|case| timed(case, 3));
    assert_eq!(files(&all).lines().count(), 2 + all.len());
    let judged: Vec<String> =
        targets(&all, &[], &[], &[]).lines().filter(|row| row.contains(" file")).map(String::from).collect();
    assert_eq!(judged.len(), 4, "{judged:?}");
    for (row, (what, most)) in judged.iter().zip([
        ("write file / walk ", "2.0"),
        ("write file, verified / plain ", "1.3"),
        ("read file / walk ", "3.0"),
        ("read file, verified / plain ", "1.3"),
    ]) {
        assert!(row.contains(what) && row.contains(&format!(" {most} ")), "{row}");
    }
}

/// Document 01's specimens K and L, and the run behind them.
#[test]
fn room_is_what_document_01_says() {
    assert_eq!(bits::room(16, 2), (127, 1_023));
    assert!(bits::bits(127, 16, 2).largest.is_some());
    assert!(bits::bits(128, 16, 2).largest.is_none());
}

/// Refusal 7 comes where the tags reach s·r^H and no height is left.
#[test]
fn moved_stops_where_labels_run_out() {
    assert_eq!(moved::moved(moved::Pattern::Front, 16, 2, 10), Err(0));
    assert_eq!(moved::moved(moved::Pattern::Front, 6, 2, 2_100), Err(3_071));
    assert!(moved::moved(moved::Pattern::Random, 2, 2, 50).is_ok_and(|moved| moved > 0.0));
}

/// Three sheets are judged beside the plain reader, eight ratios say that no text holds the reader up, and the table has a row for
/// each sheet.
#[test]
fn sheets_are_timed() {
    let speeds = xml::speeds(60_000, 3);
    assert!(speeds.iter().all(|it| it.verified > 0.0 && it.plain > 0.0 && it.kinds > 0));
    assert_eq!(speeds.iter().map(|it| it.judged).filter(|&it| it).count(), 3);
    assert_eq!(xml::table(&speeds).lines().count(), 2 + speeds.len());
    let judged = targets(&[], &[], &[], &speeds);
    assert_eq!(judged.lines().count(), 2 + 3 + 8, "{judged}");
    assert!(judged.contains("sheet of one tag of short names / many tags "), "{judged}");
}

/// Every sheet is accepted and both subjects reply alike, which `times` asserts; each is judged, and has a row of the table.
#[test]
fn sheets_that_go_in_are_timed() {
    let all = insert_sheets::times(1);
    assert_eq!(all.len(), 9);
    assert!(all.iter().all(|it| it.walk > 0.0 && it.verified > 0.0 && it.plain > 0.0));
    // Each of as many insertions walks over the book.
    assert!(all.iter().all(|it| it.single > 10.0 * it.walk));
    assert_eq!(insert_sheets::table(&all).lines().count(), 2 + 9);
    let judged = targets(&[], &all, &[], &[]);
    let row = "sheet of 10,000 tags into 20,000, (16, 16): verified / plain";
    assert_eq!((judged.lines().count(), judged.contains(row)), (2 + 9, true), "{judged}");
}

/// Every call is allowed and the plain version replies alike, which `times` asserts; with one grant each is judged.
#[test]
fn calls_of_parties_are_timed() {
    let all = rights::times(1);
    assert_eq!(all.len(), 9);
    assert!(all.iter().all(|it| it.walk > 0.0
        && it.question > 0.0
        && it.read > 0.0
        && it.text > 0.0
        && it.insert > 0.0));
    assert_eq!(rights::table(&all).lines().count(), 2 + 9);
    assert_eq!(targets(&[], &[], &all, &[]).lines().count(), 2 + 3);
}

/// Every hold is accepted, which `times` asserts, and a table has a row for each pair of s and r.
#[test]
fn small_books_are_timed() {
    let all = small::times(3);
    assert!(all.iter().all(|it| it.verified > 0.0 && it.plain > 0.0));
    assert_eq!(small::tables(&all).lines().count(), 2 + 4);
}

#[test]
fn only_what_stands_between_the_marks_is_replaced() {
    let section = |name| Section { name, title: "", body: "new\n".into() };
    let document = "text\n<!-- bench:a -->\nold\nold\n<!-- end -->\nmore\n<!-- bench:b -->\n<!-- end -->\n";
    let wanted = "text\n<!-- bench:a -->\n\nnew\n\n<!-- end -->\nmore\n<!-- bench:b -->\n\nnew\n\n<!-- end -->\n";
    assert_eq!(filled(document, &[section("a"), section("b")]).as_deref(), Ok(wanted));
    assert!(filled(document, &[section("c")]).is_err());
}
