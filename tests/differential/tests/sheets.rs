//! The comparison of sheets must fail on every seeded slip and say it briefly, and what it reads must be various. Needs no
//! library.

use differential::plan;
use differential::printed;
use differential::report;
use differential::session::Tally;
use differential::sheet::{Misread, SheetReader, compare, shorten};
use differential::subject::Reference;
use draw::Rng;
use reference::{Fault, Slip, xml_kinds};

fn read(reader: &dyn SheetReader, seed: u64, size: usize) -> Result<Tally, Misread> {
    let mut tally = Tally::new();
    plan::sheets(reader, &mut tally, seed, size).map(|()| tally)
}

#[test]
fn the_reference_agrees_with_itself() {
    let tally = read(&Reference::right(), 1, 30).expect("no difference");
    let expected: [(&str, &[u32]); 7] = [
        ("crowded", &[0, 12]),
        ("depth", &[0, 12, 13, 14]),
        ("pieces", &[0, 12, 14]),
        ("place", &[0, 12, 14]),
        ("specimen", &[0, 12, 13, 14]),
        ("spoiled", &[0, 12, 13, 14]),
        ("tree", &[0]),
    ];
    for (name, refusals) in expected {
        let met: Vec<u32> = tally.keys().filter(|(it, _)| *it == name).map(|(_, refusal)| *refusal).collect();
        assert_eq!(met, refusals, "{name}");
    }
    let many = |name| (tally[&(name, 0)], tally[&(name, 12)]);
    for (name, least) in [("spoiled", 500), ("pieces", 100), ("crowded", 30)] {
        let (right, wrong) = many(name);
        assert!(right.min(wrong) > least, "{name}: {right} are sheets, {wrong} not");
    }
}

/// A printed tree has the kinds that it was printed with.
#[test]
fn trees_are_sheets() {
    let rng = &mut Rng::new(7);
    for round in 0..3_000 {
        let sheet = printed::tree(rng, 1 + round % 60, round % 65);
        let mut kinds = vec![0; sheet.kinds.len()];
        let count = xml_kinds(&sheet.text, &mut kinds, Fault::None);
        assert_eq!(count, Ok(sheet.kinds.len()), "{}", sheet.text.escape_ascii());
        assert_eq!(kinds, sheet.kinds, "{}", sheet.text.escape_ascii());
    }
}

/// By texts that are drawn: the specimens alone would tell most of them.
#[test]
fn every_slip_is_caught() {
    for slip in Slip::ALL {
        let reader = Reference { fault: Fault::Misreads(slip) };
        let found = plan::drawn(&reader, &mut Tally::new(), &mut Rng::new(2), 30).expect_err("the slip must show");
        let found = shorten(&reader, found);
        println!("{slip:?}: {} bytes, \"{}\"", found.text.len(), found.text.escape_ascii());
        assert_eq!(compare(&reader, &found.text).as_ref(), Err(&found));
        assert!(compare(&Reference::right(), &found.text).is_ok());
        // 64 elements take three bytes to open each, and four to close.
        let most = if matches!(slip, Slip::OneDeeper | Slip::DepthFirst) { 64 * 7 + 40 } else { 16 };
        assert!(found.text.len() <= most, "{slip:?} is not short");
    }
}

/// The reference with something done to the lent slices after each call.
struct Spoiled(fn((u32, usize), &mut [u8], &mut [u8]));

impl SheetReader for Spoiled {
    fn kinds(&self, text: &mut [u8], kinds: &mut [u8]) -> (u32, usize) {
        let reply = Reference::right().kinds(text, kinds);
        (self.0)(reply, text, kinds);
        reply
    }
}

#[test]
fn writing_where_a_call_must_not_is_caught() {
    let caught = |spoil| shorten(&Spoiled(spoil), read(&Spoiled(spoil), 3, 5).expect_err("it wrote"));
    let behind = caught(|(refusal, count), _, kinds| {
        if let (0, Some(it)) = (refusal, kinds.get_mut(count)) {
            *it = 0;
        }
    });
    assert_eq!((behind.text.len(), behind.what.as_str()), (0, "kinds[0] is 0, the reference says 64"));
    let refused = caught(|(refusal, _), _, kinds| {
        if let (11, Some(it)) = (refusal, kinds.first_mut()) {
            *it = 1;
        }
    });
    assert!(refused.room > 0 && refused.what.starts_with("kinds[0] is 1"), "{refused:?}");
    let text = caught(|_, text, _| text.reverse());
    assert_eq!((text.text.len(), text.what.as_str()), (2, "the reader wrote into the text"));
}

#[test]
fn a_report_shows_the_text() {
    let found = Misread { text: b"<a\0\"".into(), room: 3, what: "a difference".into() };
    assert_eq!(report::of_sheet(&found, "test"), "\"<a\\x00\\\"\"\n# 4 bytes, with a list of 3: a difference (test)\n");
}
