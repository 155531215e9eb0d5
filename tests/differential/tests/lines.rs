//! The comparison by lines: it must fail on every seeded fault and say it briefly, and it must read and write pipes of
//! any program. Needs neither the library nor the book program.

use differential::pieces::{Cut, Pieces};
use differential::plan;
use differential::process::Process;
use differential::program::{Difference, Interpreter, LineProgram, compare, due, first_difference};
use differential::report;
use differential::shorten::{Found, shorten};
use differential::writer::LineTally;
use draw::Rng;
use reference::{Fault, lines};
use std::collections::BTreeMap;
use std::time::Duration;

#[test]
fn the_reference_agrees_with_itself() {
    let mut tally = LineTally::new();
    plan::lines(&Interpreter { fault: Fault::None }, &mut tally, 1, 60).expect("no difference");
    let mut met: BTreeMap<&str, Vec<&str>> = BTreeMap::new();
    for (name, verdict) in tally.keys() {
        met.entry(name).or_default().push(verdict);
    }
    // A load of the program cannot meet 4, which is no letter, nor 6, which is no line.
    let expected: [(&str, &[&str]); 7] = [
        ("element", &["no 2", "no 6", "no 7", "no 8", "no 9", "ok"]),
        ("list", &["no 2", "ok"]),
        ("load", &["no 1", "no 3", "no 5", "no 7", "ok"]),
        ("mark", &["no 10", "no 2", "no 8", "no 9", "ok"]),
        ("no line", &["?"]),
        ("text", &["no 2", "no 6", "no 7", "no 8", "no 9", "ok"]),
        ("too long", &["?"]),
    ];
    assert_eq!(met, expected.into_iter().map(|(name, verdicts)| (name, verdicts.to_vec())).collect());
}

/// Fails, is made short, and the short script fails again.
fn caught(fault: Fault) -> Found {
    let program = Interpreter { fault };
    let found = plan::lines(&program, &mut LineTally::new(), 2, 8).expect_err("the fault must show");
    let found = shorten(&program, found);
    println!("{fault:?}: {}", found.script[..found.script.len().min(200)].escape_ascii());
    assert_eq!(compare(&program, &found.script, &due(&found.script), &found.pieces), Some(found.what.clone()));
    assert_eq!(found.pieces, Pieces::WHOLE);
    found
}

#[test]
fn faults_of_reading_are_caught() {
    for (fault, longest) in [
        (Fault::LeadingZeros, 15),
        (Fault::NumbersCut, 20),
        (Fault::SpacesAlike, 12),
        (Fault::CarriageReturn, 12),
        (Fault::LastLineDropped, 5),
    ] {
        let script = caught(fault).script;
        assert!(lines(&script).len() == 1 && script.len() <= longest, "{fault:?} is not short");
    }
    let script = caught(Fault::LongLine).script;
    assert_eq!((lines(&script).len(), lines(&script)[0].len()), (1, 2_101));
}

#[test]
fn faults_of_the_store_are_caught() {
    for fault in [Fault::LowestFull, Fault::RightSiblingsStay, Fault::BaseF, Fault::MovedOffByOne] {
        let script = caught(fault).script;
        assert!(lines(&script).len() <= 8 && script.len() <= 100, "{fault:?} is not short");
    }
    for fault in [Fault::MarkedLeftOut, Fault::MarkedMoved] {
        let program = Interpreter { fault };
        plan::lines(&program, &mut LineTally::new(), 2, 8).expect_err("the fault must show");
    }
}

#[test]
fn the_first_difference() {
    let at = |got: &str, due: &str| first_difference(got.as_bytes(), due.as_bytes());
    let line = |line, got: Option<&str>, due: Option<&str>| {
        let bytes = |it: Option<&str>| it.map(|it| it.as_bytes().to_vec());
        Some(Difference::Line { line, got: bytes(got), due: bytes(due) })
    };
    assert_eq!(at("a\nb\n", "a\nb\n"), None);
    assert_eq!(at("a\nb\n", "a\nc\n"), line(2, Some("b\n"), Some("c\n")));
    assert_eq!(at("a\n", "a\nc\n"), line(2, None, Some("c\n")));
    assert_eq!(at("a\nb\n", "a\n"), line(2, Some("b\n"), None));
    assert_eq!(at("a\nb", "a\nb\n"), line(2, Some("b"), Some("b\n")));
}

#[test]
fn pieces_are_the_whole() {
    let mut rng = Rng::new(1);
    let script: Vec<u8> = (0..3_000).map(|_| rng.pick(b"ab\n")).collect();
    let various = Cut::Various { most: 17, seed: 3 };
    for cut in [Cut::Whole, Cut::Each(1), Cut::Each(7), Cut::Each(4_096), various, Cut::Feeds] {
        let pieces = Pieces { cut, pauses: 0 };
        assert_eq!(pieces.of(&script).concat(), script, "{cut:?}");
        assert!(pieces.of(&script).iter().all(|piece| !piece.is_empty()), "{cut:?}");
    }
    assert_eq!(Pieces { cut: Cut::Feeds, pauses: 0 }.of(b"ab\n\nc"), [&b"ab"[..], b"\n", b"\n", b"c"]);
}

fn process(path: &str, arguments: &[&str]) -> Process {
    let arguments = arguments.iter().map(|it| it.to_string()).collect();
    Process { path: path.into(), arguments, limit: Duration::from_secs(20) }
}

/// The reference as a process of its own, through pipes.
#[test]
fn a_right_program_is_found_right() {
    let program = Process::new(env!("CARGO_BIN_EXE_interpreter").into());
    plan::lines(&program, &mut LineTally::new(), 3, 8).expect("no difference");
}

/// What is written comes back whole, more of it than a pipe holds, while it is still being written.
#[test]
fn pipes_do_not_block() {
    let mut rng = Rng::new(2);
    let script: Vec<u8> = (0..3_000_000).map(|_| rng.word() as u8).collect();
    for cut in [Cut::Whole, Cut::File, Cut::Each(4_097), Cut::Various { most: 3_000, seed: 1 }] {
        let back = process("cat", &[]).run(&script, &Pieces { cut, pauses: 10 });
        assert!(back.as_ref() == Ok(&script), "{cut:?}");
    }
    let short = &script[..5_000];
    assert!(process("cat", &[]).run(short, &Pieces { cut: Cut::Each(1), pauses: 50 }).as_deref() == Ok(short));
}

#[test]
fn a_program_that_fails_is_told() {
    let run = |program: Process| program.run(&vec![b'x'; 1_000_000], &Pieces::WHOLE);
    // It does not read, so the script cannot be written whole.
    assert_eq!(run(process("true", &[])), Ok(vec![]));
    assert_eq!(run(process("false", &[])), Err("the program ends with exit status: 1".into()));
    let killed = run(process("sh", &["-c", "cat; kill -9 $$"]));
    assert!(killed.as_ref().is_err_and(|what| what.contains("signal: 9")), "{killed:?}");
    let slow = Process { limit: Duration::from_millis(300), ..process("sleep", &["20"]) };
    assert_eq!(run(slow), Err("the program does not end within 300ms".into()));
    let endless = run(process("yes", &[]));
    assert!(endless.as_ref().is_err_and(|what| what.contains("signal: 13")), "{:?}", endless.map(|it| it.len()));
    let none = run(process("no-such-program", &[]));
    assert!(none.as_ref().is_err_and(|what| what.starts_with("no-such-program cannot be started")), "{none:?}");
}

/// What is printed of a difference: the script, both lines, and a file with exactly the script.
#[test]
fn a_report_can_be_replayed() {
    let what = Difference::Line { line: 1, got: Some(b"ok 0 1\n".into()), due: Some(b"?\n".into()) };
    let found = Found { script: b"load 2 2 07\nlist\0".into(), pieces: Pieces::WHOLE, what };
    let report = report::of_lines(&found, "test-report");
    let (shown, rest) = report.split_once("# line 1").expect("it says where");
    assert_eq!(shown, "load 2 2 07\nlist\\x00  (no line feed)\n");
    assert!(rest.contains(r#"the program prints "ok 0 1\n", due is "?\n" (test-report)"#), "{rest}");
    assert!(rest.ends_with("# it must print:\n?\n?\n"), "{rest}");
    let path = rest.lines().find_map(|line| line.strip_prefix("# replay: ./book ")).expect("it names a file");
    assert_eq!(std::fs::read(path).expect("the file is there"), found.script);
    std::fs::remove_file(path).expect("it can be removed");
}
