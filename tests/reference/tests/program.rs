//! The book program: document 01's printed case, and lines and replies worked out by hand.

use reference::{Command, Fault, NO_TAG, Program, lines};

fn run(input: impl AsRef<[u8]>) -> String {
    String::from_utf8(Program::default().run(input.as_ref())).expect("replies are plain")
}

const PRINTED: &str = "load 2 2 7 BBEBEE\ntext 2\ntext 2\nlist\n";
const PRINTED_REPLIES: &str = "ok 6 2\nok 6 1 0\nok 7 4 2\n0 0\n1 1\n2 3\n7 4\n6 9\n3 10\n4 12\n5 13\nend 8\n";

#[test]
fn the_printed_case() {
    assert_eq!(run(PRINTED), PRINTED_REPLIES);
    // The last line may lack its line feed; its reply has one all the same.
    assert_eq!(run(PRINTED.trim_end()), PRINTED_REPLIES);
}

#[test]
fn where_lines_end() {
    assert_eq!(run(""), "");
    assert_eq!(run("\n"), "?\n");
    assert_eq!(run("\n\n"), "?\n?\n");
    assert_eq!(run("list"), "no 2\n");
    assert_eq!(run("list\n"), "no 2\n");
    assert_eq!(run("list\n\nlist"), "no 2\n?\nno 2\n");
    assert_eq!(run("li\nst"), "?\n?\n");
    assert_eq!(run("list\r\n"), "?\n");
    assert_eq!(lines(b"a\n\nb"), [&b"a"[..], b"", b"b"]);
}

#[test]
fn before_the_first_load_the_store_is_not_sound() {
    assert_eq!(run("element front\ntext 0\nmark front\nmark 0\nlist\n"), "no 2\n".repeat(5));
}

#[test]
fn loads() {
    for (line, reply) in [
        ("load 2 2 7", "ok 0 1"),
        ("load 2 2 7 ", "ok 0 1"),
        ("load 2 2 7 T", "ok 1 1"),
        ("load 2 2 4294967295 TTTT", "ok 4 2"),
        ("load 16 16 0 TTTT", "ok 4 1"),
        ("load 2 1 7 T", "no 3"),
        ("load 17 2 7 E", "no 3"),
        ("load 4294967295 0 7", "no 3"),
        ("load 2 2 7 B", "no 5"),
        ("load 2 2 7 EB", "no 5"),
        ("load 2 2 7  ", "?"),
        ("load 2 2 7  T", "?"),
        ("load 2 2 7 T ", "?"),
        ("load 2 2 7 T T", "?"),
        ("load 2 2 7 t", "?"),
        ("load 2 2 7 1", "?"),
        ("load 2 2 7 BXE", "?"),
        ("load 2 2 4294967296", "?"),
        ("load 2 2 07", "?"),
        ("load 02 2 7", "?"),
        ("load 2 2 -7", "?"),
        ("load 2 +2 7", "?"),
        ("load 2 front 7", "?"),
        ("load 2 2", "?"),
        ("load 2 2 ", "?"),
        ("load", "?"),
        ("Load 2 2 7", "?"),
        (" load 2 2 7", "?"),
        ("load\t2 2 7", "?"),
    ] {
        assert_eq!(run(line), format!("{reply}\n"), "{line:?}");
    }
    assert_eq!(run(format!("load 16 2 7 {}", "T".repeat(127))), "ok 127 6\n");
    assert_eq!(run(format!("load 16 2 7 {}", "T".repeat(128))), "no 7\n");
}

#[test]
fn places_and_marks() {
    let after = |line: &str| run(format!("load 2 2 7 BTE\n{line}\n")).split_off("ok 3 1\n".len());
    for (line, reply) in [
        ("text 0", "ok 3 2 1"),
        ("text 2", "ok 3 1 1"),
        ("element 2", "ok 3 1 1"),
        ("text front", "ok 3 3 1"),
        // The number that stands for no tag is the front too.
        ("text 4294967295", "ok 3 3 1"),
        ("text 3", "no 8"),
        ("element 4294967294", "no 8"),
        ("mark 0", "ok 3"),
        ("mark 1", "ok 1"),
        ("mark 2", "no 10"),
        ("mark 3", "no 8"),
        ("mark front", "no 8"),
        ("mark 4294967295", "no 8"),
        ("mark 4294967296", "?"),
        ("mark 00", "?"),
        ("mark", "?"),
        ("mark ", "?"),
        ("mark 0 ", "?"),
        ("mark  0", "?"),
        ("mark 0 0", "?"),
        ("mark Front", "?"),
        ("text fron", "?"),
        ("text front ", "?"),
        ("text 01", "?"),
        ("text 1\0", "?"),
        ("text", "?"),
        ("element", "?"),
        ("element 1.0", "?"),
        ("list", "0 0\n1 1\n2 2\nend 3"),
        ("list ", "?"),
        ("list 0", "?"),
        ("list front", "?"),
        ("LIST", "?"),
    ] {
        assert_eq!(after(line), format!("{reply}\n"), "{line:?}");
    }
    assert_eq!(after("mark 1\ntext 1\nmark 1\nlist"), "ok 1\nno 9\nno 9\n0 0\n2 2\nend 2\n");
    assert_eq!(after("mark 0\nmark 2\nlist"), "ok 3\nno 9\nend 0\n");
}

#[test]
fn lines_of_2_100_bytes_are_read_and_longer_ones_not() {
    let load = |len: usize| format!("load 2 2 7 {}", "T".repeat(len - 11));
    // Both have more kinds than the store has words for.
    assert_eq!(load(2_100).len(), 2_100);
    assert_eq!(run(load(2_099)), "no 1\n");
    assert_eq!(run(load(2_100)), "no 1\n");
    assert_eq!(run(load(2_100) + "\n"), "no 1\n");
    assert_eq!(run(load(2_101)), "?\n");
    assert_eq!(run(load(2_101) + "\nlist\n"), "?\nno 2\n");
    assert_eq!(run(load(1 << 20) + "list\nlist\n"), "?\nno 2\n");
}

#[test]
fn the_store_has_2_000_tags() {
    let load = |kinds: usize| format!("load 4 4 7 {}\n", "T".repeat(kinds));
    assert_eq!(run(load(2_001)), "no 1\n");
    assert_eq!(run(load(2_000) + "text 0\nelement front\n"), "ok 2000 5\nno 6\nno 6\n");
    assert_eq!(run(load(1_999) + "element 0\ntext 1998\ntext 0\n"), "ok 1999 5\nno 6\nok 1999 0 0\nno 6\n");
}

#[test]
fn bytes_that_are_no_text() {
    assert_eq!(run(b"list\0\n\xFFlist\n\x80\n\xC3\xA9\nlist\n"), "?\n?\n?\n?\nno 2\n");
    assert_eq!(run(b"load 2 2 7 T\xFF\nload 2 2 7\xA0T\nload 2 2 \xB2\n"), "?\n?\n?\n");
}

#[test]
fn commands() {
    let of = |line: &str| Command::of_line(line.as_bytes(), Fault::None);
    assert_eq!(of("load 3 4 5 BTE"), Some(Command::Load { s: 3, r: 4, book: 5, kinds: vec![1, 3, 2] }));
    assert_eq!(of("load 3 4 5"), of("load 3 4 5 "));
    assert_eq!(of("element front"), Some(Command::Element { place: NO_TAG }));
    assert_eq!(of("mark 0"), Some(Command::Mark { tag: 0 }));
    assert_eq!(of(""), None);
}

#[test]
fn each_seeded_fault_shows() {
    let long = format!("load 2 2 7 {}", "T".repeat(2_090));
    for (fault, input, reply) in [
        (Fault::LeadingZeros, "load 02 2 007", "ok 0 1\n"),
        (Fault::NumbersCut, "load 4294967298 2 7", "ok 0 1\n"),
        (Fault::SpacesAlike, " load 2  2 7 ", "ok 0 1\n"),
        (Fault::CarriageReturn, "list\r", "no 2\n"),
        (Fault::LongLine, &long, "no 1\n"),
        (Fault::LastLineDropped, "list", ""),
    ] {
        assert_eq!(Program::faulty(fault).run(input.as_bytes()), reply.as_bytes(), "{fault:?}");
        assert_ne!(run(input), reply, "{fault:?}");
    }
}
