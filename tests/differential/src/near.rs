//! Lines that the book program reads, and lines that miss that by a little.

use draw::Rng;
use reference::LONGEST_LINE;

/// A line of every form.
pub const FORMS: [&str; 10] = [
    "load 2 2 7 BTE",
    "load 2 2 7",
    "load 16 3 4294967295 TT",
    "element 0",
    "element front",
    "text 1",
    "text front",
    "mark 0",
    "mark front",
    "list",
];

/// Stand in a number's place, some of them rightly.
const NUMBERS: [&str; 45] = [
    "",
    "0",
    "00",
    "000",
    "1",
    "01",
    "001",
    "2",
    "02",
    "9",
    "10",
    "010",
    "16",
    "17",
    "99",
    "100",
    "65536",
    "2147483647",
    "2147483648",
    "4294967294",
    "4294967295",
    "4294967296",
    "4294967297",
    "4294967298",
    "04294967295",
    "4294967300",
    "42949672950",
    "6442450944",
    "9999999999",
    "18446744073709551615",
    "18446744073709551616",
    "18446744073709551618",
    "340282366920938463463374607431768211458",
    "+1",
    "-1",
    "-0",
    "1.0",
    "1e0",
    "0x1",
    "1_0",
    "front",
    "Front",
    "fron",
    "frontt",
    "1front",
];

/// Stand in the kinds' place, some of them rightly.
const KINDS: [&str; 24] = [
    "",
    "B",
    "E",
    "T",
    "BE",
    "EB",
    "BTE",
    "TBET",
    "BBEE",
    "BEE",
    "BBE",
    "BEBE",
    "b",
    "t",
    "BtE",
    "bte",
    "BXE",
    "BTE.",
    "B,E",
    "123",
    "\u{1}\u{2}\u{3}",
    "T\0",
    "front",
    "TTTTTTTTTTTTTTTTTTTTTTTTTTTTTTTTT",
];

/// Stand for a whole line.
const LINES: [&str; 30] = [
    "",
    " ",
    "  ",
    "\t",
    "\r",
    "\0",
    "?",
    "#",
    "ok",
    "no 2",
    "end 0",
    "0 0",
    "end",
    "quit",
    "exit",
    "help",
    "lists",
    "lis",
    "listlist",
    "list\0",
    "load",
    "element",
    "text",
    "mark",
    "mark0",
    "textfront",
    "hold 0",
    "insert 3 0",
    "question",
    "list front",
];

/// Stand in a space's place.
const SPACES: [&str; 9] = ["", "  ", "   ", "\t", " \t", "\u{a0}", "\u{b}", "\r", "\0"];

/// Stand before a line or after it.
const MARGINS: [&str; 9] = [" ", "  ", "\t", "\r", "\r\r", "\0", "\u{c}", "\u{feff}", "\\"];

/// The fields of a line, the one of this number replaced.
fn with_field(fields: &[&str], at: usize, field: &str) -> String {
    let mut fields = fields.to_vec();
    fields[at] = field;
    fields.join(" ")
}

/// Near misses that can be thought of beforehand.
pub fn table() -> Vec<Vec<u8>> {
    let mut out: Vec<String> = LINES.iter().map(|line| line.to_string()).collect();
    for form in FORMS {
        let fields: Vec<&str> = form.split(' ').collect();
        for at in 1..fields.len() {
            let others: &[&str] = if at == 4 { &KINDS } else { &NUMBERS };
            out.extend(others.iter().map(|other| with_field(&fields, at, other)));
            out.push([&fields[..at], &fields[at + 1..]].concat().join(" "));
            out.push([&fields[..at], &fields[at - 1..]].concat().join(" "));
        }
        for (at, _) in form.match_indices(' ') {
            out.extend(SPACES.iter().map(|space| format!("{}{space}{}", &form[..at], &form[at + 1..])));
        }
        for margin in MARGINS {
            out.extend([format!("{margin}{form}"), format!("{form}{margin}"), format!("{form}{margin}{form}")]);
        }
        out.extend([form.to_uppercase(), form.to_lowercase(), form[..1].to_uppercase() + &form[1..]]);
        out.extend([form.repeat(2), form[1..].into(), form[..form.len() - 1].into()]);
    }
    out.into_iter().map(String::into_bytes).collect()
}

/// Every byte put in at every place of every form, and put in place of every byte of it. A line feed makes two lines.
pub fn bytes_everywhere() -> Vec<Vec<u8>> {
    let mut out = Vec::new();
    for form in FORMS.map(str::as_bytes) {
        for at in 0..=form.len() {
            for byte in 0..=u8::MAX {
                out.push([&form[..at], &[byte], &form[at..]].concat());
                if at < form.len() {
                    out.push([&form[..at], &[byte], &form[at + 1..]].concat());
                }
            }
        }
    }
    out
}

/// A few edits of a line by chance.
pub fn spoiled(rng: &mut Rng, line: &[u8]) -> Vec<u8> {
    let mut line = line.to_vec();
    for _ in 0..rng.between(1, 3) {
        let at = rng.below(line.len());
        let any = rng.word() as u8;
        let byte = rng.pick(&[b' ', b' ', b'0', b'1', b'9', b'T', b'B', b'E', b't', b'\t', b'\r', 0, 0x80, 0xFF, any]);
        match rng.below(5) {
            0 | 1 => line.insert(at, byte),
            2 if !line.is_empty() => line[at] = byte,
            3 if !line.is_empty() => drop(line.remove(at)),
            // The line breaks off.
            _ => line.truncate(rng.below(line.len() + 1)),
        }
    }
    line
}

/// A line of this many bytes, of which only the loads can be lines that are read.
pub fn of_length(rng: &mut Rng, len: usize) -> Vec<u8> {
    let (mut line, fill): (&str, &[u8]) = rng.pick(&[
        ("load 2 2 7 ", b"T"),
        ("load 2 2 7 ", b"T"),
        ("load 4 4 7 ", b"BE"),
        ("load 2 2 7 ", b"B"),
        ("load 17 2 7 ", b"T"),
        ("load 2 2 ", b"1"),
        ("load 2 2 ", b"0"),
        ("load", b" "),
        ("text ", b"0"),
        ("element ", b"9"),
        ("mark 0", b" "),
        ("list", b" "),
        ("list", b"\0"),
        ("", b"\xFF"),
        ("", b"\r"),
        ("", b"list "),
    ]);
    if rng.percent(5) {
        line = "";
    }
    line.bytes().chain(fill.iter().copied().cycle()).take(len).collect()
}

/// A line that is too long, and ends in what would be a line of its own if the rest were dropped or read apart.
pub fn long_then_line(rng: &mut Rng) -> Vec<u8> {
    let len = rng.pick(&[LONGEST_LINE - 4, LONGEST_LINE, LONGEST_LINE + 1, 4_096, 8_192, 65_536]);
    let form = rng.pick(&FORMS);
    let mut line = if rng.percent(50) { of_length(rng, len) } else { vec![b'x'; len] };
    line.extend(form.bytes());
    line
}
