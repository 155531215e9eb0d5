//! Sheets that are right: trees of elements, printed with spaces, quotes, comments and CDATA sections by chance.

use crate::kinds::{BEGIN, END, TEXT};
use draw::Rng;

/// Names, some of which begin with another.
pub(crate) const NAMES: [&str; 10] = ["a", "b", "ab", "A", "_", ":", "a:b", "x-1.", "aa", "pass-schedule"];

const REFERENCES: [&str; 5] = ["&lt;", "&gt;", "&amp;", "&apos;", "&quot;"];

/// Bytes with a meaning, and a few without.
pub(crate) const BYTES: &[u8] = b"<>/!?-[]&;=\"' \t\r\nabx1:.#C\x7f";

/// A sheet, and its kinds as they follow from how it was made.
#[derive(Clone, PartialEq, Eq, Debug, Default)]
pub struct Sheet {
    pub text: Vec<u8>,
    pub kinds: Vec<u8>,
}

struct Printer<'a> {
    rng: &'a mut Rng,
    sheet: Sheet,
    /// What was printed last is a part of a text.
    in_text: bool,
    /// Nodes that may still be begun.
    left: usize,
}

impl Printer<'_> {
    fn put(&mut self, text: impl AsRef<[u8]>) {
        self.sheet.text.extend(text.as_ref());
    }

    /// Spaces, at least so many.
    fn spaces(&mut self, least: usize) {
        let many = least + self.rng.pick(&[0, 0, 0, 1, 3]);
        let spaces: Vec<u8> = (0..many).map(|_| self.rng.pick(b" \t\r\n")).collect();
        self.put(spaces);
    }

    /// Allowed bytes by chance, up to so many, that may follow each other: `fits` is shown all before and the next.
    fn bytes(&mut self, most: usize, fits: impl Fn(&[u8], u8) -> bool) {
        let from = self.sheet.text.len();
        for _ in 0..self.rng.below(most + 1) {
            let byte = self.rng.pick(BYTES);
            if fits(&self.sheet.text[from..], byte) {
                self.sheet.text.push(byte);
            }
        }
    }

    fn value(&mut self) {
        let quote = self.rng.pick(b"\"'");
        self.put([quote]);
        for _ in 0..self.rng.below(3) {
            self.bytes(6, |_, byte| !b"<&".contains(&byte) && byte != quote);
            if self.rng.percent(30) {
                let reference = self.rng.pick(&REFERENCES);
                self.put(reference);
            }
        }
        self.put([quote]);
    }

    fn attributes(&mut self) {
        let mut names = NAMES;
        self.rng.shuffle(&mut names);
        for name in &names[..self.rng.pick(&[0, 0, 1, 2, 3, 8])] {
            self.spaces(1);
            self.put(name);
            self.spaces(0);
            self.put("=");
            self.spaces(0);
            self.value();
        }
        self.spaces(0);
    }

    fn tag(&mut self, kind: u8) {
        self.in_text = false;
        self.sheet.kinds.push(kind);
    }

    fn element(&mut self, depth: usize) {
        let name = self.rng.pick(&NAMES);
        self.tag(BEGIN);
        self.put(format!("<{name}"));
        self.attributes();
        if self.rng.percent(30) {
            self.put("/>");
        } else {
            self.put(">");
            self.content(depth - 1);
            self.put(format!("</{name}"));
            self.spaces(0);
            self.put(">");
        }
        self.tag(END);
    }

    fn comment(&mut self) {
        self.put("<!--");
        self.bytes(8, |before, byte| byte != b'-' || before.last() != Some(&b'-'));
        if self.sheet.text.ends_with(b"-") && !self.sheet.text.ends_with(b"<!--") {
            self.put(" ");
        }
        self.put("-->");
        self.in_text = false;
    }

    /// Data that is not empty, a reference or a CDATA section.
    fn part(&mut self) {
        if !self.in_text {
            self.sheet.kinds.push(TEXT);
            self.in_text = true;
        }
        match self.rng.below(4) {
            0 => {
                let reference = self.rng.pick(&REFERENCES);
                self.put(reference);
            }
            1 => {
                self.put("<![CDATA[");
                self.bytes(8, |before, byte| byte != b'>' || !before.ends_with(b"]]"));
                self.put("]]>");
            }
            _ => {
                // Only data ends in two brackets, so what stands before them need not be known.
                let first = self.rng.pick(b"x ]\n");
                self.put([first]);
                let brackets = self.sheet.text.iter().rev().take_while(|it| **it == b']').count();
                self.bytes(8, |before, byte| match byte {
                    b'<' | b'&' => false,
                    b'>' => {
                        !(before.ends_with(b"]]") || before.iter().all(|it| *it == b']') && before.len() + brackets > 1)
                    }
                    _ => true,
                });
            }
        }
    }

    fn content(&mut self, depth: usize) {
        while self.left > 0 && self.rng.percent(85) {
            self.left -= 1;
            match self.rng.below(5) {
                0 => self.comment(),
                1 | 2 => self.part(),
                _ if depth > 0 => self.element(depth),
                _ => {}
            }
        }
    }
}

/// A sheet of about so many nodes, and no deeper than this.
pub fn tree(rng: &mut Rng, nodes: usize, depth: usize) -> Sheet {
    let mut printer = Printer { rng, sheet: Sheet::default(), in_text: false, left: nodes };
    while printer.left > 0 {
        printer.content(depth);
    }
    printer.sheet
}
