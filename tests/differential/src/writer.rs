//! Writes a script line by line with the output that is due. The reference reads along, so that the next line can be
//! chosen by what the store holds.

use crate::kinds::{BEGIN, END};
use draw::Rng;
use reference::{Command, Fault, HEADER, LONGEST_LINE, NO_TAG, Program, RECORD, lines};
use std::collections::BTreeMap;

/// How often which command was answered how; lines that are none count as such.
pub type LineTally = BTreeMap<(&'static str, String), u64>;

#[derive(Clone, PartialEq, Eq, Debug, Default)]
pub struct Script {
    pub input: Vec<u8>,
    pub due: Vec<u8>,
}

pub struct Writer<'a> {
    program: Program,
    script: Script,
    tally: &'a mut LineTally,
}

fn name(line: &[u8]) -> &'static str {
    match Command::of_line(line, Fault::None) {
        Some(Command::Load { .. }) => "load",
        Some(Command::Element { .. }) => "element",
        Some(Command::Text { .. }) => "text",
        Some(Command::Mark { .. }) => "mark",
        Some(Command::List) => "list",
        None if line.len() > LONGEST_LINE => "too long",
        None => "no line",
    }
}

/// `ok`, `no` with its number, or `?`; a listing counts as ok.
fn verdict(reply: &str) -> &str {
    match reply.as_bytes() {
        [b'?' | b'n', ..] => reply.trim_end(),
        _ => "ok",
    }
}

impl<'a> Writer<'a> {
    pub fn new(tally: &'a mut LineTally) -> Writer<'a> {
        Writer { program: Program::default(), script: Script::default(), tally }
    }

    /// Writes a line, or several where it has line feeds inside, and gives the last reply.
    pub fn say(&mut self, line: impl AsRef<[u8]>) -> String {
        let mut reply = String::new();
        let line = [line.as_ref(), b"\n"].concat();
        for line in lines(&line) {
            reply = self.program.reply(line);
            *self.tally.entry((name(line), verdict(&reply).into())).or_default() += 1;
            self.script.due.extend(reply.bytes());
        }
        self.script.input.extend(line);
        reply
    }

    /// The number of tags.
    pub fn n(&self) -> usize {
        self.program.store.words[4] as usize
    }

    /// The last tag in book order, or `front` where there is none.
    pub fn last(&self) -> String {
        let next = |tag: &usize| self.program.store.words[HEADER + RECORD * tag + 1];
        (0..self.n()).find(|tag| next(tag) == NO_TAG).map_or("front".into(), |tag| tag.to_string())
    }

    /// A load of kinds, each another letter than B and E a text.
    pub fn load(&mut self, rng: &mut Rng, s: u32, r: u32, kinds: &[u8]) -> String {
        let letter = |kind: &u8| match *kind {
            BEGIN => 'B',
            END => 'E',
            _ => 'T',
        };
        let letters: String = kinds.iter().map(letter).collect();
        let book = rng.pick(&[7, 0, u32::MAX, 1 << 31]);
        let line = format!("load {s} {r} {book} {letters}");
        self.say(if rng.percent(50) { line.trim_end() } else { &line })
    }

    pub fn script(self) -> Script {
        self.script
    }

    /// The script without its last line feed; the output stays. The last line must not be empty.
    pub fn without_last_feed(mut self) -> Script {
        self.script.input.pop();
        self.script
    }
}
