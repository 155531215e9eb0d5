//! Document 01's book program: a whole input of bytes to the whole output.

use crate::command::Command;
use crate::fault::Fault;
use crate::reply::Refusal;
use crate::store::Store;
use crate::words::{NO_TAG, words_for};
use std::fmt::Write;

/// The program's store has words for so many tags.
pub const PROGRAM_TAGS: usize = 2_000;

pub struct Program {
    pub store: Store,
}

impl Default for Program {
    fn default() -> Program {
        Program::faulty(Fault::None)
    }
}

impl Program {
    /// For tests of a comparison: a program that does one thing wrongly.
    pub fn faulty(fault: Fault) -> Program {
        Program { store: Store::faulty(vec![0; words_for(PROGRAM_TAGS)], fault) }
    }

    /// The output for the whole input.
    pub fn run(&mut self, input: &[u8]) -> Vec<u8> {
        let mut lines = lines(input);
        if self.store.fault == Fault::LastLineDropped && !input.ends_with(b"\n") {
            lines.pop();
        }
        lines.into_iter().flat_map(|line| self.reply(line).into_bytes()).collect()
    }

    /// The lines that one line is answered with, each with its line feed.
    pub fn reply(&mut self, line: &[u8]) -> String {
        let Some(command) = Command::of_line(line, self.store.fault) else {
            return "?\n".into();
        };
        let reply = match command {
            Command::Load { s, r, book, kinds } => {
                self.store.load(s, r, book, &kinds).map(|it| format!("ok {} {}\n", it.tags, it.height))
            }
            Command::Element { place } => self.insert(1, place),
            Command::Text { place } => self.insert(3, place),
            Command::Mark { tag } => self.store.mark(tag).map(|marked| format!("ok {marked}\n")),
            Command::List => self.list(),
        };
        reply.unwrap_or_else(|refusal| format!("no {}\n", refusal as u32))
    }

    fn insert(&mut self, kind: u8, place: u32) -> Result<String, Refusal> {
        self.store.insert(kind, place).map(|it| format!("ok {} {} {}\n", it.first, it.moved, it.split))
    }

    fn list(&self) -> Result<String, Refusal> {
        let (mut tags, mut labels) = ([0; PROGRAM_TAGS], [0; PROGRAM_TAGS]);
        let count = self.store.list(NO_TAG, &mut tags, &mut labels)?;
        let mut said = String::new();
        for (tag, label) in tags.iter().zip(labels).take(count as usize) {
            writeln!(said, "{tag} {label}").expect("a string takes all");
        }
        writeln!(said, "end {count}").expect("a string takes all");
        Ok(said)
    }
}

/// The lines of an input, without their line feeds. The last may lack its line feed; nothing after the last line feed
/// is no line.
pub fn lines(input: &[u8]) -> Vec<&[u8]> {
    let mut lines: Vec<&[u8]> = input.split(|&byte| byte == b'\n').collect();
    if lines.last().is_some_and(|last| last.is_empty()) {
        lines.pop();
    }
    lines
}
