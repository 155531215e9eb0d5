//! The comparison of whole outputs: a program that reads the book program's lines beside the reference's reading.

use crate::pieces::Pieces;
use reference::{Fault, Program};
use std::fmt;

pub trait LineProgram {
    /// The whole output for a script that is written in these pieces, or what went wrong with the program.
    fn run(&self, script: &[u8], pieces: &Pieces) -> Result<Vec<u8>, String>;
}

/// The reference, with a fault where a test wants one.
pub struct Interpreter {
    pub fault: Fault,
}

impl LineProgram for Interpreter {
    fn run(&self, script: &[u8], _: &Pieces) -> Result<Vec<u8>, String> {
        Ok(Program::faulty(self.fault).run(script))
    }
}

/// The output that a script must have.
pub fn due(script: &[u8]) -> Vec<u8> {
    Program::default().run(script)
}

#[derive(Clone, PartialEq, Eq, Debug)]
pub enum Difference {
    /// At this line of the output, from 1: what the program printed and what was due, where they print one at all.
    Line { line: usize, got: Option<Vec<u8>>, due: Option<Vec<u8>> },
    /// No output to compare.
    Ended(String),
}

/// The first line in which two outputs differ.
pub fn first_difference(got: &[u8], due: &[u8]) -> Option<Difference> {
    if got == due {
        return None;
    }
    let lines = |output: &[u8]| output.split_inclusive(|&byte| byte == b'\n').map(<[u8]>::to_vec).collect::<Vec<_>>();
    let (got, due) = (lines(got), lines(due));
    let at = (0..).find(|&i| got.get(i) != due.get(i)).expect("they differ");
    Some(Difference::Line { line: at + 1, got: got.get(at).cloned(), due: due.get(at).cloned() })
}

/// Runs a script, and compares the output with the one that is due.
pub fn compare(program: &dyn LineProgram, script: &[u8], due: &[u8], pieces: &Pieces) -> Option<Difference> {
    match program.run(script, pieces) {
        Ok(got) => first_difference(&got, due),
        Err(what) => Some(Difference::Ended(what)),
    }
}

impl fmt::Display for Difference {
    fn fmt(&self, out: &mut fmt::Formatter) -> fmt::Result {
        let said = |line: &Option<Vec<u8>>| match line {
            Some(line) => format!("\"{}\"", line.escape_ascii()),
            None => "nothing".into(),
        };
        match self {
            Difference::Line { line, got, due } => {
                write!(out, "line {line} of the output: the program prints {}, due is {}", said(got), said(due))
            }
            Difference::Ended(what) => write!(out, "{what}"),
        }
    }
}
