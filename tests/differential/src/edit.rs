//! Edits of a script for the book program that leave the rest of it say what it said.

use crate::case_edit::lowered;
use crate::script;
use reference::{Command, Fault, Program};

/// The lines of a script with their line feeds, so that joined they are the script again.
pub fn split(script: &[u8]) -> Vec<Vec<u8>> {
    script.split_inclusive(|&byte| byte == b'\n').map(<[u8]>::to_vec).collect()
}

/// A line without its line feed.
fn text(line: &[u8]) -> &[u8] {
    line.strip_suffix(b"\n").unwrap_or(line)
}

fn command(line: &[u8]) -> Option<Command> {
    Command::of_line(text(line), Fault::None)
}

/// A line for the command, with the line feed if the old line has one.
fn said(command: &Command, old: &[u8]) -> Option<Vec<u8>> {
    let mut said = match command {
        Command::Load { s, r, book, kinds } => script::load(*s, *r, *book, kinds)?,
        Command::Element { place } => format!("element {}", script::tag(*place)),
        Command::Text { place } => format!("text {}", script::tag(*place)),
        Command::Mark { tag } => format!("mark {}", script::tag(*tag)),
        Command::List => "list".into(),
    };
    if old.ends_with(b"\n") {
        said.push('\n');
    }
    Some(said.into_bytes())
}

/// The first new tag of every line that is an accepted insertion.
fn new_tags(lines: &[Vec<u8>]) -> Vec<Option<u32>> {
    let mut program = Program::default();
    let first = |line: &Vec<u8>| {
        let reply = program.reply(text(line));
        let inserts = matches!(command(line), Some(Command::Element { .. } | Command::Text { .. }));
        reply.strip_prefix("ok ").filter(|_| inserts)?.split(' ').next()?.parse().ok()
    };
    lines.iter().map(first).collect()
}

/// Tells the lines up to the next load that an insertion has been left out.
fn forget(lines: &mut [Vec<u8>], first: u32, many: u32, place: u32) {
    for line in lines {
        let mut command = command(line);
        match &mut command {
            Some(Command::Load { .. }) => return,
            Some(Command::Element { place: tag } | Command::Text { place: tag } | Command::Mark { tag }) => {
                *tag = lowered(*tag, first, many, place);
                *line = command.and_then(|command| said(&command, line)).unwrap_or(line.clone());
            }
            _ => {}
        }
    }
}

/// Leaves out the lines from one to another, with the numbers after them as if they had never been.
pub fn without(lines: &[Vec<u8>], from: usize, to: usize) -> Vec<Vec<u8>> {
    let new_tags = new_tags(&lines[..to]);
    let mut rest = lines.to_vec();
    // The last goes first, so that the numbers of those before it still say what they said.
    for index in (from..to).rev() {
        let removed = rest.remove(index);
        match (command(&removed), new_tags[index]) {
            (Some(Command::Element { place }), Some(first)) => forget(&mut rest[index..], first, 2, place),
            (Some(Command::Text { place }), Some(first)) => forget(&mut rest[index..], first, 1, place),
            _ => {}
        }
    }
    rest
}

/// s, r, book number and kinds.
type Load = (u32, u32, u32, Vec<u8>);

/// The lines with another load at the place of this one, if it is a load.
pub fn with_load(mut lines: Vec<Vec<u8>>, at: usize, other: impl Fn(u32, u32, u32, Vec<u8>) -> Load) -> Vec<Vec<u8>> {
    if let Some(Command::Load { s, r, book, kinds }) = lines.get(at).and_then(|line| command(line)) {
        let (s, r, book, kinds) = other(s, r, book, kinds);
        lines[at] = said(&Command::Load { s, r, book, kinds }, &lines[at]).expect("kinds of a line have letters");
    }
    lines
}

/// The lines of a script up to the one whose reply has this line of the output, from 1.
pub fn up_to(script: &[u8], output_line: usize) -> Vec<u8> {
    let mut program = Program::default();
    let mut printed = 0;
    let mut kept = Vec::new();
    for line in split(script) {
        if printed >= output_line {
            break;
        }
        printed += program.reply(text(&line)).lines().count();
        kept.extend(line);
    }
    kept
}
