//! A failure for a reader: the short case, what differs, and a file that the book program can replay.

use crate::call::Case;
use crate::pieces::Pieces;
use crate::program::due;
use crate::script;
use crate::sheet::Misread;
use crate::shorten::Found;
use std::path::PathBuf;

/// A line longer than this is shown by its beginning.
const SHOWN: usize = 120;

/// An output of more lines than this is shown by its end.
const LINES: usize = 30;

/// Keeps the input as a file, for the book program to read. Its name says the run.
fn keep(input: &[u8], run: &str) -> Result<PathBuf, String> {
    let path = std::env::temp_dir().join(format!("vekhturop-{run}.script"));
    std::fs::write(&path, input).map_err(|error| format!("{} cannot be written: {error}", path.display()))?;
    Ok(path)
}

fn replay(input: &[u8], run: &str) -> String {
    match keep(input, run) {
        Ok(path) => format!("# replay: ./book {}", path.display()),
        Err(what) => format!("# {what}"),
    }
}

/// Lines as they are where they are plain, with escapes where not.
fn shown(input: &[u8]) -> String {
    let line = |line: &[u8]| {
        let text = line.strip_suffix(b"\n").unwrap_or(line);
        let cut = &text[..text.len().min(SHOWN)];
        let mut said = cut.escape_ascii().to_string();
        if cut.len() < text.len() {
            said += &format!(".. ({} bytes)", text.len());
        }
        said + if line.ends_with(b"\n") { "\n" } else { "  (no line feed)\n" }
    };
    input.split_inclusive(|&byte| byte == b'\n').map(line).collect()
}

/// The end of an output.
fn tail(output: &[u8]) -> String {
    let lines: Vec<&[u8]> = output.split_inclusive(|&byte| byte == b'\n').collect();
    let from = lines.len().saturating_sub(LINES);
    let dots = if from > 0 { "..\n" } else { "" };
    format!("{dots}{}", shown(&lines[from..].concat()))
}

/// Of the comparison by calls. `run` names it.
pub fn of_calls(case: &Case, what: &str, run: &str) -> String {
    let differs = format!("# call {} differs: {what} ({run})", case.calls.len());
    match script::input(case) {
        Some(input) => {
            let due = tail(&due(input.as_bytes()));
            format!("{input}{differs}\n{}\n# it must print:\n{due}", replay(input.as_bytes(), run))
        }
        None => format!("{}\n{differs}\n# no input of the book program says this\n", script::script(case)),
    }
}

/// Of the comparison by lines.
pub fn of_lines(found: &Found, run: &str) -> String {
    let pieces = match found.pieces {
        Pieces::WHOLE => String::new(),
        pieces => format!("# only when it is written in pieces: {pieces:?}\n"),
    };
    let (script, replay) = (shown(&found.script), replay(&found.script, run));
    let due = tail(&due(&found.script));
    format!("{script}# {} ({run})\n{pieces}{replay}\n# it must print:\n{due}", found.what)
}

/// Of the comparison of sheets: the text as C and Rust write strings of bytes.
pub fn of_sheet(found: &Misread, run: &str) -> String {
    let Misread { text, room, what } = found;
    format!("\"{}\"\n# {} bytes, with a list of {room}: {what} ({run})\n", text.escape_ascii(), text.len())
}
