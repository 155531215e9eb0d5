//! The reference as a book program: standard input to standard output. It tells what a script must print, and stands in
//! for the book program in the tests of the harness.

use reference::Program;
use std::io::{self, Read, Write};

fn main() -> io::Result<()> {
    let mut input = Vec::new();
    io::stdin().read_to_end(&mut input)?;
    io::stdout().write_all(&Program::default().run(&input))
}
