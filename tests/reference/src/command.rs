//! One line of document 01's book program: what it asks for.

use crate::fault::Fault;
use crate::words::NO_TAG;

/// The longest line that is read.
pub const LONGEST_LINE: usize = 2_100;

#[derive(Clone, PartialEq, Eq, Debug)]
pub enum Command {
    Load { s: u32, r: u32, book: u32, kinds: Vec<u8> },
    Element { place: u32 },
    Text { place: u32 },
    Mark { tag: u32 },
    List,
}

impl Command {
    /// None for a line that a question mark answers. The line feed is no part of the line.
    pub fn of_line(line: &[u8], fault: Fault) -> Option<Command> {
        let line = match line {
            [line @ .., b'\r'] if fault == Fault::CarriageReturn => line,
            _ => line,
        };
        if line.len() > LONGEST_LINE + usize::from(fault == Fault::LongLine) {
            return None;
        }
        let mut fields: Vec<&[u8]> = line.split(|&byte| byte == b' ').collect();
        if fault == Fault::SpacesAlike {
            fields.retain(|field| !field.is_empty());
        }
        let number = |field: &[u8]| number(field, fault);
        let place = |field: &[u8]| if field == b"front" { Some(NO_TAG) } else { number(field) };
        Some(match fields[..] {
            // The kinds may be absent, with their space or without.
            [b"load", s, r, book, ref kinds @ ..] if kinds.len() <= 1 => {
                let (s, r, book) = (number(s)?, number(r)?, number(book)?);
                Command::Load { s, r, book, kinds: letters(kinds.first().copied().unwrap_or_default())? }
            }
            [b"element", y] => Command::Element { place: place(y)? },
            [b"text", y] => Command::Text { place: place(y)? },
            [b"mark", y] => Command::Mark { tag: place(y)? },
            [b"list"] => Command::List,
            _ => return None,
        })
    }
}

/// Decimal digits without leading zeros, for a number that fits a word.
fn number(field: &[u8], fault: Fault) -> Option<u32> {
    let zeros = field.len() > 1 && field[0] == b'0';
    if field.is_empty() || (zeros && fault != Fault::LeadingZeros) {
        return None;
    }
    field.iter().try_fold(0u32, |number, &byte| {
        let digit = (byte as char).to_digit(10)?;
        match fault {
            Fault::NumbersCut => Some(number.wrapping_mul(10).wrapping_add(digit)),
            _ => number.checked_mul(10)?.checked_add(digit),
        }
    })
}

/// The kinds as bytes 1, 2, 3.
fn letters(field: &[u8]) -> Option<Vec<u8>> {
    let kind = |letter: &u8| match letter {
        b'B' => Some(1),
        b'E' => Some(2),
        b'T' => Some(3),
        _ => None,
    };
    field.iter().map(kind).collect()
}
