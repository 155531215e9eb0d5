//! The kinds of a sheet, in two passes over the text: the first says whether it is one and counts, the second writes.

use std::cmp::Ordering;

/// The numbers of the refusals.
const SHORT_LIST: u32 = 11;
const NOT_A_SHEET: u32 = 12;
const TOO_DEEP: u32 = 13;
const NOT_READ: u32 = 14;

/// So many elements may be open at once.
const DEPTH: usize = 64;

/// Bits of a byte's class: what it may go on with.
const SPACE: u8 = 1;
const START: u8 = 2;
const NAME: u8 = 4;
/// Data but for `>`, which may end what must not stand there.
const DATA: u8 = 8;
/// Between double quotes, between single ones.
const DOUBLE: u8 = 16;
const SINGLE: u8 = 32;
/// In a comment but for `-`, in a CDATA section but for `]`.
const COMMENT: u8 = 64;
const SECTION: u8 = 128;

static CLASS: [u8; 256] = classes();

const fn class(byte: u8) -> u8 {
    let space = matches!(byte, b' ' | b'\t' | b'\r' | b'\n');
    if !space && (byte < 32 || byte > 127) {
        return 0;
    }
    let mut class = if space { SPACE } else { 0 };
    if byte.is_ascii_alphabetic() || matches!(byte, b':' | b'_') {
        class |= START | NAME;
    }
    if byte.is_ascii_digit() || matches!(byte, b'-' | b'.') {
        class |= NAME;
    }
    class |= if matches!(byte, b'<' | b'&' | b'>') { 0 } else { DATA };
    class |= if matches!(byte, b'<' | b'&' | b'"') { 0 } else { DOUBLE };
    class |= if matches!(byte, b'<' | b'&' | b'\'') { 0 } else { SINGLE };
    class |= if byte == b'-' { 0 } else { COMMENT };
    class | if byte == b']' { 0 } else { SECTION }
}

const fn classes() -> [u8; 256] {
    let mut table = [0; 256];
    let mut byte = 0;
    while byte < 256 {
        table[byte] = class(byte as u8);
        byte += 1;
    }
    table
}

/// Where kinds go: the first pass counts them and looks at the names of attributes, the second writes them.
trait Sink {
    const LOOKS: bool;
    fn push(&mut self, kind: u8);
}

struct Count(usize);

impl Sink for Count {
    const LOOKS: bool = true;
    #[inline(always)]
    fn push(&mut self, _: u8) {
        self.0 += 1;
    }
}

struct List<'a>(std::slice::IterMut<'a, u8>);

impl Sink for List<'_> {
    const LOOKS: bool = false;
    #[inline(always)]
    fn push(&mut self, kind: u8) {
        if let Some(to) = self.0.next() {
            *to = kind;
        }
    }
}

/// A place in the text, or why it is not read any further.
type To = Result<usize, u32>;

/// Behind all bytes of this class.
#[inline(always)]
fn run(text: &[u8], mut at: usize, class: u8) -> usize {
    while at < text.len() && CLASS[usize::from(text[at])] & class != 0 {
        at += 1;
    }
    at
}

fn is(text: &[u8], at: usize, byte: u8) -> bool {
    text.get(at) == Some(&byte)
}

fn follows(text: &[u8], at: usize, bytes: &[u8]) -> bool {
    text.get(at..).is_some_and(|rest| rest.starts_with(bytes))
}

/// Behind a name.
#[inline(always)]
fn name(text: &[u8], at: usize) -> To {
    match text.get(at) {
        Some(&byte) if CLASS[usize::from(byte)] & START != 0 => Ok(run(text, at + 1, NAME)),
        _ => Err(NOT_A_SHEET),
    }
}

/// Behind a run of data.
#[inline(always)]
fn data(text: &[u8], from: usize) -> To {
    let mut at = from;
    loop {
        at = run(text, at, DATA);
        match text.get(at) {
            None | Some(b'<' | b'&') => return Ok(at),
            Some(b'>') if !text[from..at].ends_with(b"]]") => at += 1,
            _ => return Err(NOT_A_SHEET),
        }
    }
}

/// Behind one of the five references.
fn reference(text: &[u8], at: usize) -> To {
    match &text[at + 1..] {
        [b'l' | b'g', b't', b';', ..] => Ok(at + 4),
        [b'a', b'm', b'p', b';', ..] => Ok(at + 5),
        [b'a', b'p', b'o', b's', b';', ..] | [b'q', b'u', b'o', b't', b';', ..] => Ok(at + 6),
        _ => Err(NOT_A_SHEET),
    }
}

/// Behind a comment, from behind its `<!--`.
fn comment(text: &[u8], mut at: usize) -> To {
    loop {
        at = run(text, at, COMMENT);
        if !is(text, at, b'-') {
            return Err(NOT_A_SHEET);
        }
        at += 1;
        if is(text, at, b'-') {
            return if is(text, at + 1, b'>') { Ok(at + 2) } else { Err(NOT_A_SHEET) };
        }
    }
}

/// Behind a CDATA section, from behind its `<![CDATA[`.
fn section(text: &[u8], mut at: usize) -> To {
    loop {
        at = run(text, at, SECTION);
        if !is(text, at, b']') {
            return Err(NOT_A_SHEET);
        }
        at += 1;
        if follows(text, at, b"]>") {
            return Ok(at + 2);
        }
    }
}

/// Behind the `=` of an attribute and the spaces around it.
#[inline(always)]
fn equals(text: &[u8], at: usize) -> To {
    let at = run(text, at, SPACE);
    if is(text, at, b'=') { Ok(run(text, at + 1, SPACE)) } else { Err(NOT_A_SHEET) }
}

/// Behind a value.
#[inline(always)]
fn value(text: &[u8], at: usize) -> To {
    let (quote, class) = match text.get(at) {
        Some(b'"') => (b'"', DOUBLE),
        Some(b'\'') => (b'\'', SINGLE),
        _ => return Err(NOT_A_SHEET),
    };
    let mut at = at + 1;
    loop {
        at = run(text, at, class);
        match text.get(at) {
            Some(&byte) if byte == quote => return Ok(at + 1),
            Some(b'&') => at = reference(text, at)?,
            _ => return Err(NOT_A_SHEET),
        }
    }
}

/// So many names are kept at once.
const PLACES: usize = 1_024;

/// A name by its hash and where it begins and ends.
#[derive(Clone, Copy, Default)]
struct Name {
    hash: u32,
    begin: usize,
    end: usize,
}

impl Name {
    fn new(text: &[u8], begin: usize, end: usize) -> Name {
        let hash = text[begin..end].iter().fold(0u32, |hash, &byte| hash.wrapping_mul(31).wrapping_add(byte.into()));
        Name { hash, begin, end }
    }

    /// In order of hash, then of the name itself.
    fn order(&self, other: &Name, text: &[u8]) -> Ordering {
        self.hash.cmp(&other.hash).then_with(|| text[self.begin..self.end].cmp(&text[other.begin..other.end]))
    }
}

/// The name of the attribute after a place, and where the attribute ends: it has been read before.
fn named(text: &[u8], at: usize) -> (Name, usize) {
    let begin = run(text, at, SPACE);
    let end = run(text, begin, NAME);
    let quote = run(text, run(text, end, SPACE) + 1, SPACE);
    let close = text[quote + 1..].iter().position(|it| *it == text[quote]).expect("it has been read");
    (Name::new(text, begin, end), quote + close + 2)
}

/// Whether some names differ, which are brought into order.
fn arranged(text: &[u8], names: &mut [Name]) -> bool {
    names.sort_unstable_by(|one, other| one.order(other, text));
    names.windows(2).all(|pair| pair[0].order(&pair[1], text) != Ordering::Equal)
}

/// Whether the names of the attributes from one place to another differ: batch after batch, with all later names searched in it.
#[cold]
#[inline(never)]
fn differ(text: &[u8], mut at: usize, to: usize, places: &mut [Name; PLACES]) -> bool {
    while at < to {
        let mut count = 0;
        while count < PLACES && at < to {
            (places[count], at) = named(text, at);
            count += 1;
        }
        if !arranged(text, &mut places[..count]) {
            return false;
        }
        let mut later = at;
        while later < to {
            let (name, end) = named(text, later);
            if places[..count].binary_search_by(|it| it.order(&name, text)).is_ok() {
                return false;
            }
            later = end;
        }
    }
    true
}

/// The same where the names have been kept already, if there are places for them.
#[cold]
#[inline(never)]
fn kept_differ(text: &[u8], at: usize, to: usize, count: usize, places: &mut [Name; PLACES]) -> bool {
    let Some(kept) = places.get_mut(..count) else { return differ(text, at, to, places) };
    for name in kept.iter_mut() {
        *name = Name::new(text, name.begin, name.end);
    }
    arranged(text, kept)
}

/// Which of 64 places a name has in the filter.
fn place(name: &[u8]) -> u32 {
    let (first, last) = (u32::from(name[0]), u32::from(name[name.len() - 1]));
    (first * 7 + last + name.len() as u32 * 16) % 64
}

/// Behind a tag, from behind its name, and whether it is an empty element's. Where no two names share a place of the filter, all
/// differ.
#[inline(always)]
fn attributes<S: Sink>(text: &[u8], from: usize, places: &mut [Name; PLACES]) -> Result<(usize, bool), u32> {
    let (mut at, mut count, mut filter, mut shared) = (from, 0, 0u64, false);
    let (behind, empty) = loop {
        let begin = run(text, at, SPACE);
        match text.get(begin) {
            Some(b'>') => break (begin + 1, false),
            Some(b'/') if is(text, begin + 1, b'>') => break (begin + 2, true),
            _ if begin == at => return Err(NOT_A_SHEET),
            _ => {}
        }
        let end = name(text, begin)?;
        if S::LOOKS {
            let bit = 1 << place(&text[begin..end]);
            shared |= filter & bit != 0;
            filter |= bit;
            if let Some(kept) = places.get_mut(count) {
                (kept.begin, kept.end) = (begin, end);
            }
            count += 1;
        }
        at = value(text, equals(text, end)?)?;
    };
    if shared && !kept_differ(text, from, at, count, places) {
        return Err(NOT_A_SHEET);
    }
    Ok((behind, empty))
}

/// Behind an end tag of this name.
#[inline(always)]
fn end_tag(text: &[u8], at: usize, name: &[u8]) -> To {
    if !follows(text, at + 2, name) {
        return Err(NOT_A_SHEET);
    }
    // A longer name goes on with a byte that is neither a space nor the closer.
    let at = run(text, at + 2 + name.len(), SPACE);
    if is(text, at, b'>') { Ok(at + 1) } else { Err(NOT_A_SHEET) }
}

/// What begins with `<!`: behind it, and whether it is a part of a text.
fn marked(text: &[u8], at: usize) -> Result<(usize, bool), u32> {
    if follows(text, at, b"<!--") {
        return comment(text, at + 4).map(|at| (at, false));
    }
    if follows(text, at, b"<![CDATA[") {
        return section(text, at + 9).map(|at| (at, true));
    }
    Err(if follows(text, at, b"<!DOCTYPE") { NOT_READ } else { NOT_A_SHEET })
}

/// An element: behind its end, where `depth` elements are open around it.
fn element<S: Sink>(text: &[u8], at: usize, depth: usize, sink: &mut S, places: &mut [Name; PLACES]) -> To {
    let end = name(text, at + 1)?;
    let (behind, empty) = attributes::<S>(text, end, places)?;
    if depth == DEPTH {
        return Err(TOO_DEEP);
    }
    sink.push(1);
    if empty {
        sink.push(2);
        return Ok(behind);
    }
    content(text, behind, depth + 1, &text[at + 1..end], sink, places)
}

/// Content: behind the end tag of the innermost open element, which has this name, or at the end of the text.
fn content<S: Sink>(
    text: &[u8],
    mut at: usize,
    depth: usize,
    name: &[u8],
    sink: &mut S,
    places: &mut [Name; PLACES],
) -> To {
    let mut in_text = false;
    loop {
        let part = match text.get(at) {
            None if depth == 0 => return Ok(at),
            None => return Err(NOT_A_SHEET),
            Some(b'&') => {
                at = reference(text, at)?;
                true
            }
            Some(b'<') => match text.get(at + 1) {
                Some(b'/') if depth > 0 => {
                    at = end_tag(text, at, name)?;
                    sink.push(2);
                    return Ok(at);
                }
                Some(b'!') => {
                    let (behind, part) = marked(text, at)?;
                    at = behind;
                    part
                }
                Some(b'?') => return Err(NOT_READ),
                _ => {
                    at = element(text, at, depth, sink, places)?;
                    false
                }
            },
            Some(_) => {
                at = data(text, at)?;
                true
            }
        };
        if part && !in_text {
            sink.push(3);
        }
        in_text = part;
    }
}

pub fn xml_kinds(text: &[u8], kinds: &mut [u8]) -> (u32, usize) {
    let places = &mut [Name::default(); PLACES];
    let mut count = Count(0);
    if let Err(refusal) = content(text, 0, 0, &[], &mut count, places) {
        return (refusal, 0);
    }
    let Some(list) = kinds.get_mut(..count.0) else { return (SHORT_LIST, 0) };
    let again = content(text, 0, 0, &[], &mut List(list.iter_mut()), places);
    debug_assert!(again.is_ok(), "the first pass has said so");
    (0, count.0)
}
