//! Constructs: what a sheet is cut into, from the left. Numbers in brackets are those of the standard's productions.

use crate::fault::{Fault, Slip};
use crate::reply::Refusal;
use std::collections::BTreeSet;

#[derive(Clone, Copy, PartialEq, Eq, Debug)]
pub enum Construct<'a> {
    /// A part of a text, with its bytes: data [14], a reference [68] or a CDATA section [18].
    Part(&'a [u8]),
    /// [15]
    Comment,
    /// A start tag [40], with its name.
    Start(&'a [u8]),
    /// An empty-element tag [44].
    Empty,
    /// An end tag [42], with its name.
    End(&'a [u8]),
}

/// What was cut off a text, and what stands behind it; None where the text does not begin with such a thing.
type Cut<'a, T> = Option<(T, &'a [u8])>;

const REFERENCES: [&[u8]; 5] = [b"&lt;", b"&gt;", b"&amp;", b"&apos;", b"&quot;"];

/// The construct that a text begins with, which is not empty, and what stands behind it.
pub fn cut(text: &[u8], fault: Fault) -> Result<(Construct<'_>, &[u8]), Refusal> {
    if begins_what_is_not_read(text, fault) {
        return Err(Refusal::NotRead);
    }
    match shape(text, fault) {
        Some((construct, rest)) if text[..text.len() - rest.len()].iter().all(|&it| allowed(it, fault)) => {
            Ok((construct, rest))
        }
        _ if fault.misreads(Slip::InstructionAnywhere) && find(text, b"<?").is_some() => Err(Refusal::NotRead),
        _ => Err(Refusal::NotASheet),
    }
}

/// A processing instruction [16] or a document type declaration [28], by its first bytes.
fn begins_what_is_not_read(text: &[u8], fault: Fault) -> bool {
    let doctype = text.strip_prefix(b"<!DOCTYPE");
    text.starts_with(b"<?") || doctype.is_some_and(|rest| !fault.misreads(Slip::DoctypeWhole) || skip(rest) != rest)
}

/// [2], cut down to one byte a character.
fn allowed(byte: u8, fault: Fault) -> bool {
    is_space(byte) || (32..128).contains(&byte) || byte >= 128 && fault.misreads(Slip::HighBytes)
}

/// The construct by its shape: which bytes it holds is not looked at yet.
fn shape(text: &[u8], fault: Fault) -> Cut<'_, Construct<'_>> {
    if let Some(rest) = text.strip_prefix(b"<!--") {
        return comment(rest, fault);
    }
    if let Some(rest) = text.strip_prefix(b"<![CDATA[") {
        // [18] to [21]: all up to the first closer.
        let close = find(rest, b"]]>")? + 3;
        return Some((Construct::Part(&text[..9 + close]), &rest[close..]));
    }
    if let Some(rest) = text.strip_prefix(b"</") {
        // [42]
        let (name, rest) = name(rest)?;
        return Some((Construct::End(name), skip(rest).strip_prefix(b">")?));
    }
    match text.first()? {
        b'<' => opening(&text[1..], fault),
        b'&' => reference(text, fault).map(|rest| (Construct::Part(&text[..text.len() - rest.len()]), rest)),
        _ => data(text, fault),
    }
}

/// [15] behind its `<!--`: the first two hyphens must be those that close it.
fn comment(text: &[u8], fault: Fault) -> Cut<'_, Construct<'_>> {
    let close: &[u8] = if fault.misreads(Slip::DashesInComments) { b"-->" } else { b"--" };
    let rest = text[find(text, close)?..].strip_prefix(b"-->")?;
    Some((Construct::Comment, rest))
}

/// [14]
fn data(text: &[u8], fault: Fault) -> Cut<'_, Construct<'_>> {
    let end = text.iter().position(|it| b"<&".contains(it)).unwrap_or(text.len());
    let (data, rest) = text.split_at(end);
    let right = find(data, b"]]>").is_none() || fault.misreads(Slip::CloserInData);
    right.then_some((Construct::Part(data), rest))
}

/// [67] and [68], cut down to the five that need no declaration: what stands behind it.
fn reference(text: &[u8], fault: Fault) -> Option<&[u8]> {
    if fault.misreads(Slip::NumberedReferences) && text.starts_with(b"&#") {
        let end = text[2..].iter().position(|it| !it.is_ascii_digit())?;
        return text[2 + end..].strip_prefix(b";").filter(|_| end > 0);
    }
    REFERENCES.iter().find_map(|it| text.strip_prefix(*it))
}

/// [40] and [44] behind their `<`: a name, then attributes with space before each, none of them twice.
fn opening(text: &[u8], fault: Fault) -> Cut<'_, Construct<'_>> {
    let (tag, mut text) = name(text)?;
    let mut names = BTreeSet::new();
    loop {
        let rest = skip(text);
        if let Some(rest) = rest.strip_prefix(b">") {
            return Some((Construct::Start(tag), rest));
        }
        if let Some(rest) = rest.strip_prefix(b"/>") {
            return Some((Construct::Empty, rest));
        }
        if rest == text && !fault.misreads(Slip::AttributesTogether) {
            return None;
        }
        let (name, rest) = attribute(rest, fault)?;
        if !names.insert(name) && !fault.misreads(Slip::AttributesRepeated) {
            return None;
        }
        text = rest;
    }
}

/// [41]: the name of an attribute.
fn attribute(text: &[u8], fault: Fault) -> Cut<'_, &[u8]> {
    let (name, rest) = name(text)?;
    let rest = skip(skip(rest).strip_prefix(b"=")?);
    // [10]
    let quote = rest.first().filter(|it| b"\"'".contains(it))?;
    let rest = &rest[1..];
    let end = rest.iter().position(|it| it == quote)?;
    is_value(&rest[..end], fault).then_some((name, &rest[end + 1..]))
}

/// [10] between its quotes.
fn is_value(value: &[u8], fault: Fault) -> bool {
    if value.contains(&b'<') && !fault.misreads(Slip::LessInValues) {
        return false;
    }
    // Every `&` must begin a reference.
    (0..value.len()).all(|at| value[at] != b'&' || reference(&value[at..], fault).is_some())
}

/// [5]
fn name(text: &[u8]) -> Cut<'_, &[u8]> {
    let end = text.iter().position(|&it| !is_name_byte(it)).unwrap_or(text.len());
    text.first().filter(|&&it| is_name_start(it))?;
    Some(text.split_at(end))
}

/// [4], cut down.
fn is_name_start(byte: u8) -> bool {
    byte.is_ascii_alphabetic() || byte == b':' || byte == b'_'
}

/// [4a], cut down.
fn is_name_byte(byte: u8) -> bool {
    is_name_start(byte) || byte.is_ascii_digit() || byte == b'-' || byte == b'.'
}

/// [3]
fn is_space(byte: u8) -> bool {
    b" \t\r\n".contains(&byte)
}

/// The text without the spaces that it begins with.
fn skip(text: &[u8]) -> &[u8] {
    let end = text.iter().position(|&it| !is_space(it)).unwrap_or(text.len());
    &text[end..]
}

/// Where these bytes stand first.
fn find(text: &[u8], bytes: &[u8]) -> Option<usize> {
    text.windows(bytes.len()).position(|it| it == bytes)
}
