//! A book as a file, and back: records of a length, a kind and words, all little-endian. Depths are not in it.

use super::read::store_refused;
use super::refused;
use super::shape::{HEIGHTS, Shape};
use super::sound::{Levels, NO_LABEL, PAIRS, shape_of};
use crate::words::*;
use std::hint::select_unpredictable;

/// What a record begins with, its length and its kind: the header's, a tag's, the last.
const HEADER_FRONT: [u8; FRONT] = [30, 0, 0, 0, 1, 0];
const TAG_FRONT: [u8; FRONT] = [30, 0, 0, 0, 2, 0];
const LAST_FRONT: [u8; FRONT] = [6, 0, 0, 0, 3, 0];
const FRONT: usize = 6;

/// Every record but the last has seven words: those of the header but the first, or a tag's number and its
/// words but the last.
type Row = [u8; ROW];
type Words = [u32; 7];
const ROW: usize = FRONT + 4 * 7;
const LAST: usize = FRONT + 4;

/// Bytes for so many tags.
pub fn bytes_for(tags: usize) -> usize {
    ROW + ROW * tags + LAST
}

fn row(front: [u8; FRONT], words: Words) -> Row {
    let mut row = [0; ROW];
    row[..FRONT].copy_from_slice(&front);
    let (places, _) = row[FRONT..].as_chunks_mut();
    places.iter_mut().zip(words).for_each(|(to, word)| *to = word.to_le_bytes());
    row
}

fn words_of(row: &Row) -> Words {
    let (words, _) = row[FRONT..].as_chunks();
    std::array::from_fn(|k| u32::from_le_bytes(words[k]))
}

pub fn write(words: &[u32], bytes: &mut [u8]) -> [u32; 2] {
    let refusal = store_refused(words);
    if refusal != 0 {
        return refused(refusal);
    }
    let n = words[COUNT];
    let Some(file) = bytes.get_mut(..bytes_for(n as usize)) else { return refused(16) };
    let (head, rest) = file.split_at_mut(ROW);
    let (tags, last) = rest.as_chunks_mut::<ROW>();
    head.copy_from_slice(&row(HEADER_FRONT, std::array::from_fn(|k| words[1 + k])));
    let (records, _) = words[HEADER..].as_chunks::<RECORD>();
    let mut x = words[FIRST];
    for to in tags {
        let [label, next, prior, mate, up, kind, _] = records[x as usize];
        *to = row(TAG_FRONT, [x, label, next, prior, mate, up, kind]);
        x = next;
    }
    last[..FRONT].copy_from_slice(&LAST_FRONT);
    last[FRONT..].copy_from_slice(&n.to_le_bytes());
    [0, bytes_for(n as usize) as u32]
}

/// The words of the header and the tags' records; None where the bytes are not of the form.
fn form(bytes: &[u8]) -> Option<(Words, &[Row])> {
    let (head, rest) = bytes.split_first_chunk::<ROW>()?;
    let (tags, last) = rest.as_chunks::<ROW>();
    let header = words_of(head);
    let (front, count) = last.split_first_chunk::<FRONT>()?;
    let counted = header[3] as usize == tags.len() && count == header[3].to_le_bytes();
    let fronts = head.starts_with(&HEADER_FRONT) && *front == LAST_FRONT;
    let formed = counted && fronts && tags.iter().all(|tag| tag.starts_with(&TAG_FRONT));
    formed.then_some((header, tags))
}

/// Marks the number; None where it has been marked before.
fn meet(met: &mut [u64], number: u32) -> Option<()> {
    let (at, bit) = (number as usize / 64, 1 << (number % 64));
    let fresh = met[at] & bit == 0;
    met[at] |= bit;
    fresh.then_some(())
}

/// The walk along the records, as that along next: each must be the tag that the one before it names. None where the file
/// says no sound store.
fn pass(header: Words, tags: &[Row], shape: &Shape) -> Option<()> {
    let [_, _, height, n, first, _, stamp] = header;
    let mut levels = Levels::new(shape, height as usize, [0; HEIGHTS]);
    let mut met = vec![0u64; tags.len().div_ceil(64)];
    // The places of the open begins. Each tag's is written behind the last of them, and stays where the tag is a begin.
    let mut open = vec![0u32; tags.len()];
    let mut depth = 0;
    let (mut x, mut before, mut parent) = (first, NO_TAG, NO_TAG);
    let (mut expect, mut marks) = (0, 0);
    for (place, tag) in (0..n).zip(tags) {
        let [number, label, next, prior, mate, up, kind] = words_of(tag);
        if number != x || n <= x || prior != before || 32 <= kind {
            return None;
        }
        meet(&mut met, x)?;
        let label = u64::from(label);
        if label != expect {
            levels.settle(label, place)?;
        }
        // As in the walk, nothing branches on the kind. The innermost open begin, or the tag beside itself.
        let beside = if depth > 0 { &tags[open[depth - 1] as usize] } else { tag };
        let [.., its_mate, its_up, its_kind] = words_of(beside);
        if PAIRS[kind as usize] >> (its_kind & 31) & 1 == 0 {
            return None;
        }
        let (odd, high) = (kind & 1, kind >> 1 & 1);
        let is_end = odd == 0;
        // A begin's and a text's up, an end's mate; an end has the up of its begin.
        if select_unpredictable(is_end, mate, up) != parent || select_unpredictable(is_end, its_up, up) != up {
            return None;
        }
        // The mate of a text and of an end's begin; a begin's is looked at with its end.
        let named = select_unpredictable(is_end, its_mate, mate);
        if select_unpredictable(high == 0, x, named) != x {
            return None;
        }
        marks += kind >> 4;
        parent = select_unpredictable(high == 0, x, up);
        open[depth] = place;
        depth = depth + (1 - high as usize) - (1 - odd as usize);
        expect = if label + 1 < levels.ends[1] { label + 1 } else { NO_LABEL };
        (before, x) = (x, next);
    }
    (1..height as usize).try_for_each(|h| levels.close(h, n))?;
    (x == NO_TAG && depth == 0 && stamp <= n + marks).then_some(())
}

pub fn read(bytes: &[u8], words: &mut [u32]) -> [u32; 3] {
    let Some((header, tags)) = form(bytes) else { return refused(15) };
    if words.len() < words_for(tags.len()) {
        return refused(1);
    }
    let [s, r, height, n, ..] = header;
    let sound = shape_of(s, r, height, n).and_then(|shape| pass(header, tags, &shape));
    if sound.is_none() {
        return refused(2);
    }
    words[0] = 1;
    words[1..HEADER].copy_from_slice(&header);
    let (records, _) = words[HEADER..].as_chunks_mut::<RECORD>();
    let mut depth = 0;
    for tag in tags {
        let [number, label, next, prior, mate, up, kind] = words_of(tag);
        // The kinds have been judged: bit 0 is off for an end alone, bit 1 for a begin alone.
        depth -= 1 - (kind & 1);
        records[number as usize] = [label, next, prior, mate, up, kind, depth];
        depth += 1 - (kind >> 1 & 1);
    }
    [0, n, height]
}
