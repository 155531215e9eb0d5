//! Damaged stores: from one small sound store, many that are wrong in one way, and calls that must tell.
//!
//! Some of the changes leave a store sound. That is as wanted: the verdict is compared, not assumed.

use crate::call::Call;
use crate::kinds::{BEGIN, END, TEXT};
use crate::session::{Failure, Session, Tally};
use crate::subject::Subject;
use draw::Rng;
use reference::{HEADER, NO_TAG, RECORD};
use std::collections::BTreeSet;

pub(crate) const LABEL: usize = 0;
pub(crate) const NEXT: usize = 1;
const PRIOR: usize = 2;
pub(crate) const MATE: usize = 3;
pub(crate) const UP: usize = 4;
pub(crate) const KIND: usize = 5;
pub(crate) const DEPTH: usize = 6;

pub(crate) fn at(tag: usize, field: usize) -> usize {
    HEADER + RECORD * tag + field
}

pub(crate) fn tags(words: &[u32]) -> usize {
    words[4] as usize
}

/// The tags of a sound store in book order.
pub(crate) fn order(words: &[u32]) -> Vec<usize> {
    let mut order = Vec::new();
    let mut here = words[5];
    while here != NO_TAG {
        order.push(here as usize);
        here = words[at(here as usize, NEXT)];
    }
    order
}

/// Writes first, next and prior so that the book runs in this order.
fn link(words: &mut [u32], order: &[usize]) {
    let tag = |i: Option<usize>| i.and_then(|i| order.get(i)).map_or(NO_TAG, |&tag| tag as u32);
    words[5] = tag(Some(0));
    for (i, &x) in order.iter().enumerate() {
        words[at(x, NEXT)] = tag(Some(i + 1));
        words[at(x, PRIOR)] = tag(i.checked_sub(1));
    }
}

/// The words with depths as the kinds along their next nest, so that what else is wrong with them is not told by depth. Next is
/// followed as far as there are records for it; an end that closes nothing gets 0.
fn deepened(words: &[u32]) -> Vec<u32> {
    let mut words = words.to_vec();
    let records = words.len().saturating_sub(HEADER) / RECORD;
    let mut here = words.get(5).map_or(records, |first| *first as usize);
    let mut open = 0u32;
    for _ in 0..records {
        if here >= records {
            break;
        }
        let kind = words[at(here, KIND)] & 15;
        open = open.saturating_sub(u32::from(kind == u32::from(END)));
        words[at(here, DEPTH)] = open;
        open += u32::from(kind == u32::from(BEGIN));
        here = words[at(here, NEXT)] as usize;
    }
    words
}

/// Each depth one more and one less, 0, as high as a word goes, and as those of the tags before and after it.
fn depths(words: &[u32], out: &mut Vec<Vec<u32>>) {
    for x in 0..tags(words) {
        let depth = words[at(x, DEPTH)];
        let beside = |field: usize| words.get(at(words[at(x, field)] as usize, DEPTH)).copied().unwrap_or(NO_TAG);
        let others = [depth + 1, depth.wrapping_sub(1), 0, NO_TAG, beside(NEXT), beside(PRIOR)];
        for other in others.into_iter().filter(|other| *other != depth) {
            let mut damaged = words.to_vec();
            damaged[at(x, DEPTH)] = other;
            out.push(damaged);
        }
    }
}

/// One word changed to each value that could matter.
fn single_words(words: &[u32], out: &mut Vec<Vec<u32>>) {
    let n = words[4];
    let base = words[1].wrapping_mul(words[2]).wrapping_sub(1);
    let mut values: Vec<u32> = (0..=n + 2).chain(14..=20).collect();
    values.extend((1..6).map(|j| base.wrapping_pow(j)));
    values.extend([31, 32, 255, 256, 257, 199_999, 200_000, 200_001, 1 << 31, (1 << 31) - 1, NO_TAG, NO_TAG - 1]);
    // 8 + 7·n comes round past 2^32 between the first two and past 2^31 between the others.
    values.extend([613_566_755, 613_566_756, 306_783_377, 306_783_378]);
    values.extend((0..n as usize).map(|tag| words[at(tag, LABEL)]));
    for i in 0..words.len() {
        let near = [words[i].wrapping_sub(1), words[i].wrapping_add(1), words[i] ^ 16, words[i].wrapping_add(base)];
        for &value in values.iter().chain(&near).filter(|value| **value != words[i]) {
            let mut damaged = words.to_vec();
            damaged[i] = value;
            out.push(damaged);
        }
    }
}

/// One field of two tags swapped: nexts, priors, labels, mates, ups, kinds, depths.
fn swapped_fields(words: &[u32], out: &mut Vec<Vec<u32>>) {
    for field in 0..RECORD {
        for x in 0..tags(words) {
            for y in 0..x {
                let mut damaged = words.to_vec();
                damaged.swap(at(x, field), at(y, field));
                out.push(damaged);
            }
        }
    }
}

/// The book runs in another order with proper next and prior: labels go along with the tags or with the places.
fn other_orders(words: &[u32], out: &mut Vec<Vec<u32>>) {
    let order = order(words);
    for i in 0..order.len() {
        for j in 0..i {
            let mut swapped = order.clone();
            swapped.swap(i, j);
            let mut damaged = words.to_vec();
            link(&mut damaged, &swapped);
            out.push(damaged.clone());
            damaged.swap(at(order[i], LABEL), at(order[j], LABEL));
            out.push(damaged);
        }
    }
}

/// The chain runs in a circle, or past a tag, or ends early; prior goes along or not.
fn cycles(words: &[u32], out: &mut Vec<Vec<u32>>) {
    let order = order(words);
    for i in 0..order.len() {
        for j in 0..order.len() {
            let mut damaged = words.to_vec();
            damaged[at(order[i], NEXT)] = order[j] as u32;
            out.push(damaged.clone());
            damaged[at(order[j], PRIOR)] = order[i] as u32;
            out.push(damaged);
        }
        let mut without = order.clone();
        without.remove(i);
        let mut damaged = words.to_vec();
        link(&mut damaged, &without);
        out.push(damaged);
        let mut ended = words.to_vec();
        link(&mut ended, &order[..i]);
        out.push(ended);
    }
}

/// Two elements exchange their ends, with mates that agree.
fn crossed_mates(words: &[u32], out: &mut Vec<Vec<u32>>) {
    let begins: Vec<usize> = (0..tags(words)).filter(|&x| words[at(x, KIND)] & 15 == 1).collect();
    for &x in &begins {
        for &y in begins.iter().filter(|y| **y < x) {
            let (end_x, end_y) = (words[at(x, MATE)], words[at(y, MATE)]);
            let mut damaged = words.to_vec();
            (damaged[at(x, MATE)], damaged[at(y, MATE)]) = (end_y, end_x);
            damaged[at(end_x as usize, MATE)] = y as u32;
            damaged[at(end_y as usize, MATE)] = x as u32;
            out.push(damaged);
        }
    }
}

/// Marks on all sets of tags, closed downward or not.
fn marks(words: &[u32], rng: &mut Rng, out: &mut Vec<Vec<u32>>) {
    let n = tags(words);
    let sets: Vec<u64> =
        if n <= 6 { (0..1 << n).collect() } else { (0..64).map(|_| rng.draw() & rng.draw()).collect() };
    for set in sets {
        let mut damaged = words.to_vec();
        for x in 0..n {
            damaged[at(x, KIND)] = (words[at(x, KIND)] & 15) + if set >> (x % 64) & 1 == 1 { 16 } else { 0 };
        }
        out.push(damaged);
    }
}

/// Labels that rise and spell a tree, but of nodes with any number of children: thin, overfull, or by chance right.
fn trees(words: &[u32], rng: &mut Rng, out: &mut Vec<Vec<u32>>) {
    let order = order(words);
    let base = u64::from(words[1] * words[2] - 1);
    for _ in 0..60 {
        let top = if base.pow(words[3] + 1) <= 1 << 32 { words[3] + 1 } else { words[3] };
        let height = if rng.percent(60) { words[3] } else { rng.between(1, u64::from(top)) as u32 };
        let gaps = if rng.percent(30) { 5 } else { 0 };
        let climb = rng.pick(&[10, 30, 60]);
        let mut label = 0u64;
        let mut damaged = words.to_vec();
        damaged[3] = height;
        for &x in &order {
            damaged[at(x, LABEL)] = label as u32;
            // On to the next child of the node, or of one higher up; the digits below start again at 0.
            let mut j = 0;
            while j + 1 < height && rng.percent(climb) {
                j += 1;
            }
            let step = base.pow(j);
            label = label / step * step + step + if rng.percent(gaps) { step } else { 0 };
        }
        out.push(damaged);
    }
}

/// Headers whose words are each in range but do not belong together, and ones past all ranges.
fn headers(words: &[u32], rng: &mut Rng, out: &mut Vec<Vec<u32>>) {
    let n = words[4];
    for _ in 0..120 {
        let mut damaged = words.to_vec();
        for _ in 0..rng.between(1, 3) {
            match rng.below(5) {
                0 => damaged[1] = rng.between(1, 17) as u32,
                1 => damaged[2] = rng.between(1, 17) as u32,
                2 => damaged[3] = rng.pick(&[0, 1, 2, 3, 4, 5, 6, 7, 20, 21, 32, 33, 64, 1 << 31, NO_TAG]),
                3 => damaged[4] = rng.pick(&[0, n.wrapping_sub(1), n + 1, 200_001, 613_566_756, 1 << 31, NO_TAG]),
                _ => damaged[5] = rng.pick(&[0, n, n.wrapping_sub(1), NO_TAG]),
            }
        }
        out.push(damaged);
    }
}

/// Every shorter slice, and two longer ones.
fn lengths(words: &[u32], out: &mut Vec<Vec<u32>>) {
    out.extend((0..words.len()).map(|len| words[..len].to_vec()));
    out.push([words, &[0]].concat());
    out.push([words, &[NO_TAG; RECORD]].concat());
}

/// Two to four words changed at once, to values that stand elsewhere in the store.
fn several(words: &[u32], rng: &mut Rng, out: &mut Vec<Vec<u32>>) {
    for _ in 0..200 {
        let mut damaged = words.to_vec();
        for _ in 0..rng.between(2, 4) {
            let (to, from) = (rng.below(words.len()), rng.below(words.len()));
            damaged[to] = words[from];
        }
        out.push(damaged);
    }
}

/// All the damage to one sound store. Words of single changes grow with the store, so it should be small for those.
pub fn variants(words: &[u32], rng: &mut Rng) -> Vec<Vec<u32>> {
    let mut out = vec![words.to_vec()];
    if tags(words) <= 9 {
        single_words(words, &mut out);
        swapped_fields(words, &mut out);
        other_orders(words, &mut out);
        cycles(words, &mut out);
    }
    crossed_mates(words, &mut out);
    marks(words, rng, &mut out);
    trees(words, rng, &mut out);
    headers(words, rng, &mut out);
    lengths(words, &mut out);
    several(words, rng, &mut out);
    // What has changed kinds or order, once more with the depths that go with them.
    let met: BTreeSet<&[u32]> = out.iter().map(|it| &it[..]).collect();
    let mut more: Vec<Vec<u32>> = out.iter().map(|it| deepened(it)).filter(|it| !met.contains(&it[..])).collect();
    out.append(&mut more);
    depths(words, &mut out);
    out
}

/// One of each call, chosen so that a sound store would accept most of them.
fn probes(sound: &[u32], rng: &mut Rng) -> Vec<Call> {
    let n = tags(sound);
    let tag = rng.below(n) as u32;
    let d = rng.below(n) as u32;
    let record = |tag: u32, field: usize| sound.get(at(tag as usize, field)).copied().unwrap_or(0);
    let (start, mate) = (record(tag, LABEL), record(tag, MATE));
    let end = record(if (mate as usize) < n { mate } else { 0 }, LABEL);
    let book = sound[6];
    vec![
        Call::Insert { kind: TEXT, place: NO_TAG },
        Call::Insert { kind: BEGIN, place: tag },
        Call::Insert { kind: END, place: tag },
        Call::InsertSheet { kinds: vec![BEGIN, END], place: tag },
        Call::Mark { tag },
        Call::Hold { tag },
        Call::Question { book, tag, start, end, d },
        Call::Question { book: !book, tag, start, end, d },
        Call::List { begin: NO_TAG, tags: n + 2, labels: n + 2 },
        Call::List { begin: tag, tags: 1, labels: 0 },
        Call::Load { s: 2, r: 3, book, kinds: vec![BEGIN, END] },
    ]
}

/// Makes every call on every damaged form of the store.
pub fn damage(subject: &dyn Subject, tally: &mut Tally, rng: &mut Rng, sound: &[u32]) -> Result<(), Failure> {
    let probes = probes(sound, rng);
    // Room past the last tag, so that an insertion that is let through has where to go.
    let room = rng.pick(&[0, RECORD, 2 * RECORD]);
    for mut words in variants(sound, rng) {
        if words.len() == sound.len() {
            words.resize(sound.len() + room, 0);
        }
        for call in &probes {
            Session::new(subject, tally, words.clone()).step(call.clone())?;
        }
    }
    Ok(())
}

/// Makes a few calls on a store with a flaw in its tree, which all must refuse.
pub fn flawed(subject: &dyn Subject, tally: &mut Tally, rng: &mut Rng, words: &[u32]) -> Result<(), Failure> {
    let n = tags(words);
    let mut start = words.to_vec();
    start.resize(words.len() + 2 * RECORD, 0);
    let tag = rng.below(n) as u32;
    for call in
        [Call::Insert { kind: TEXT, place: tag }, Call::Hold { tag }, Call::List { begin: NO_TAG, tags: n, labels: n }]
    {
        Session::new(subject, tally, start.clone()).step(call)?;
    }
    Ok(())
}
