//! Damaged files: from one file, many that are wrong in one way, by where things stand in the bytes.
//!
//! Some of the changes leave a file that is read. That is as wanted: the verdict is compared, not assumed.

use crate::damage::at;
use draw::Rng;
use reference::{NO_TAG, RECORD};

/// Bytes of a record but the last, and of what stands in it before its words.
const ROW: usize = 34;
const FRONT: usize = 6;

/// Words of a tag that a file keeps: all but its depth, the last.
const KEPT: usize = RECORD - 1;

/// Words of the header's record and of a tag's.
const COUNT: usize = 3;
const FIRST: usize = 4;
const NUMBER: usize = 0;
const NEXT: usize = 2;
const UP: usize = 5;

/// A record of this kind; its length is that of its words.
pub fn record(kind: u16, words: &[u32]) -> Vec<u8> {
    let length = 2 + 4 * words.len() as u32;
    let words = words.iter().flat_map(|word| word.to_le_bytes());
    length.to_le_bytes().into_iter().chain(kind.to_le_bytes()).chain(words).collect()
}

/// The records of a file that says these words, with the tags in this order, whether the words are sound or not.
pub fn records(words: &[u32], order: &[usize]) -> Vec<Vec<u8>> {
    let tag = |x: usize| record(2, &[&[x as u32], &words[at(x, 0)..][..KEPT]].concat());
    let tags = order.iter().map(|&x| tag(x));
    let last = record(3, &[order.len() as u32]);
    [record(1, &words[1..8])].into_iter().chain(tags).chain([last]).collect()
}

/// A word of a record, where a record stands by itself.
fn word(record: &[u8], k: usize) -> u32 {
    u32::from_le_bytes(record[FRONT + 4 * k..][..4].try_into().expect("four bytes"))
}

pub fn put(record: &mut [u8], k: usize, word: u32) {
    record[FRONT + 4 * k..][..4].copy_from_slice(&word.to_le_bytes());
}

/// The records with both counts as they should be.
pub fn counted(mut records: Vec<Vec<u8>>) -> Vec<Vec<u8>> {
    let n = records.len() as u32 - 2;
    put(&mut records[0], COUNT, n);
    put(&mut records[n as usize + 1], 0, n);
    records
}

/// Each byte changed to some others.
fn single_bytes(file: &[u8], out: &mut Vec<Vec<u8>>) {
    for i in 0..file.len() {
        let old = file[i];
        for value in
            [old ^ 1, old ^ 16, old ^ 128, old.wrapping_sub(1), 0, 2, 6, 255].into_iter().filter(|it| *it != old)
        {
            let mut damaged = file.to_vec();
            damaged[i] = value;
            out.push(damaged);
        }
    }
}

/// Every shorter file, and longer ones: by bytes, by a record, by a whole file.
fn lengths(file: &[u8], out: &mut Vec<Vec<u8>>) {
    out.extend((0..file.len()).map(|len| file[..len].to_vec()));
    for more in [&[0][..], &[255], &[0; 4], &[0; ROW], &file[..ROW], &file[file.len() - 10..], file] {
        out.push([file, more].concat());
        out.push([more, file].concat());
    }
}

/// The header's count, the last record's, and both, changed to each value that could matter.
fn counts(records: &[Vec<u8>], out: &mut Vec<Vec<u8>>) {
    let n = records.len() as u32 - 2;
    let near = [n.wrapping_sub(1), n + 1, n + 2, n ^ 256, n ^ 65_536, n ^ 1 << 24];
    // 44 + 34·n comes round past 2^32 for the first time between two of these, and with the last of them to the bytes that
    // are there.
    let far = [0, 1, 199_999, 200_000, 200_001, 126_322_566, 126_322_567, NO_TAG - 1, NO_TAG, n ^ 1 << 31];
    for value in near.into_iter().chain(far) {
        for (header, last) in [(true, false), (false, true), (true, true)] {
            let mut damaged = records.to_vec();
            if header {
                put(&mut damaged[0], COUNT, value);
            }
            if last {
                put(&mut damaged[n as usize + 1], 0, value);
            }
            out.push(damaged.concat());
        }
    }
}

/// Records exchanged, one in place of another, left out and put in twice, with counts that stay and counts that agree.
fn moved_records(records: &[Vec<u8>], out: &mut Vec<Vec<u8>>) {
    for i in 0..records.len() {
        for j in 0..records.len() {
            let mut exchanged = records.to_vec();
            exchanged.swap(i, j);
            let mut replaced = records.to_vec();
            replaced[i] = records[j].clone();
            let mut twice = records.to_vec();
            twice.insert(i, records[j].clone());
            out.extend([exchanged, replaced, twice].map(|it| it.concat()));
        }
        let mut without = records.to_vec();
        without.remove(i);
        out.push(without.concat());
    }
    for i in 1..records.len() - 1 {
        let (mut twice, mut without) = (records.to_vec(), records.to_vec());
        twice.insert(i, records[i].clone());
        without.remove(i);
        out.extend([twice, without].map(|it| counted(it).concat()));
    }
    let mut turned = records.to_vec();
    turned[1..records.len() - 1].reverse();
    out.push(turned.concat());
}

/// Each tag's number changed in its own record alone.
fn numbers(records: &[Vec<u8>], out: &mut Vec<Vec<u8>>) {
    let n = records.len() as u32 - 2;
    for i in 1..=n as usize {
        for number in (0..n + 2).chain([1 << 31, NO_TAG - 1, NO_TAG]) {
            let mut damaged = records.to_vec();
            put(&mut damaged[i], NUMBER, number);
            out.push(damaged.concat());
        }
    }
}

/// The file with tags renumbered wherever a tag is named.
fn renumbered(records: &[Vec<u8>], number: impl Fn(u32) -> u32) -> Vec<u8> {
    let mut records = records.to_vec();
    let (header, tags) = records.split_first_mut().expect("a header");
    let first = number(word(header, FIRST));
    put(header, FIRST, first);
    for tag in tags.iter_mut().filter(|it| it.len() == ROW) {
        for k in [NUMBER].into_iter().chain(NEXT..=UP) {
            let named = number(word(tag, k));
            put(tag, k, named);
        }
    }
    records.concat()
}

/// A tag takes another's number wherever it is named, so that only one thing is wrong: a number comes twice, is none's, or,
/// where the two exchange their numbers, nothing.
fn other_numbers(records: &[Vec<u8>], out: &mut Vec<Vec<u8>>) {
    let n = records.len() as u32 - 2;
    for tag in 0..n {
        for other in (0..n + 1).chain([1 << 31, NO_TAG - 1, NO_TAG]).filter(|it| *it != tag) {
            out.push(renumbered(records, |it| if it == tag { other } else { it }));
            out.push(renumbered(records, |it| match it {
                _ if it == tag => other,
                _ if it == other => tag,
                _ => it,
            }));
        }
    }
}

/// Two to four changes at once: a word that stands elsewhere in the file, or two records exchanged.
fn several(records: &[Vec<u8>], rng: &mut Rng, out: &mut Vec<Vec<u8>>) {
    let words = |record: &[u8]| (record.len() - FRONT) / 4;
    for _ in 0..100 {
        let mut damaged = records.to_vec();
        for _ in 0..rng.between(2, 4) {
            let (to, from) = (rng.below(damaged.len()), rng.below(damaged.len()));
            if rng.percent(30) {
                damaged.swap(to, from);
            } else {
                let value = word(&damaged[from], rng.below(words(&damaged[from])));
                let k = rng.below(words(&damaged[to]));
                put(&mut damaged[to], k, value);
            }
        }
        out.push(damaged.concat());
    }
}

/// All the damage to one file, given by its records. Of most of it there is the more, the more records there are, and so
/// there should be few for those.
pub fn variants(records: &[Vec<u8>], rng: &mut Rng) -> Vec<Vec<u8>> {
    let file = records.concat();
    let mut out = vec![file.clone()];
    if records.len() <= 11 {
        single_bytes(&file, &mut out);
        moved_records(records, &mut out);
        numbers(records, &mut out);
        other_numbers(records, &mut out);
    }
    lengths(&file, &mut out);
    counts(records, &mut out);
    several(records, rng, &mut out);
    out
}
