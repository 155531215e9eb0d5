//! Sound stores of random shape, written without any history: nodes thin and nearly full, tags in any number order,
//! marks and stamps that no short history gives. Every sound store must be served, however it came to be.

use crate::kinds::{self, BEGIN, END};
use draw::Rng;
use reference::{HEADER, NO_TAG, RECORD};

/// Splits l leaves into at most so many children of `least` to `most` leaves each. There must be a way to.
pub(crate) fn parts(rng: &mut Rng, l: u64, children: u64, least: u64, most: u64) -> Vec<u64> {
    let (few, many) = (l.div_ceil(most), children.min(l / least));
    let count = match rng.below(4) {
        0 => few,
        1 => many,
        _ => rng.between(few, many),
    };
    let (room, mut extra) = (most - least, l - count * least);
    (0..count)
        .map(|i| {
            // What the children after this one cannot take, it must.
            let (low, high) = (extra.saturating_sub(room * (count - 1 - i)), room.min(extra));
            let mine = match rng.below(3) {
                0 => low,
                1 => high,
                _ => rng.between(low, high),
            };
            extra -= mine;
            least + mine
        })
        .collect()
}

fn number(rng: &mut Rng, s: u64, r: u64, height: u32, l: u64, value: u64, labels: &mut Vec<u64>) {
    if height == 1 {
        labels.extend((0..l).map(|i| value + i));
        return;
    }
    let (least, base) = (r.pow(height - 1), s * r - 1);
    let step = base.pow(height - 1);
    for (i, l) in parts(rng, l, base, least, s * least - 1).into_iter().enumerate() {
        number(rng, s, r, height - 1, l, value + i as u64 * step, labels);
    }
}

/// Labels, in book order, of a sound tree with this height and number of leaves. The number must be one that the root
/// may have: below s·r^H, and at least 2·r^(H-1) where H is 2 or more.
pub fn labels(rng: &mut Rng, s: u32, r: u32, height: u32, n: usize) -> Vec<u32> {
    let mut labels = Vec::with_capacity(n);
    number(rng, u64::from(s), u64::from(r), height, n as u64, 0, &mut labels);
    labels.into_iter().map(|label| label as u32).collect()
}

/// The numbers of leaves that a root of this height may have.
pub fn leaves(s: u32, r: u32, height: u32) -> (usize, usize) {
    let power = |j| (r as usize).pow(j);
    let least = if height == 1 { 0 } else { 2 * power(height - 1) };
    (least, s as usize * power(height) - 1)
}

/// The greatest height with b^H ≤ 2^32.
pub fn top(s: u32, r: u32) -> u32 {
    let base = u64::from(s * r - 1);
    (1..).take_while(|&height| base.pow(height) <= 1 << 32).last().expect("255 is below 2^32")
}

/// Position of each tag's mate, position of the begin around it, and how many are around it, for properly nested kinds.
fn nesting(kinds: &[u8]) -> (Vec<usize>, Vec<Option<usize>>, Vec<u32>) {
    let mut mates: Vec<usize> = (0..kinds.len()).collect();
    let (mut ups, mut depths) = (Vec::new(), Vec::new());
    let mut open = Vec::new();
    for (i, &kind) in kinds.iter().enumerate() {
        if kind == END {
            let begin: usize = open.pop().expect("properly nested");
            (mates[begin], mates[i]) = (i, begin);
        }
        ups.push(open.last().copied());
        depths.push(open.len() as u32);
        if kind == BEGIN {
            open.push(i);
        }
    }
    (mates, ups, depths)
}

/// A sound store over the labels, with nothing past its last tag.
pub fn store(rng: &mut Rng, s: u32, r: u32, height: u32, labels: &[u32]) -> Vec<u32> {
    let n = labels.len();
    let kinds = kinds::nested(rng, n);
    let (mates, ups, depths) = nesting(&kinds);
    let mut tags: Vec<u32> = (0..n as u32).collect();
    if rng.percent(70) {
        rng.shuffle(&mut tags);
    }
    let mut marked = vec![false; n];
    for _ in 0..rng.pick(&[0, 0, 1, 3, n / 3]) {
        let i = rng.below(n);
        if i < n && kinds[i] != END {
            marked[i..=mates[i]].fill(true);
        }
    }
    let bound = n + marked.iter().filter(|it| **it).count();
    let some = rng.below(bound + 1);
    let stamp = rng.pick(&[0, bound, some]) as u32;
    let tag = |at: Option<usize>| at.and_then(|at| tags.get(at)).copied().unwrap_or(NO_TAG);

    let mut words = vec![1, s, r, height, n as u32, tag(Some(0)), rng.word(), stamp];
    words.resize(HEADER + RECORD * n, 0);
    for i in 0..n {
        let kind = u32::from(kinds[i]) + if marked[i] { 16 } else { 0 };
        let record = [labels[i], tag(Some(i + 1)), tag(i.checked_sub(1)), tags[mates[i]], tag(ups[i]), kind, depths[i]];
        words[HEADER + RECORD * tags[i] as usize..][..RECORD].copy_from_slice(&record);
    }
    words
}

/// A sound store of at most so many tags, often at the least or the most that its height allows.
pub fn any(rng: &mut Rng, s: u32, r: u32, most: usize) -> Vec<u32> {
    let heights: Vec<u32> = (1..=top(s, r)).filter(|&height| leaves(s, r, height).0 <= most).collect();
    let height = rng.pick(&heights);
    let (low, high) = leaves(s, r, height);
    let high = high.min(most);
    let some = rng.between(low as u64, high as u64) as usize;
    let n = rng.pick(&[low, high, high.saturating_sub(1).max(low), some, some]);
    let labels = labels(rng, s, r, height, n);
    store(rng, s, r, height, &labels)
}
