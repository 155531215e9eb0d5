//! Kinds for loads: properly nested ones of many forms, spoiled ones, and the sizes at which something changes.

use draw::Rng;
pub use draw::{BEGIN, END, TEXT};

/// n properly nested kinds. The leaning is drawn once, so that flat, deep and text-only books all come.
pub fn nested(rng: &mut Rng, n: usize) -> Vec<u8> {
    let (begins, texts) = rng.pick(&[(0, 100), (50, 0), (90, 5), (30, 40), (60, 30), (20, 70)]);
    draw::nested(n, |open, may_begin| {
        if may_begin && rng.percent(begins) {
            BEGIN
        } else if open == 0 || rng.percent(texts) {
            TEXT
        } else {
            END
        }
    })
}

/// Kinds that a load must refuse, by kind or by nesting; now and then the spoiling leaves them right.
pub fn spoiled(rng: &mut Rng, n: usize) -> Vec<u8> {
    let mut kinds = nested(rng, n.max(1));
    let at = rng.below(kinds.len());
    match rng.below(4) {
        0 => kinds[at] = rng.pick(&[0, 4, 16, 17, 18, 19, 255]),
        1 => kinds[at] = rng.pick(&[BEGIN, END]),
        2 => kinds.reverse(),
        _ => kinds.insert(at, rng.pick(&[BEGIN, END])),
    }
    kinds
}

/// A number of tags for a load with these s and r: at and beside r^j, 2·r^j and s·r^j, or anything below the most.
pub fn size(rng: &mut Rng, s: u32, r: u32, most: usize) -> usize {
    let j = 1 + rng.below(4) as u32;
    let power = (r as usize).pow(j);
    let n = match rng.below(8) {
        0 => rng.below(4),
        1 => power,
        2 => 2 * power,
        3 => s as usize * power,
        4 => 3 * power / 2,
        5 => rng.below(30),
        _ => rng.below(most + 1),
    };
    let n = (n + rng.below(3)).saturating_sub(1);
    if n <= most { n } else { rng.below(most + 1) }
}
