//! What a walk tests of each tag by its kind, with a branch on the kind and without: the choice is judged by it. Two plain
//! passes that say the same of all words; labels and depths are left out.

use crate::books::{self, SHEETS};
use crate::calls::{median, timed};
use crate::store::Verified;
use crate::table::{table as markdown, thousands};
use crate::words::*;
use draw::Rng;
use std::hint::{black_box, select_unpredictable};

/// Along next, which must end after n tags with nothing open, every tag must have the prior, mate, up and mark that its
/// kind and the open begin ask for. `test` tells of one tag whether it does, and the begin that is open behind it.
#[inline(always)]
fn pass(words: &[u32], test: impl Fn(&[[u32; RECORD]], u32, u32) -> (bool, u32)) -> bool {
    let n = words[COUNT];
    let (tags, _) = words[HEADER..words_for(n as usize)].as_chunks::<RECORD>();
    let (mut x, mut before, mut open, mut fits) = (words[FIRST], NO_TAG, NO_TAG, true);
    for _ in 0..n {
        let Some(tag) = tags.get(x as usize) else { return false };
        let (right, behind) = test(tags, x, open);
        fits &= right & (tag[PRIOR] == before);
        (before, x, open) = (x, tag[NEXT], behind);
    }
    fits && x == NO_TAG && open == NO_TAG
}

pub fn with_branches(words: &[u32]) -> bool {
    pass(words, |tags, x, open| {
        let [_, _, _, mate, up, kind, _] = tags[x as usize];
        let around = tags.get(open as usize);
        let inside = up == open && around.is_none_or(|it| kind & MARK >= it[KIND] & MARK);
        match kind {
            1 | 17 => (inside, x),
            2 | 18 => (
                around.is_some_and(|it| {
                    mate == open && it[MATE] == x && up == it[UP] && kind == it[KIND].wrapping_add(1)
                }),
                up,
            ),
            3 | 19 => (inside && mate == x, open),
            _ => (false, open),
        }
    })
}

pub fn without_branches(words: &[u32]) -> bool {
    pass(words, |tags, x, open| {
        let [_, _, _, mate, up, kind, _] = tags[x as usize];
        // With nothing open the tag is set beside itself: that asks nothing of a begin or text, and an end is told apart.
        let some = (open as usize) < tags.len();
        let around = tags[if some { open } else { x } as usize];
        let (begin, end, text) = (kind & 15 == 1, kind & 15 == 2, kind & 15 == 3);
        let right_end =
            some & (mate == open) & (around[MATE] == x) & (up == around[UP]) & (kind == around[KIND].wrapping_add(1));
        let inside = (up == open) & (kind & MARK >= around[KIND] & MARK) & (!text | (mate == x));
        let right = (kind < 32) & (begin | end | text) & select_unpredictable(end, right_end, inside);
        (right, select_unpredictable(begin, x, select_unpredictable(end, up, open)))
    })
}

pub const SIZE: usize = 20_000;

/// The pass with branches over the pass without, by what kinds the book has.
pub fn ratios(repetitions: usize) -> Vec<(&'static str, f64)> {
    let rng = &mut Rng::new(1);
    let mut books: Vec<(&str, Vec<u8>)> = SHEETS.map(|(sheet, name)| (name, sheet.kinds(SIZE, rng))).into();
    books.push(("texts alone", vec![TEXT; SIZE]));
    let ratio = |kinds: &[u8]| {
        let words = books::loaded::<Verified>(2, 2, kinds).expect("labels suffice");
        let (mut with, mut without) = (vec![], vec![]);
        for _ in 0..repetitions {
            with.push(timed(|| with_branches(black_box(&words))).0);
            without.push(timed(|| without_branches(black_box(&words))).0);
        }
        median(with) / median(without)
    };
    books.iter().map(|(name, kinds)| (*name, ratio(kinds))).collect()
}

pub fn table(ratios: &[(&str, f64)]) -> String {
    let rows: Vec<Vec<String>> =
        ratios.iter().map(|(name, ratio)| vec![thousands(SIZE), name.to_string(), format!("{ratio:.2}")]).collect();
    markdown(2, &["tags", "kinds", "with a branch / without"].map(String::from), &rows)
}

#[cfg(test)]
mod tests {
    use super::*;

    fn verdict(words: &[u32]) -> bool {
        let verdict = with_branches(words);
        assert_eq!(verdict, without_branches(words));
        verdict
    }

    /// Books pass; with one word of a tag's changed, other than its label, none does, and both passes say so. A text alone may
    /// be marked.
    #[test]
    fn both_passes_say_the_same() {
        let rng = &mut Rng::new(5);
        for (sheet, _) in SHEETS {
            let words = books::loaded::<Verified>(2, 2, &sheet.kinds(170, rng)).expect("labels suffice");
            assert!(verdict(&words));
            for tag in 0..170 {
                for field in [NEXT, PRIOR, MATE, UP, KIND] {
                    for other in [rng.below(170) as u32, rng.below(20) as u32, NO_TAG] {
                        let mut damaged = words.clone();
                        let old = std::mem::replace(&mut damaged[at(tag, field)], other);
                        let sound = other == old || field == KIND && (old, other) == (3, 19);
                        assert_eq!(verdict(&damaged), sound, "word {field} of {tag} is {other}");
                    }
                }
            }
        }
    }

    #[test]
    fn a_section_is_marked_whole() {
        let mut words = books::loaded::<Verified>(2, 2, &[BEGIN, TEXT, END, TEXT]).expect("labels suffice");
        words[at(1, KIND)] += MARK;
        assert!(verdict(&words), "a text may be marked alone");
        words[at(0, KIND)] += MARK;
        assert!(!verdict(&words), "its end is not marked");
        words[at(2, KIND)] += MARK;
        assert!(verdict(&words));
        words[at(1, KIND)] -= MARK;
        assert!(!verdict(&words), "what is inside is not marked");
    }
}
