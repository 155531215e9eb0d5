//! Hold on a book of eight tags, where what is done once a call weighs most: the tests of the header and the tables by height.

use crate::books;
use crate::calls::{median, timed};
use crate::plain::Plain;
use crate::store::{Store, Verified};
use crate::table::table;
use crate::words::{TEXT, words_for};
use draw::Rng;
use std::hint::black_box;
use std::time::Duration;

/// Powers come from a table with the first three, and are worked out with the last.
const SHAPES: [(u32, u32); 4] = [(2, 2), (4, 4), (16, 16), (3, 3)];

const TAGS: usize = 8;

/// Calls in one timing: a call by itself is shorter than a look at the clock.
const CALLS: usize = 1_000;

/// Medians, in seconds, of so many calls.
pub struct Small {
    s: u32,
    r: u32,
    pub verified: f64,
    pub plain: f64,
}

/// Where a call's frame and its words begin in memory changes its time by a tenth and more, and one process has them at one
/// place. So every repetition has others: the words begin anywhere in so many, a page of memory, and the frame behind up to
/// so many others, which fill a page too.
const PAGE: usize = 1_024;
const FRAMES: usize = 100;

/// Works so many frames further down the stack.
#[inline(never)]
fn below<T>(frames: usize, work: &mut dyn FnMut() -> T) -> T {
    let frame = [frames; 2];
    let result = if frames == 0 { work() } else { below(frames - 1, work) };
    // Used behind the call, so that the frame stays.
    black_box(&frame);
    result
}

fn holds<S: Store>(book: &[u32]) -> Duration {
    let calls = || (0..CALLS).fold(0, |sum, _| sum + S::hold(black_box(0), black_box(book))[0]);
    let (time, refused) = timed(calls);
    assert_eq!(refused, 0);
    time
}

/// In every repetition all pairs of s and r have their turn, each on the verified store and on the plain version, at one
/// place in memory.
pub fn times(repetitions: usize) -> Vec<Small> {
    let book = |(s, r)| books::loaded::<Verified>(s, r, &[TEXT; TAGS]).expect("labels fit");
    let books = SHAPES.map(book);
    let mut taken: [(Vec<Duration>, Vec<Duration>); SHAPES.len()] = Default::default();
    let mut rng = Rng::new(1);
    let mut words = vec![0; PAGE + words_for(TAGS + 2)];
    for _ in 0..repetitions {
        let (at, frames) = (rng.below(PAGE), rng.below(FRAMES));
        for (book, (verified, plain)) in books.iter().zip(&mut taken) {
            let words = &mut words[at..at + book.len()];
            words.copy_from_slice(book);
            verified.push(below(frames, &mut || holds::<Verified>(words)));
            plain.push(below(frames, &mut || holds::<Plain>(words)));
        }
    }
    let small = |((s, r), (verified, plain))| Small { s, r, verified: median(verified), plain: median(plain) };
    SHAPES.into_iter().zip(taken).map(small).collect()
}

pub fn tables(all: &[Small]) -> String {
    let row = |it: &Small| vec![format!("{}, {}", it.s, it.r), format!("{:.2}", it.verified / it.plain)];
    table(1, &["s, r", "verified / plain"].map(String::from), &all.iter().map(row).collect::<Vec<_>>())
}
