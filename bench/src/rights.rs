//! A party's calls, timed: reading beside the question that it asks, and inserting beside the insertion that it makes, with few
//! and with many grants, one after the other within a repetition and each on words just copied.

use crate::books::{self, Sheet};
use crate::calls::{SHAPES, median, timed};
use crate::plain::Plain;
use crate::store::{Asked, Store, Verified};
use crate::table::{table as markdown, thousands};
use crate::words::*;
use draw::Rng;
use std::hint::black_box;
use std::time::Duration;

/// Tags of the book, and lengths of the list of grants. The one that gives the right stands last, so that a search that stops
/// where it has found one stops nowhere earlier.
pub const TAGS: usize = 20_000;
pub const GRANTS: [usize; 3] = [1, 100, 10_000];

const PARTY: u32 = 5;
const READ: u32 = 1;
const INSERT: u32 = 4;

/// What was found with so many grants: medians in seconds.
pub struct Rights {
    pub s: u32,
    pub r: u32,
    pub grants: usize,
    pub walk: f64,
    pub question: f64,
    pub read: f64,
    pub text: f64,
    pub insert: f64,
}

/// A book and a list of grants, with what has been timed of them so far: walk, question, read, text, insert.
struct Case {
    s: u32,
    r: u32,
    book: Vec<u32>,
    words: Vec<u32>,
    grants: Vec<[u32; 3]>,
    times: [Vec<Duration>; 5],
}

impl Case {
    fn new((s, r): (u32, u32), grants: usize) -> Case {
        let mut rng = Rng::new(grants as u64);
        let mut kinds = vec![BEGIN];
        kinds.extend(Sheet::Random.kinds(TAGS - 2, &mut rng));
        kinds.push(END);
        let mut book = books::loaded::<Verified>(s, r, &kinds).expect("labels fit");
        book.resize(words_for(TAGS + 1), 0);
        // The same party's on other sections, and others' on this one.
        let mut list: Vec<[u32; 3]> = (1..grants as u32).map(|i| [PARTY + i % 2, 1 + i, READ + INSERT]).collect();
        list.push([PARTY, 0, READ + INSERT]);
        Case { s, r, words: book.clone(), book, grants: list, times: Default::default() }
    }

    /// Times work on the words of the book, just copied.
    fn time<T>(&mut self, of: usize, work: impl FnOnce(&[[u32; 3]], &mut [u32]) -> T) -> T {
        self.words.copy_from_slice(&self.book);
        let (time, reply) = timed(|| work(black_box(&self.grants), black_box(&mut self.words)));
        self.times[of].push(time);
        reply
    }

    fn repeat(&mut self, d: u32) {
        let held = self.time(0, |_, words| Verified::hold(0, words));
        let pair = [held[1], held[2], held[3], held[4]];
        let [reads, inserts] =
            [READ, INSERT].map(|right| Asked { party: PARTY, pair, d, right, kind: TEXT, grants: &[] });
        let answer = self.time(1, |_, words| Verified::question(pair, d, words));
        let read = self.time(2, |grants, words| Verified::party(&Asked { grants, ..reads }, words));
        let text = self.time(3, |_, words| Verified::insert(TEXT, d, words));
        let insert = self.time(4, |grants, words| Verified::party(&Asked { grants, ..inserts }, words));
        self.words.copy_from_slice(&self.book);
        let plain = Plain::party(&Asked { grants: &self.grants, ..inserts }, &mut self.words);
        let alike = answer == [0, 1] && read == [0, 1, 0, 0, 0] && insert[2..] == text[1..] && insert == plain;
        assert!(alike, "replies {held:?}, {answer:?}, {read:?}, {text:?}, {insert:?} and {plain:?}");
    }

    fn rights(self) -> Rights {
        let [walk, question, read, text, insert] = self.times.map(median);
        Rights { s: self.s, r: self.r, grants: self.grants.len(), walk, question, read, text, insert }
    }
}

/// In every repetition all cases have their turn, each at a tag of its own inside the section, which is the whole book's element.
pub fn times(repetitions: usize) -> Vec<Rights> {
    let sized = |shape| GRANTS.map(|grants| Case::new(shape, grants));
    let mut cases: Vec<Case> = SHAPES.into_iter().flat_map(sized).collect();
    let mut rng = Rng::new(6);
    for _ in 0..repetitions {
        cases.iter_mut().for_each(|case| case.repeat(1 + rng.below(TAGS - 2) as u32));
    }
    cases.into_iter().map(Case::rights).collect()
}

pub fn table(all: &[Rights]) -> String {
    let head = ["s, r", "grants", "read / question", "insertion / text", "insertion / walk", "search / walk"];
    let row = |it: &Rights| {
        let search = (it.read - it.question).max(0.0);
        let figures = [it.read / it.question, it.insert / it.text, it.insert / it.walk, search / it.walk];
        let of = [format!("{}, {}", it.s, it.r), thousands(it.grants)];
        of.into_iter().chain(figures.map(|figure| format!("{figure:.2}"))).collect()
    };
    markdown(1, &head.map(String::from), &all.iter().map(row).collect::<Vec<_>>())
}
