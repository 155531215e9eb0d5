//! Whole sheets by one call, timed: on the verified store and on the plain version, beside the walk and beside as many single
//! insertions, one after the other within a repetition and each on words just copied.

use crate::books::{self, Sheet};
use crate::calls::{SHAPES, median, timed};
use crate::plain::Plain;
use crate::store::{Store, Verified};
use crate::table::{table as markdown, thousands};
use crate::words::*;
use draw::Rng;
use std::hint::black_box;
use std::time::Duration;

/// Tags of the book, and of the sheets that go into it.
pub const TAGS: usize = 20_000;
pub const SHEETS: [usize; 3] = [100, 1_000, 10_000];

/// Single insertions walk over the book once each, so they have their turn in one of so many repetitions alone.
const SELDOM: usize = 50;

/// What was found of a sheet: medians in seconds.
pub struct Whole {
    pub s: u32,
    pub r: u32,
    /// Of the sheet.
    pub tags: usize,
    pub walk: f64,
    pub verified: f64,
    pub plain: f64,
    /// As many texts, each by a call of its own.
    pub single: f64,
}

/// A book and a sheet, with what has been timed of them so far.
struct Case {
    s: u32,
    r: u32,
    book: Vec<u32>,
    sheet: Vec<u8>,
    words: Vec<u32>,
    walk: Vec<Duration>,
    verified: Vec<Duration>,
    plain: Vec<Duration>,
    single: Vec<Duration>,
}

/// Texts behind one another, as many as a sheet has tags; how many were refused.
fn in_turn(tags: usize, mut place: u32, words: &mut [u32]) -> usize {
    let mut refused = 0;
    for _ in 0..tags {
        let [refusal, first, ..] = Verified::insert(TEXT, place, words);
        refused += usize::from(refusal != 0);
        place = first;
    }
    refused
}

impl Case {
    fn new((s, r): (u32, u32), tags: usize) -> Case {
        let mut rng = Rng::new(tags as u64);
        let mut book = books::loaded::<Verified>(s, r, &Sheet::Random.kinds(TAGS, &mut rng)).expect("labels fit");
        book.resize(words_for(TAGS + tags), 0);
        let (sheet, words) = (Sheet::Random.kinds(tags, &mut rng), book.clone());
        Case { s, r, book, sheet, words, walk: vec![], verified: vec![], plain: vec![], single: vec![] }
    }

    /// Times work on the words of the book, just copied.
    fn time<T>(&mut self, work: impl FnOnce(&[u8], &mut [u32]) -> T) -> (Duration, T) {
        self.words.copy_from_slice(&self.book);
        timed(|| work(black_box(&self.sheet), black_box(&mut self.words)))
    }

    fn repeat(&mut self, place: u32, single: bool) {
        let (time, held) = self.time(|_, words| Verified::hold(0, words));
        self.walk.push(time);
        let (time, mine) = self.time(|sheet, words| Verified::insert_sheet(sheet, place, words));
        self.verified.push(time);
        let (time, theirs) = self.time(|sheet, words| Plain::insert_sheet(sheet, place, words));
        self.plain.push(time);
        assert!(held[0] == 0 && mine[0] == 0 && mine == theirs, "replies {held:?}, {mine:?} and {theirs:?}");
        if single {
            let (time, refused) = self.time(|sheet, words| in_turn(sheet.len(), place, words));
            self.single.push(time);
            assert_eq!(refused, 0);
        }
    }

    fn whole(self) -> Whole {
        let [walk, verified, plain, single] = [self.walk, self.verified, self.plain, self.single].map(median);
        Whole { s: self.s, r: self.r, tags: self.sheet.len(), walk, verified, plain, single }
    }
}

/// In every repetition all cases have their turn, each at a place of its own.
pub fn times(repetitions: usize) -> Vec<Whole> {
    let sized = |shape| SHEETS.map(|tags| Case::new(shape, tags));
    let mut cases: Vec<Case> = SHAPES.into_iter().flat_map(sized).collect();
    let mut rng = Rng::new(5);
    for round in 0..repetitions {
        cases.iter_mut().for_each(|case| case.repeat(rng.below(TAGS) as u32, round % SELDOM == 0));
    }
    cases.into_iter().map(Case::whole).collect()
}

pub fn table(all: &[Whole]) -> String {
    let head = ["s, r", "tags of the sheet", "sheet / walk", "verified / plain", "single insertions / sheet"];
    let row = |it: &Whole| {
        let figures = [it.verified / it.walk, it.verified / it.plain].map(|figure| format!("{figure:.2}"));
        let single = thousands((it.single / it.verified).round() as usize);
        let of = [format!("{}, {}", it.s, it.r), thousands(it.tags)];
        of.into_iter().chain(figures).chain([single]).collect()
    };
    markdown(1, &head.map(String::from), &all.iter().map(row).collect::<Vec<_>>())
}
