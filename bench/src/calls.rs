//! The calls, timed: each on the verified store and on the plain version, beside a bare walk, one after the other
//! within a repetition, so that what disturbs the machine disturbs all alike.

use crate::books::{self, Sheet};
use crate::plain::{Plain, bytes_for};
use crate::store::{Store, Verified};
use crate::words::*;
use draw::Rng;
use std::hint::black_box;
use std::time::{Duration, Instant};

/// The largest book leaves room for the two tags of an element.
pub const SIZES: [usize; 3] = [2_000, 20_000, MAX_TAGS - 2];
pub const SHAPES: [(u32, u32); 3] = [(2, 2), (4, 4), (16, 16)];

#[derive(Clone, Copy, PartialEq, Eq)]
pub enum Call {
    /// The soundness walk and a lookup: the walk alone, as far as the interface shows it.
    Hold,
    Text,
    Element,
    Mark,
    Question,
    List,
    Load,
    /// Of a file.
    Write,
    Read,
}

pub const CALLS: [Call; 9] = [
    Call::Hold,
    Call::Text,
    Call::Element,
    Call::Mark,
    Call::Question,
    Call::List,
    Call::Load,
    Call::Write,
    Call::Read,
];

#[derive(Clone, Copy, PartialEq, Eq)]
pub struct Case {
    pub n: usize,
    pub s: u32,
    pub r: u32,
    pub sheet: Sheet,
    pub shuffled: bool,
}

/// Medians, in seconds; a call's in the order of CALLS.
pub struct Times {
    pub case: Case,
    pub bare: f64,
    pub verified: [f64; CALLS.len()],
    pub plain: [f64; CALLS.len()],
}

/// Follows next and reads the label: the least that any walk does, with no test of where it reads.
///
/// # Safety
/// The words say a store.
pub unsafe fn bare_walk(words: &[u32]) -> u32 {
    let mut sum = 0u32;
    let mut x = words[FIRST];
    while x != NO_TAG {
        sum = sum.wrapping_add(*words.get_unchecked(at(x, LABEL)));
        x = *words.get_unchecked(at(x, NEXT));
    }
    sum
}

/// What the calls of one repetition are about.
struct Draw {
    place: u32,
    section: u32,
    pair: [u32; 4],
    d: u32,
}

impl Draw {
    fn new(words: &[u32], rng: &mut Rng) -> Draw {
        let n = words[COUNT] as usize;
        let mut tag = |kinds: &[u8]| loop {
            let tag = rng.below(n) as u32;
            if kinds.iter().any(|&kind| words[at(tag, KIND)] == u32::from(kind)) {
                return tag;
            }
        };
        let begin = tag(&[BEGIN]);
        let labels = [begin, words[at(begin, MATE)]].map(|it| words[at(it, LABEL)]);
        Draw {
            place: tag(&[BEGIN, END, TEXT]),
            section: tag(&[BEGIN, TEXT]),
            pair: [words[BOOK], begin, labels[0], labels[1]],
            d: tag(&[BEGIN, END, TEXT]),
        }
    }
}

/// The slices that the calls are made on.
struct Lent {
    kinds: Vec<u8>,
    words: Vec<u32>,
    tags: Vec<u32>,
    labels: Vec<u32>,
    file: Vec<u8>,
}

fn reply<const N: usize>(words: [u32; N]) -> [u32; 5] {
    let mut reply = [0; 5];
    reply[..N].copy_from_slice(&words);
    reply
}

fn perform<S: Store>(call: Call, lent: &mut Lent, draw: &Draw) -> [u32; 5] {
    let words = &mut lent.words;
    match call {
        Call::Hold => S::hold(draw.section, words),
        Call::Text => reply(S::insert(TEXT, draw.place, words)),
        Call::Element => reply(S::insert(BEGIN, draw.place, words)),
        Call::Mark => reply(S::mark(draw.section, words)),
        Call::Question => reply(S::question(draw.pair, draw.d, words)),
        Call::List => reply(S::list(NO_TAG, words, &mut lent.tags, &mut lent.labels)),
        Call::Load => reply(S::load(words[1], words[2], words[BOOK], &lent.kinds, words)),
        Call::Write => reply(S::write_file(words, &mut lent.file)),
        Call::Read => reply(S::read_file(&lent.file, words)),
    }
}

/// Runs and times.
pub fn timed<T>(work: impl FnOnce() -> T) -> (Duration, T) {
    let start = Instant::now();
    let result = black_box(work());
    (start.elapsed(), result)
}

/// In seconds.
pub fn median(mut times: Vec<Duration>) -> f64 {
    times.sort();
    times[times.len() / 2].as_secs_f64()
}

/// A case with what has been timed of it so far.
pub struct Bench {
    case: Case,
    rng: Rng,
    book: Vec<u32>,
    file: Vec<u8>,
    lent: Lent,
    bare: Vec<Duration>,
    verified: [Vec<Duration>; CALLS.len()],
    plain: [Vec<Duration>; CALLS.len()],
}

impl Bench {
    /// None where the load is refused.
    pub fn new(case: Case) -> Option<Bench> {
        let mut rng = Rng::new(case.n as u64);
        let kinds = case.sheet.kinds(case.n, &mut rng);
        let mut book = books::loaded::<Verified>(case.s, case.r, &kinds)?;
        if case.shuffled {
            book = books::shuffled(&book, &mut rng);
        }
        let mut file = vec![0; bytes_for(case.n)];
        assert_eq!(Plain::write_file(&book, &mut file), [0, file.len() as u32], "a book that is loaded is written");
        let (words, tags, labels) = (book.clone(), vec![0; case.n], vec![0; case.n]);
        let lent = Lent { kinds, words, tags, labels, file: file.clone() };
        let (verified, plain) = Default::default();
        Some(Bench { case, rng, book, file, lent, bare: vec![], verified, plain })
    }

    /// What a call is lent, as it was.
    fn make_ready(&mut self, call: Call) {
        // The file first: the words are then just copied for every call, whether it takes a file or not.
        if matches!(call, Call::Write | Call::Read) {
            self.lent.file.copy_from_slice(&self.file);
        }
        self.lent.words.copy_from_slice(&self.book);
    }

    fn time<S: Store>(&mut self, call: Call, draw: &Draw) -> (Duration, [u32; 5]) {
        self.make_ready(call);
        timed(|| perform::<S>(call, black_box(&mut self.lent), draw))
    }

    /// Times everything once.
    pub fn repeat(&mut self) {
        let draw = Draw::new(&self.book, &mut self.rng);
        // Everything timed finds the words just copied, so that nothing is warmer in the cache than another.
        self.lent.words.copy_from_slice(&self.book);
        // SAFETY: the words of a book just loaded, or of one whose tags were renumbered.
        self.bare.push(timed(|| unsafe { bare_walk(black_box(&self.lent.words)) }).0);
        for k in 0..CALLS.len() {
            // Each time another call comes first: a processor guesses better what it has just walked.
            let i = (k + self.bare.len()) % CALLS.len();
            let call = CALLS[i];
            let (time, mine) = self.time::<Verified>(call, &draw);
            self.verified[i].push(time);
            let (time, theirs) = self.time::<Plain>(call, &draw);
            self.plain[i].push(time);
            assert!(mine[0] == 0 && mine == theirs, "replies {mine:?} and {theirs:?}");
        }
    }

    pub fn times(self) -> Times {
        let Bench { case, bare, verified, plain, .. } = self;
        Times { case, bare: median(bare), verified: verified.map(median), plain: plain.map(median) }
    }
}
