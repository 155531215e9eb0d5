//! Whole sheets that go into a book by one call: at every place of small stores, and beside the limits, each just within
//! and just past.

use crate::call::Call;
use crate::damage::tags;
use crate::kinds::{self, BEGIN, END, TEXT};
use crate::session::{Failure, Session, Tally};
use crate::shape;
use crate::subject::Subject;
use draw::Rng;
use reference::{HEADER, NO_TAG, RECORD};

/// The longest sheet of a walk.
const LONGEST: usize = 300;

/// A sheet's kinds: mostly few, at times as many as a tree is split by again and again; now and then they are none, or do
/// not nest.
pub fn any(rng: &mut Rng) -> Vec<u8> {
    let most = rng.pick(&[0, 2, 4, 8, 8, 20, 20, 60, LONGEST]);
    let n = rng.below(most + 1);
    if rng.percent(8) { kinds::spoiled(rng, n) } else { kinds::nested(rng, n) }
}

/// Over the words as they are and as many 9s as so many tags more take.
pub(crate) fn with_room(words: &[u32], more: usize) -> Vec<u32> {
    [words, &vec![9; RECORD * more]].concat()
}

/// Makes one call on a store of its own.
fn once(subject: &dyn Subject, tally: &mut Tally, words: &[u32], kinds: Vec<u8>, place: u32) -> Result<(), Failure> {
    Session::new(subject, tally, words.to_vec()).step(Call::InsertSheet { kinds, place }).map(|_| ())
}

/// Behind one of so many tags, or at the front.
fn any_place(rng: &mut Rng, n: usize) -> u32 {
    if n == 0 || rng.percent(20) { NO_TAG } else { rng.below(n) as u32 }
}

/// At every place of a store, the front and one that is none among them.
pub fn everywhere(subject: &dyn Subject, tally: &mut Tally, rng: &mut Rng, sound: &[u32]) -> Result<(), Failure> {
    let words = with_room(sound, LONGEST + 1);
    let n = tags(sound) as u32;
    for place in (0..=n).chain([NO_TAG]) {
        for _ in 0..3 {
            once(subject, tally, &words, any(rng), place)?;
        }
    }
    Ok(())
}

/// On a store without room for so many tags, and with it.
pub fn room(subject: &dyn Subject, tally: &mut Tally, rng: &mut Rng, sound: &[u32]) -> Result<(), Failure> {
    let place = any_place(rng, tags(sound));
    for more in [1, 2, 7] {
        let words = with_room(sound, more);
        for n in [0, 1, more, more + 1] {
            once(subject, tally, &words, kinds::nested(rng, n), place)?;
        }
        once(subject, tally, &words[..words.len() - 1], kinds::nested(rng, more), place)?;
    }
    Ok(())
}

/// Sheets that bring books to the last tag that their labels reach, and one past it: by many heights from a load of a few
/// tags, by one or none from stores of any shape. Only where that is at most so many tags, since the reference inserts them
/// one by one.
pub fn labels(subject: &dyn Subject, tally: &mut Tally, rng: &mut Rng, most: usize) -> Result<(), Failure> {
    for (s, r) in (2..=16).flat_map(|s| (2..=16).map(move |r| (s, r))) {
        let top = shape::top(s, r);
        let full = shape::leaves(s, r, top).1;
        if full > most {
            continue;
        }
        let n = rng.below(2 * r as usize);
        let mut session = Session::new(subject, tally, vec![0; HEADER + RECORD * (full + 1)]);
        session.step(Call::Load { s, r, book: 7, kinds: kinds::nested(rng, n) })?;
        for new in [full + 1 - n, full - n] {
            session.step(Call::InsertSheet { kinds: kinds::nested(rng, new), place: any_place(rng, n) })?;
        }
        for height in [top - 1, top] {
            let (low, high) = shape::leaves(s, r, height);
            let n = rng.between(low as u64, high as u64) as usize;
            let labels = shape::labels(rng, s, r, height, n);
            let words = with_room(&shape::store(rng, s, r, height, &labels), full + 1 - n);
            for new in [full - n, full + 1 - n] {
                once(subject, tally, &words, vec![TEXT; new], any_place(rng, n))?;
            }
        }
    }
    Ok(())
}

/// Document 01's specimen K to the last tag that its labels reach, by one call.
pub fn from_k(subject: &dyn Subject, tally: &mut Tally) -> Result<(), Failure> {
    let mut session = Session::new(subject, tally, vec![0; HEADER + RECORD * 1030]);
    session.step(Call::Load { s: 16, r: 2, book: 7, kinds: vec![TEXT; 127] })?;
    for tags in [897, 896, 1, 0] {
        session.step(Call::InsertSheet { kinds: vec![TEXT; tags], place: 5 })?;
    }
    Ok(())
}

/// 200,000 tags and beside, and sheets that are longer than any book.
pub fn tags_at_most(subject: &dyn Subject, tally: &mut Tally, rng: &mut Rng) -> Result<(), Failure> {
    let most = 200_000;
    let (s, r) = rng.pick(&[(2, 2), (2, 16), (4, 5), (3, 3)]);
    let mut session = Session::new(subject, tally, vec![0; HEADER + RECORD * (most + 4)]);
    session.step(Call::Load { s, r, book: 1, kinds: vec![BEGIN, TEXT, END] })?;
    let whole = vec![TEXT; most - 2];
    let nested = [vec![BEGIN; most / 2 + 1], vec![END; most / 2 + 1]].concat();
    let broken = [&whole[..], &[0; 3], &[END]].concat();
    for (kinds, place) in [(whole, 1), (nested.clone(), NO_TAG), (nested, 3), (broken, 3), (vec![BEGIN; most + 1], 3)] {
        session.step(Call::InsertSheet { kinds, place })?;
    }
    session.step(Call::Load { s, r, book: 1, kinds: vec![TEXT; most - 3] })?;
    let place = rng.below(most - 3) as u32;
    for kinds in [vec![TEXT; 4], vec![BEGIN, TEXT, END], vec![TEXT], vec![]] {
        session.step(Call::InsertSheet { kinds, place })?;
    }
    Ok(())
}
