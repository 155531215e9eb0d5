//! Calls beside the limits: what a load may be given, and refusals 6 and 7.

use crate::call::Call;
use crate::damage;
use crate::kinds::{BEGIN, END, TEXT};
use crate::session::{Failure, Session, Tally};
use crate::shape;
use crate::subject::Subject;
use draw::Rng;
use reference::{HEADER, NO_TAG, RECORD};

/// Tries a text and an element here and there, from the same words each time, then as many texts as go in.
fn tries(subject: &dyn Subject, tally: &mut Tally, rng: &mut Rng, start: &[u32], texts: usize) -> Result<(), Failure> {
    let n = start[4] as usize;
    for kind in [BEGIN, TEXT] {
        for place in [NO_TAG, rng.below(n) as u32, n as u32] {
            Session::new(subject, tally, start.to_vec()).step(Call::Insert { kind, place })?;
        }
    }
    let mut session = Session::new(subject, tally, start.to_vec());
    for _ in 0..texts {
        let place = rng.below(n) as u32;
        session.step(Call::Insert { kind: TEXT, place })?;
        session.step(Call::Insert { kind: BEGIN, place })?;
    }
    Ok(())
}

/// Sound stores with one to three tags less than a full root, at the greatest height and one below it; and loads at
/// and beside the size that needs one height too many. Only books of at most so many tags.
fn labels_of(
    subject: &dyn Subject,
    tally: &mut Tally,
    rng: &mut Rng,
    (s, r): (u32, u32),
    most: usize,
) -> Result<(), Failure> {
    let top = shape::top(s, r);
    for height in [top, top.saturating_sub(1).max(1)] {
        let full = shape::leaves(s, r, height).1;
        for n in (full.saturating_sub(2)..=full).filter(|_| full <= most) {
            let labels = shape::labels(rng, s, r, height, n);
            let mut start = shape::store(rng, s, r, height, &labels);
            start.resize(HEADER + RECORD * (n + 3), 5);
            tries(subject, tally, rng, &start, 2)?;
        }
    }
    let least_over = 2 * (r as usize).pow(top);
    for n in (least_over - 1..=least_over + 1).filter(|_| least_over < most) {
        let mut session = Session::new(subject, tally, vec![3; HEADER + RECORD * (n + 2)]);
        session.step(Call::Load { s, r, book: 4, kinds: vec![TEXT; n] })?;
        session.step(Call::Insert { kind: TEXT, place: 0 })?;
    }
    Ok(())
}

/// Where labels run out, for all s and r.
pub fn labels(subject: &dyn Subject, tally: &mut Tally, rng: &mut Rng, most: usize) -> Result<(), Failure> {
    (2..=16).flat_map(|s| (2..=16).map(move |r| (s, r))).try_for_each(|pair| labels_of(subject, tally, rng, pair, most))
}

/// The ends of the tables of powers that a book of 200,000 tags can meet: loads of 131,071 tags and more with (4, 4) and
/// (16, 16), and the 65,536th tag, which raises H to 8 and to 4.
pub fn tables(subject: &dyn Subject, tally: &mut Tally, rng: &mut Rng) -> Result<(), Failure> {
    [(4, 4), (16, 16)].into_iter().try_for_each(|pair| labels_of(subject, tally, rng, pair, 140_000))
}

/// Stores sound but for H, which is that of the last power of b that fits, one or two more, or far more; also such that a
/// part of the word alone would be the right H. With (2, 2), (4, 4) and (16, 16) powers come from a table, with the others
/// not, of which two have the base of (4, 4).
pub fn heights(subject: &dyn Subject, tally: &mut Tally, rng: &mut Rng) -> Result<(), Failure> {
    for (s, r) in [(2, 2), (4, 4), (16, 16), (3, 3), (2, 8), (8, 2)] {
        let sound = shape::any(rng, s, r, 40);
        let (right, top) = (sound[3], shape::top(s, r));
        let parts = [8, 16, 31].map(|bits| right + (1 << bits));
        for height in [top, top + 1, top + 2, u32::MAX].into_iter().chain(parts) {
            let mut words = sound.clone();
            words[3] = height;
            damage::flawed(subject, tally, rng, &words)?;
        }
    }
    Ok(())
}

/// Document 01's run from specimen K: with s = 16 and r = 2 texts go in one by one until 1,023 tags stand.
pub fn run_from_k(subject: &dyn Subject, tally: &mut Tally, rng: &mut Rng) -> Result<(), Failure> {
    let mut session = Session::new(subject, tally, vec![0; HEADER + RECORD * 1030]);
    session.step(Call::Load { s: 16, r: 2, book: 7, kinds: vec![TEXT; 128] })?;
    session.step(Call::Load { s: 16, r: 2, book: 7, kinds: vec![TEXT; 127] })?;
    for n in 127..1030 {
        if n >= 1022 {
            session.step(Call::Insert { kind: BEGIN, place: 0 })?;
        }
        session.step(Call::Insert { kind: TEXT, place: rng.below(127) as u32 })?;
    }
    Ok(())
}

/// All rows of at most so many kinds, nested or not.
fn every_kinds(most: usize) -> Vec<Vec<u8>> {
    let mut rows = vec![vec![]];
    let mut from = 0;
    for _ in 0..most {
        let longer: Vec<Vec<u8>> =
            rows[from..].iter().flat_map(|row| [BEGIN, END, TEXT].map(|kind| [&row[..], &[kind]].concat())).collect();
        from = rows.len();
        rows.extend(longer);
    }
    rows
}

/// Loads with s, r and kinds at and beside what is allowed.
pub fn loads(subject: &dyn Subject, tally: &mut Tally) -> Result<(), Failure> {
    let sides = [0, 1, 2, 16, 17, 18, 256, u32::MAX];
    for s in sides {
        for r in sides {
            Session::new(subject, tally, vec![0; HEADER]).step(Call::Load { s, r, book: 1, kinds: vec![] })?;
        }
    }
    for kinds in every_kinds(6) {
        let mut session = Session::new(subject, tally, vec![6; HEADER + RECORD * 6]);
        session.step(Call::Load { s: 2, r: 2, book: 1, kinds: kinds.clone() })?;
        session.step(Call::Hold { tag: 0 })?;
        session.step(Call::Load { s: 2, r: 2, book: 1, kinds: vec![] })?;
        session.step(Call::InsertSheet { kinds, place: NO_TAG })?;
    }
    for kind in 0..=u8::MAX {
        for kinds in [vec![kind], vec![BEGIN, kind], vec![END, kind], vec![BEGIN, kind, END]] {
            let mut session = Session::new(subject, tally, vec![6; HEADER + RECORD * 5]);
            session.step(Call::Load { s: 2, r: 2, book: 1, kinds: kinds.clone() })?;
            session.step(Call::Load { s: 2, r: 2, book: 1, kinds: vec![BEGIN, END] })?;
            for place in [2, 0] {
                session.step(Call::InsertSheet { kinds: kinds.clone(), place })?;
            }
            session.step(Call::Insert { kind, place: 0 })?;
        }
    }
    Ok(())
}

/// Words for one tag or two too few.
pub fn words(subject: &dyn Subject, tally: &mut Tally, rng: &mut Rng) -> Result<(), Failure> {
    for n in 0..6 {
        for more in 0..=2 * RECORD + 1 {
            let mut session = Session::new(subject, tally, vec![9; HEADER + RECORD * n + more]);
            session.step(Call::Load { s: 2, r: 2, book: 4, kinds: vec![TEXT; n + 2] })?;
            session.step(Call::Load { s: 2, r: 2, book: 4, kinds: vec![TEXT; n] })?;
            session.step(Call::Insert { kind: BEGIN, place: NO_TAG })?;
            session.step(Call::Insert { kind: TEXT, place: rng.below(n) as u32 })?;
            session.step(Call::Insert { kind: TEXT, place: NO_TAG })?;
        }
    }
    Ok(())
}

/// 200,000 tags and beside.
pub fn tags(subject: &dyn Subject, tally: &mut Tally, rng: &mut Rng) -> Result<(), Failure> {
    let most = 200_000;
    let (s, r) = rng.pick(&[(2, 2), (2, 16), (4, 5), (3, 3)]);
    let mut session = Session::new(subject, tally, vec![0; HEADER + RECORD * (most + 2)]);
    for n in [most + 1, most, most - 2] {
        session.step(Call::Load { s, r, book: 1, kinds: vec![TEXT; n] })?;
        session.step(Call::Insert { kind: TEXT, place: 0 })?;
    }
    session.step(Call::Insert { kind: BEGIN, place: 9 })?;
    session.step(Call::Insert { kind: TEXT, place: rng.below(most - 1) as u32 })?;
    session.step(Call::Insert { kind: TEXT, place: NO_TAG })?;
    session.step(Call::Mark { tag: 77 })?;
    session.step(Call::List { begin: NO_TAG, tags: most - 2, labels: most })?;
    session.step(Call::List { begin: NO_TAG, tags: most, labels: most - 1 })?;
    Ok(())
}
