//! Books as files: written and read back, with slices of every length about the right one, damaged, over a stop in a
//! history, and at the limits of depth and of size.

use crate::call::Call;
use crate::damage::{self, DEPTH, KIND, LABEL, MATE, NEXT, UP, at, order, tags};
use crate::file_damage::{self, counted, put, record, records};
use crate::kinds::{BEGIN, END, TEXT};
use crate::session::{Failure, Session, Tally};
use crate::shape;
use crate::subject::Subject;
use draw::Rng;
use reference::{HEADER, NO_TAG, RECORD, bytes_for};

/// A stop in a history: the book is written, the words are cleared, and the file is read back.
pub fn stop(session: &mut Session, rng: &mut Rng) -> Result<(), Failure> {
    let n = session.system.words.get(4).map_or(0, |n| (*n as usize).min(session.system.words.len() / RECORD));
    let room = bytes_for(n);
    session.step(Call::Write { bytes: room - 1 - rng.below(room) })?;
    let written = session.step(Call::Write { bytes: room + rng.below(9) })?;
    match session.kept().filter(|_| written[0] == 0).map(|it| it.file.clone()) {
        Some(file) => session.step(Call::Read { file, cleared: Some(rng.word()) }).map(|_| ()),
        None => Ok(()),
    }
}

/// Reads a file over these words. One that is read must be written again as the same bytes, which the session compares.
fn read(subject: &dyn Subject, tally: &mut Tally, words: Vec<u32>, file: Vec<u8>) -> Result<(), Failure> {
    let bytes = file.len();
    let mut session = Session::new(subject, tally, words);
    if session.step(Call::Read { file, cleared: None })?[0] == 0 {
        session.step(Call::Write { bytes })?;
    }
    Ok(())
}

/// Numbers about this one, and a few short ones.
fn about(right: usize) -> impl Iterator<Item = usize> {
    let near = right.saturating_sub(40)..=right + 9;
    let short = [0, 1, 7, 8, 34, 43, 44];
    near.clone().chain(short.into_iter().filter(move |it| !near.contains(it)))
}

/// A sound store is written into bytes of every length about the right one, and read back into words of every such length.
pub fn lengths(subject: &dyn Subject, tally: &mut Tally, rng: &mut Rng, sound: &[u32]) -> Result<(), Failure> {
    let file = records(sound, &order(sound)).concat();
    for bytes in about(file.len()) {
        Session::new(subject, tally, sound.to_vec()).step(Call::Write { bytes })?;
    }
    for len in about(sound.len()) {
        read(subject, tally, vec![rng.word(); len], file.clone())?;
    }
    Ok(())
}

/// The tags along next, where that meets each of them once.
fn along(words: &[u32], n: usize) -> Option<Vec<usize>> {
    let mut order = Vec::with_capacity(n);
    let mut here = words[5] as usize;
    while here < n && order.len() < n {
        order.push(here);
        here = words[at(here, NEXT)] as usize;
    }
    let mut met = order.clone();
    met.sort();
    met.dedup();
    (met.len() == n).then_some(order)
}

/// Words that may be unsound are written, and a file that says them is read: in the order along their next where there is
/// one, and in another.
fn unsound(
    subject: &dyn Subject,
    tally: &mut Tally,
    words: &[u32],
    lent: &[u32],
    order: &[usize],
) -> Result<(), Failure> {
    let n = order.len();
    // Into enough bytes, and into fewer than any file has, for the order of refusals.
    for bytes in [bytes_for(n), bytes_for(0) - 1] {
        Session::new(subject, tally, words.to_vec()).step(Call::Write { bytes })?;
    }
    if words.len() < HEADER + RECORD * n {
        return Ok(());
    }
    let along = along(words, n).filter(|it| it != order);
    for order in along.iter().map(|it| &it[..]).chain([order]) {
        read(subject, tally, lent.to_vec(), records(words, order).concat())?;
    }
    Ok(())
}

/// All the damage to a small sound store, as words and as files, and to its file.
pub fn damage(subject: &dyn Subject, tally: &mut Tally, rng: &mut Rng, sound: &[u32]) -> Result<(), Failure> {
    let order = order(sound);
    // What stands in the words must not matter: also not the very store whose file is damaged.
    let mut lent = match rng.below(3) {
        0 => sound.to_vec(),
        1 => vec![0; sound.len()],
        _ => vec![rng.word(); sound.len()],
    };
    lent.resize(sound.len() + 2 * RECORD, 6);
    for words in damage::variants(sound, rng) {
        unsound(subject, tally, &words, &lent, &order)?;
    }
    for file in file_damage::variants(&records(sound, &order), rng) {
        // Now and then into too few words, for the order of refusals.
        let len = if rng.percent(20) { rng.below(lent.len()) } else { lent.len() };
        read(subject, tally, lent[..len].to_vec(), file)?;
    }
    Ok(())
}

/// A store with a flaw in its tree, which is neither written nor read.
pub fn flawed(subject: &dyn Subject, tally: &mut Tally, words: &[u32]) -> Result<(), Failure> {
    unsound(subject, tally, words, &vec![0; words.len()], &order(words))
}

/// Tag x, behind others that all are open, becomes one more begin inside the last of them.
fn begin_inside(words: &mut [u32], x: usize) {
    words[at(x, KIND)] = BEGIN.into();
    words[at(x, UP)] = x as u32 - 1;
    words[at(x, DEPTH)] = words[at(x - 1, DEPTH)] + 1;
}

/// So many begins, texts inside, and as many ends: over a stop, and with begins and ends that do not pair up, where the
/// book is deepest and at its two ends.
pub fn nested(subject: &dyn Subject, tally: &mut Tally, deep: usize, texts: usize) -> Result<(), Failure> {
    let n = 2 * deep + texts;
    let mut session = Session::new(subject, tally, vec![0; HEADER + RECORD * n]);
    let kinds = [vec![BEGIN; deep], vec![TEXT; texts], vec![END; deep]].concat();
    session.step(Call::Load { s: 2, r: 2, book: 7, kinds })?;
    stop(&mut session, &mut Rng::new(n as u64))?;
    let words = session.system.words.clone();
    let file = |change: &dyn Fn(&mut [u32])| {
        let mut words = words.clone();
        change(&mut words);
        records(&words, &order(&words)).concat()
    };
    for file in [
        file(&|words| (deep..n).for_each(|x| begin_inside(words, x))),
        file(&|words| begin_inside(words, deep)),
        file(&|words| words[at(deep - 1, KIND)] = END.into()),
        file(&|words| words[at(0, KIND)] = END.into()),
        file(&|words| words[at(n - 1, KIND)] = BEGIN.into()),
        file(&|words| words[at(n - 1, MATE)] = 1),
    ] {
        read(subject, tally, vec![1; words.len()], file)?;
    }
    Ok(())
}

/// Books about as deep as a reader may keep in a small table, and as deep as 200,000 tags can be.
pub fn deep(subject: &dyn Subject, tally: &mut Tally) -> Result<(), Failure> {
    let about_small = (1_022..=1_027).flat_map(|deep| [(deep, 0), (deep, 1)]);
    about_small.chain([(99_999, 2), (100_000, 0)]).try_for_each(|(deep, texts)| nested(subject, tally, deep, texts))
}

/// A store of 200,000 tags, numbered in any order, over a stop, and its file with the last number another; and a file of one
/// tag more, which is sound but for that, read into enough words and into one too few.
pub fn great(subject: &dyn Subject, tally: &mut Tally, rng: &mut Rng) -> Result<(), Failure> {
    let most = 200_000;
    let labels = shape::labels(rng, 2, 2, 17, most);
    let words = shape::store(rng, 2, 2, 17, &labels);
    stop(&mut Session::new(subject, tally, words.clone()), rng)?;
    let mut damaged = records(&words, &order(&words));
    put(&mut damaged[most], 0, words[5]);
    read(subject, tally, words, damaged.concat())?;

    let mut session = Session::new(subject, tally, vec![0; HEADER + RECORD * most]);
    session.step(Call::Load { s: 2, r: 2, book: 7, kinds: vec![TEXT; most] })?;
    stop(&mut session, rng)?;
    let more = one_more(&session.system.words);
    let enough = HEADER + RECORD * (most + 1);
    [enough - 1, enough].into_iter().try_for_each(|len| read(subject, tally, vec![0; len], more.clone()))
}

/// The file of a book of texts, just loaded, with one text more behind the last, in the same node.
fn one_more(words: &[u32]) -> Vec<u8> {
    let n = tags(words);
    let last = n as u32 - 1;
    let mut records = records(words, &order(words));
    put(&mut records[n], 2, n as u32);
    let label = words[at(n - 1, LABEL)] + 1;
    records.insert(n + 1, record(2, &[n as u32, label, NO_TAG, last, n as u32, NO_TAG, TEXT.into()]));
    counted(records).concat()
}
