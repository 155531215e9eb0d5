//! A whole run: what a seed and a size stand for.

use crate::call::Call;
use crate::damage;
use crate::files;
use crate::flaw::{self, Flaw};
use crate::history::{ground, history, walk};
use crate::insert_sheets;
use crate::kinds;
use crate::limits;
use crate::pieces::Pieces;
use crate::printed;
use crate::program::{LineProgram, compare};
use crate::rights;
use crate::scripts;
use crate::session::{Failure, Session, Tally};
use crate::shape;
use crate::sheet::{Misread, SheetReader, compare as compare_sheet};
use crate::sheets;
use crate::shorten::Found;
use crate::subject::Subject;
use crate::writer::{LineTally, Script};
use draw::Rng;
use reference::DEPTH;

/// All 225 of s and r, in an order by the seed, so that 225 histories meet each once.
fn pairs(rng: &mut Rng) -> Vec<(u32, u32)> {
    let mut pairs: Vec<_> = (2..=16).flat_map(|s| (2..=16).map(move |r| (s, r))).collect();
    rng.shuffle(&mut pairs);
    pairs
}

/// So many histories from loads.
pub fn histories(subject: &dyn Subject, tally: &mut Tally, rng: &mut Rng, size: usize) -> Result<(), Failure> {
    for &(s, r) in pairs(rng).iter().cycle().take(size) {
        // Small s and r split often and soon; great ones need many tags to split at all.
        let steps = rng.pick(&[20, 60, 60, 150, 400]);
        let most = rng.pick(&[10, 40, 40, 300, 700]);
        let room = rng.pick(&[most, most + steps / 2, most + 2 * steps, most + 2 * steps]);
        let start = ground(rng, room);
        history(&mut Session::new(subject, tally, start), rng, s, r, steps, most)?;
    }
    Ok(())
}

/// So many sound stores of random shape, with a walk on each.
pub fn shapes(subject: &dyn Subject, tally: &mut Tally, rng: &mut Rng, size: usize) -> Result<(), Failure> {
    for &(s, r) in pairs(rng).iter().cycle().take(size) {
        let most = rng.pick(&[8, 30, 100, 600]);
        let mut start = shape::any(rng, s, r, most);
        let (room, fill) = (rng.below(300), rng.word());
        start.resize(start.len() + room, fill);
        let steps = rng.pick(&[5, 10, 40]);
        walk(&mut Session::new(subject, tally, start), rng, steps)?;
    }
    Ok(())
}

/// What is done with a store.
type Each<'a> = &'a mut dyn FnMut(&mut Rng, &[u32]) -> Result<(), Failure>;

/// So many small sound stores. Half of them have the smallest s and r, where few tags make a tree of some height.
fn small_stores(rng: &mut Rng, size: usize, each: Each) -> Result<(), Failure> {
    for (i, &(s, r)) in pairs(rng).iter().cycle().take(size).enumerate() {
        let (s, r) = if i % 2 == 0 { (2 + rng.below(2) as u32, 2) } else { (s, r) };
        let most = rng.pick(&[0, 1, 4, 6, 9, 9, 40]);
        let sound = shape::any(rng, s, r, most);
        each(rng, &sound)?;
    }
    Ok(())
}

/// Stores with each flaw in their trees, for so many of s and r.
fn flawed_stores(rng: &mut Rng, size: usize, each: Each) -> Result<(), Failure> {
    for &(s, r) in pairs(rng).iter().cycle().take(size) {
        for flaw in Flaw::ALL {
            // A full node needs s·r^2 leaves.
            let most = if matches!(flaw, Flaw::Full | Flaw::FullRoot) { 6_000 } else { 400 };
            if let Some(words) = flaw::flawed(rng, s, r, flaw, most) {
                each(rng, &words)?;
            }
        }
    }
    Ok(())
}

/// So many sound stores, each damaged in all ways.
pub fn damages(subject: &dyn Subject, tally: &mut Tally, rng: &mut Rng, size: usize) -> Result<(), Failure> {
    small_stores(rng, size, &mut |rng, sound| damage::damage(subject, tally, rng, sound))
}

/// So many small sound stores, with sheets at all their places and into words for just so many tags.
pub fn sheet_places(subject: &dyn Subject, tally: &mut Tally, rng: &mut Rng, size: usize) -> Result<(), Failure> {
    small_stores(rng, size, &mut |rng, sound| {
        insert_sheets::everywhere(subject, tally, rng, sound)?;
        insert_sheets::room(subject, tally, rng, sound)
    })
}

/// Stores with flaws, for so many of s and r.
pub fn flaws(subject: &dyn Subject, tally: &mut Tally, rng: &mut Rng, size: usize) -> Result<(), Failure> {
    flawed_stores(rng, size, &mut |rng, words| damage::flawed(subject, tally, rng, words))
}

/// The comparison by calls.
pub fn calls(subject: &dyn Subject, tally: &mut Tally, seed: u64, size: usize) -> Result<(), Failure> {
    let mut rng = Rng::new(seed);
    let rng = &mut rng;
    limits::loads(subject, tally)?;
    limits::words(subject, tally, rng)?;
    histories(subject, tally, rng, size)?;
    shapes(subject, tally, rng, size)?;
    sheet_places(subject, tally, rng, size)?;
    damages(subject, tally, rng, size / 8 + 4)?;
    flaws(subject, tally, rng, size)?;
    limits::run_from_k(subject, tally, rng)?;
    insert_sheets::from_k(subject, tally)?;
    limits::heights(subject, tally, rng)?;
    // With 225 or more the run is meant to meet all pairs; the great stores then come too.
    let great = 225 <= size;
    limits::labels(subject, tally, rng, if great { 20_000 } else { 5_000 })?;
    insert_sheets::labels(subject, tally, rng, if great { 4_000 } else { 1_100 })?;
    if great {
        limits::tables(subject, tally, rng)?;
    }
    limits::tags(subject, tally, rng)?;
    insert_sheets::tags_at_most(subject, tally, rng)
}

/// So many histories, each with stops in it, from sound stores of random shape and from loads over them.
pub fn stops(subject: &dyn Subject, tally: &mut Tally, rng: &mut Rng, size: usize) -> Result<(), Failure> {
    for &(s, r) in pairs(rng).iter().cycle().take(size) {
        let (most, more) = (rng.pick(&[0, 8, 40, 300]), rng.below(120));
        let start = [shape::any(rng, s, r, most), ground(rng, more)].concat();
        let mut session = Session::new(subject, tally, start);
        if rng.percent(60) {
            let n = kinds::size(rng, s, r, more);
            session.step(Call::Load { s, r, book: rng.word(), kinds: kinds::nested(rng, n) })?;
        }
        for _ in 0..4 {
            let steps = rng.pick(&[0, 3, 12]);
            walk(&mut session, rng, steps)?;
            files::stop(&mut session, rng)?;
        }
    }
    Ok(())
}

/// So many small sound stores as files, with slices of all lengths, and damaged in all ways.
pub fn damaged_files(subject: &dyn Subject, tally: &mut Tally, rng: &mut Rng, size: usize) -> Result<(), Failure> {
    small_stores(rng, size, &mut |rng, sound| {
        files::lengths(subject, tally, rng, sound)?;
        files::damage(subject, tally, rng, sound)
    })
}

/// Stores with flaws, as words and as files, for so many of s and r.
pub fn flawed_files(subject: &dyn Subject, tally: &mut Tally, rng: &mut Rng, size: usize) -> Result<(), Failure> {
    flawed_stores(rng, size, &mut |_, words| files::flawed(subject, tally, words))
}

/// The comparison by files.
pub fn files(subject: &dyn Subject, tally: &mut Tally, seed: u64, size: usize) -> Result<(), Failure> {
    let mut rng = Rng::new(seed.rotate_left(16));
    let rng = &mut rng;
    stops(subject, tally, rng, size)?;
    damaged_files(subject, tally, rng, size / 3 + 4)?;
    flawed_files(subject, tally, rng, size / 2 + 4)?;
    files::deep(subject, tally)?;
    files::great(subject, tally, rng)
}

/// So many systems with a list of grants, over sound stores of random shape, and now and then over words that are none. Half
/// of them have the smallest s and r.
pub fn systems(subject: &dyn Subject, tally: &mut Tally, rng: &mut Rng, size: usize) -> Result<(), Failure> {
    for &(s, r) in pairs(rng).iter().cycle().take(size) {
        let (s, r) = if rng.percent(50) { (2 + rng.below(2) as u32, 2) } else { (s, r) };
        let most = rng.pick(&[2, 6, 9, 12, 40, 100]);
        let mut words = rights::any_store(rng, s, r, most);
        let (room, fill) = (rng.pick(&[0, 9, 40, 150, 300]), rng.word());
        words.resize(words.len() + room, fill);
        if rng.percent(8) {
            words = ground(rng, most);
            words.truncate(rng.pick(&[7, usize::MAX, usize::MAX]));
        }
        let (start, steps) = (rights::any_system(rng, words), rng.pick(&[8, 25, 60]));
        rights::walk(&mut Session::new(subject, tally, start), rng, steps)?;
    }
    Ok(())
}

/// So many small sound stores, with rights on all their sections.
pub fn rights_everywhere(subject: &dyn Subject, tally: &mut Tally, rng: &mut Rng, size: usize) -> Result<(), Failure> {
    small_stores(rng, size, &mut |rng, sound| rights::everywhere(subject, tally, rng, sound))
}

/// So many small sound stores, each damaged in all ways, with rights on them.
pub fn damaged_rights(subject: &dyn Subject, tally: &mut Tally, rng: &mut Rng, size: usize) -> Result<(), Failure> {
    small_stores(rng, size, &mut |rng, sound| rights::damage(subject, tally, rng, sound))
}

/// The comparison of rights.
pub fn rights(subject: &dyn Subject, tally: &mut Tally, seed: u64, size: usize) -> Result<(), Failure> {
    let mut rng = Rng::new(seed.rotate_left(48));
    let rng = &mut rng;
    systems(subject, tally, rng, 32 * size)?;
    rights_everywhere(subject, tally, rng, size / 2 + 4)?;
    damaged_rights(subject, tally, rng, size / 8 + 4)?;
    rights::labels(subject, tally, rng, if size < 225 { 1_100 } else { 4_000 })?;
    rights::tags_at_most(subject, tally)
}

/// Runs a script on the program, cut into pieces by chance.
fn attempt(program: &dyn LineProgram, rng: &mut Rng, script: Script) -> Result<(), Found> {
    let pieces = Pieces::any(rng, script.input.len());
    match compare(program, &script.input, &script.due, &pieces) {
        Some(what) => Err(Found { script: script.input, pieces, what }),
        None => Ok(()),
    }
}

/// The comparison by lines.
pub fn lines(program: &dyn LineProgram, tally: &mut LineTally, seed: u64, size: usize) -> Result<(), Found> {
    let mut rng = Rng::new(!seed);
    let rng = &mut rng;
    let few = vec![scripts::fresh(tally), scripts::run_from_k(rng, tally)];
    for script in [scripts::endings(tally), few, scripts::misses(tally)].concat() {
        attempt(program, rng, script)?;
    }
    for (i, (s, r)) in pairs(rng).into_iter().cycle().take(size).enumerate() {
        let script = scripts::mixed(rng, tally, s, r);
        attempt(program, rng, script)?;
        if i % 15 == 0 {
            let script = scripts::long(rng, tally, s, r);
            attempt(program, rng, script)?;
        }
        if i % 30 == 0 {
            let script = scripts::full(rng, tally);
            attempt(program, rng, script)?;
            let script = scripts::lengths(rng, tally);
            attempt(program, rng, script)?;
        }
    }
    Ok(())
}

/// Compares one text, and counts it under a name.
fn text(reader: &dyn SheetReader, tally: &mut Tally, name: &'static str, text: &[u8]) -> Result<(), Misread> {
    let refusal = compare_sheet(reader, text)?;
    *tally.entry((name, refusal)).or_default() += 1;
    Ok(())
}

/// So many rounds of texts by chance, each as it is and spoiled.
pub fn drawn(reader: &dyn SheetReader, tally: &mut Tally, rng: &mut Rng, size: usize) -> Result<(), Misread> {
    for _ in 0..size {
        let mut texts = Vec::new();
        for _ in 0..4 {
            let (nodes, depth) = (rng.pick(&[1, 3, 8, 30, 100]), rng.pick(&[0, 1, 3, 8, DEPTH]));
            texts.push(("tree", 20, printed::tree(rng, nodes, depth).text));
        }
        texts.extend((0..40).map(|_| ("pieces", 2, sheets::joined(rng))));
        texts.extend([4, 12, 30, 100].map(|most| ("crowded", 2, sheets::crowded(rng, most))));
        texts.extend((DEPTH - 2..=DEPTH + 2).map(|open| ("depth", 2, sheets::deep(rng, open))));
        for (name, spoilings, it) in texts {
            text(reader, tally, name, &it)?;
            for _ in 0..spoilings {
                text(reader, tally, "spoiled", &sheets::spoiled(rng, &it))?;
            }
        }
    }
    Ok(())
}

/// Attributes of a tag: around as many as the library keeps at once, 1,024, twice and three times as many.
const PACKED: [usize; 9] = [1_023, 1_024, 1_025, 2_047, 2_048, 2_049, 3_071, 3_072, 3_073];

/// So many tags of very many attributes, and each spoiled.
pub fn packed(reader: &dyn SheetReader, tally: &mut Tally, rng: &mut Rng, size: usize) -> Result<(), Misread> {
    for _ in 0..size {
        let many = rng.pick(&PACKED);
        let it = sheets::packed(rng, many);
        text(reader, tally, "packed", &it)?;
        text(reader, tally, "spoiled", &sheets::spoiled(rng, &it))?;
    }
    Ok(())
}

/// The comparison of sheets: the specimens, all short texts at each place where something may stand, then texts by chance,
/// tags of very many attributes last. The tally counts texts.
pub fn sheets(reader: &dyn SheetReader, tally: &mut Tally, seed: u64, size: usize) -> Result<(), Misread> {
    sheets::specimens().iter().try_for_each(|it| text(reader, tally, "specimen", it))?;
    // As with the stores: the longer texts come with a run that is meant to meet all s and r.
    sheets::at_each_place(if size < 225 { 2 } else { 3 }, |it| text(reader, tally, "place", it))?;
    let rng = &mut Rng::new(seed.rotate_left(32));
    drawn(reader, tally, rng, 4 * size)?;
    packed(reader, tally, rng, size / 4)
}
