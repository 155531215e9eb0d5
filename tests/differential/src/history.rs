//! Random histories: a load and a walk of calls by a pattern, refused calls among them.

use crate::call::Call;
use crate::insert_sheets;
use crate::kinds::{self, BEGIN, END, TEXT};
use crate::session::{Failure, Session};
use crate::view::{Pair, View};
use draw::Rng;
use reference::{HEADER, Kind, NO_TAG, RECORD};

/// Where the insertions of a walk go.
#[derive(Clone, Copy, Debug)]
enum Pattern {
    OnePlace(u32),
    Front,
    /// After the last tag of the book.
    End,
    BothEnds,
    Alternating(u32, u32),
    /// After the tag inserted last.
    Onward,
    /// Somewhere inside one element.
    Section(u32),
    /// After one tag, marking each new one: full nodes of marked tags.
    MarkEach(u32),
    Anywhere,
}

fn pattern(rng: &mut Rng, view: &View) -> Pattern {
    let one = view.unmarked(rng, None).unwrap_or(NO_TAG);
    match rng.below(11) {
        0 => Pattern::OnePlace(one),
        1 => Pattern::Front,
        2 => Pattern::End,
        3 => Pattern::BothEnds,
        4 => Pattern::Alternating(one, view.any(rng)),
        5 => Pattern::Onward,
        6 => Pattern::Section(view.unmarked(rng, Some(Kind::Begin)).unwrap_or(one)),
        7..=9 => Pattern::MarkEach(one),
        _ => Pattern::Anywhere,
    }
}

fn place(rng: &mut Rng, pattern: Pattern, view: &View, step: usize) -> u32 {
    let even = step & 1 == 0;
    match pattern {
        Pattern::OnePlace(tag) | Pattern::MarkEach(tag) => tag,
        Pattern::Front => NO_TAG,
        Pattern::End => view.last(),
        Pattern::BothEnds => {
            if even {
                NO_TAG
            } else {
                view.last()
            }
        }
        Pattern::Alternating(one, other) => {
            if even {
                one
            } else {
                other
            }
        }
        Pattern::Onward => (view.tags.len() as u32).wrapping_sub(1),
        Pattern::Section(begin) => view.inside(rng, begin),
        Pattern::Anywhere => view.any(rng),
    }
}

/// A call that is not the pattern's insertion.
pub(crate) fn other(rng: &mut Rng, view: &View, held: &[Pair]) -> Call {
    let n = view.tags.len();
    match rng.below(7) {
        0 => Call::Insert { kind: rng.pick(&[0, END, 4, 17, 19, 255, BEGIN, TEXT]), place: view.odd(rng) },
        6 => Call::InsertSheet { kinds: insert_sheets::any(rng), place: view.odd(rng) },
        1 => Call::Mark { tag: view.odd(rng) },
        2 => Call::Hold { tag: view.odd(rng) },
        3 | 4 if !held.is_empty() => {
            let pair = rng.pick(held);
            let [book, tag, start, end] = view.nearly(rng, pair);
            let d = match rng.below(5) {
                0 => view.odd(rng),
                1 => view.any(rng),
                _ => view.inside(rng, tag),
            };
            Call::Question { book, tag, start, end, d }
        }
        3 => Call::Question { book: view.book, tag: view.any(rng), start: 0, end: 0, d: view.any(rng) },
        _ => {
            let begin = if rng.percent(40) { NO_TAG } else { view.odd(rng) };
            let short = rng.below(n + 1);
            let lens = [n, n, n + 2, short];
            Call::List { begin, tags: rng.pick(&lens), labels: rng.pick(&lens) }
        }
    }
}

/// So many calls on a sound store.
pub fn walk(session: &mut Session, rng: &mut Rng, steps: usize) -> Result<(), Failure> {
    let Some(view) = View::of(&session.system.words) else { return Ok(()) };
    let mut pattern_now = pattern(rng, &view);
    let elements = rng.pick(&[0, 10, 50, 100]);
    // In half of the walks many tags are marked: they move, and do not count as moved.
    let marks = rng.pick(&[2, 2, 20, 50]);
    let sheets = rng.pick(&[0, 5, 25]);
    let mut held: Vec<Pair> = Vec::new();
    let mut full = 0;
    for step in 0..steps {
        let Some(view) = View::of(&session.system.words) else { return Ok(()) };
        if rng.percent(15) {
            let call = other(rng, &view, &held);
            session.step(call)?;
        }
        if rng.percent(8) {
            let tag = view.unmarked(rng, Some(Kind::Begin)).unwrap_or(0);
            let reply = session.step(Call::Hold { tag })?;
            if reply[0] == 0 {
                let [_, book, tag, start, end] = reply;
                held.push([book, tag, start, end]);
                // Just held, the pair is good; later it may be stale.
                session.step(Call::Question { book, tag, start, end, d: view.inside(rng, tag) })?;
            }
        }
        if rng.percent(marks) {
            let kind = rng.pick(&[Some(Kind::Text), Some(Kind::Begin)]);
            if let Some(tag) = view.unmarked(rng, kind) {
                session.step(Call::Mark { tag })?;
            }
        }
        let place = place(rng, pattern_now, &view, step);
        let call = match if rng.percent(elements) { BEGIN } else { TEXT } {
            _ if rng.percent(sheets) => Call::InsertSheet { kinds: insert_sheets::any(rng), place },
            kind => Call::Insert { kind, place },
        };
        let reply = session.step(call)?;
        if reply[0] == 0 && matches!(pattern_now, Pattern::MarkEach(_)) {
            session.step(Call::Mark { tag: reply[1] })?;
        }
        // A full store refuses the same way again and again.
        full = if reply[0] == 6 || reply[0] == 7 { full + 1 } else { 0 };
        if full == 10 {
            return Ok(());
        }
        // A place that has become marked gives 9 from then on, and once in a while another pattern is due anyway.
        if reply[0] == 9 || rng.percent(1) {
            pattern_now = pattern(rng, &view);
        }
    }
    Ok(())
}

/// Words for a start: enough for so many tags and a few more, with any old content.
pub fn ground(rng: &mut Rng, tags: usize) -> Vec<u32> {
    let len = HEADER + RECORD * tags + rng.below(8);
    match rng.below(3) {
        0 => vec![0; len],
        1 => (0..len).map(|_| rng.word()).collect(),
        _ => (0..len).map(|_| rng.below(4) as u32).collect(),
    }
}

/// Loads, accepted and refused, each accepted one with a walk.
pub fn history(session: &mut Session, rng: &mut Rng, s: u32, r: u32, steps: usize, most: usize) -> Result<(), Failure> {
    session.step(Call::Insert { kind: TEXT, place: NO_TAG })?;
    for part in 0..2 {
        let n = kinds::size(rng, s, r, most);
        if rng.percent(30) {
            let kinds = kinds::spoiled(rng, n);
            session.step(Call::Load { s, r, book: rng.word(), kinds })?;
        }
        if rng.percent(10) {
            let (s, r) = rng.pick(&[(1, r), (17, r), (s, 1), (s, 17), (0, 0), (u32::MAX, r), (s, u32::MAX)]);
            session.step(Call::Load { s, r, book: 0, kinds: kinds::nested(rng, n) })?;
        }
        session.step(Call::Load { s, r, book: rng.word(), kinds: kinds::nested(rng, n) })?;
        walk(session, rng, if part == 0 { steps } else { steps / 8 })?;
        // A second load over the first book, mostly left out.
        if rng.percent(80) {
            break;
        }
    }
    Ok(())
}
