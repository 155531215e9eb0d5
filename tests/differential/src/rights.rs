//! Rights for parties: random systems of a store and a list of grants, with calls of all who take part; every section and
//! every tag of small stores; damaged stores; and the limits of labels and of tags.

use crate::call::Call;
use crate::damage::{KIND, order, variants};
use crate::file_damage::records;
use crate::history::other;
use crate::insert_sheets::with_room;
use crate::kinds::{self, BEGIN, END, TEXT};
use crate::session::{Failure, Session, Tally};
use crate::shape;
use crate::subject::Subject;
use crate::system::{Grant, System};
use crate::view::{Pair, View};
use draw::Rng;
use reference::{HEADER, INSERT, Kind, NO_TAG, READ, RECORD, WRITE};

/// Parties that come again and again, so that one without a grant often had one before, or gets one later.
const PARTIES: [u32; 4] = [1, 5, 6, 65_535];

/// Numbers that are no party's. Two of them have the 16 low bits of one.
const NO_PARTY: [u32; 6] = [0, 65_536, 65_541, 65_537, 1 << 31, u32::MAX];

const RIGHTS: [u32; 3] = [READ, WRITE, INSERT];

/// Numbers that are not one right.
const NO_RIGHT: [u32; 9] = [0, 3, 5, 6, 7, 8, 12, 1 << 31, u32::MAX];

fn any_party(rng: &mut Rng) -> u32 {
    if rng.percent(6) { rng.pick(&NO_PARTY) } else { rng.pick(&PARTIES) }
}

/// A party without a live grant, if a few draws find one.
fn powerless(rng: &mut Rng, system: &System) -> u32 {
    let has = |party: u32| system.live().iter().any(|grant| grant[0] == party);
    (0..8).map(|_| rng.pick(&PARTIES)).find(|&party| !has(party)).unwrap_or(7)
}

/// An unmarked begin, mostly of an element with something in it, if a few draws find one; now and then any number.
fn any_section(rng: &mut Rng, view: &View) -> u32 {
    let around = if rng.percent(70) { view.around(rng) } else { None };
    let begin = around.or_else(|| view.unmarked(rng, Some(Kind::Begin)));
    begin.filter(|_| !rng.percent(10)).unwrap_or_else(|| view.odd(rng))
}

/// A record as a caller may keep it: mostly what a grant has written, at times with numbers that none writes.
fn any_record(rng: &mut Rng, view: &View) -> Grant {
    let (party, section) = (rng.pick(&PARTIES), any_section(rng, view));
    let rights = rng.below(8) as u32;
    match rng.below(20) {
        0 => [0; 3],
        1 => [rng.word(), rng.word(), rng.word()],
        2 => [party + (1 << 16), section, rights],
        3 => [party, section, rng.word() & !7 | rights],
        4 => [party, rng.word(), rights],
        _ => [party, section, rights],
    }
}

/// Of a few draws mostly the one with the most of something.
fn mostly<T>(rng: &mut Rng, mut draw: impl FnMut(&mut Rng) -> T, most: impl Fn(&T) -> usize) -> T {
    let mut some: Vec<T> = (0..4).map(|_| draw(rng)).collect();
    some.sort_by_key(most);
    let at = if rng.percent(75) { 3 } else { rng.below(4) };
    some.swap_remove(at)
}

/// A sound store of at most so many tags, mostly one with sections to grant.
pub fn any_store(rng: &mut Rng, s: u32, r: u32, most: usize) -> Vec<u32> {
    let begin = |tag: &&[u32]| tag[KIND] == u32::from(BEGIN);
    mostly(rng, |rng| shape::any(rng, s, r, most), |words| words[HEADER..].chunks(RECORD).filter(begin).count())
}

/// So many kinds, mostly with sections to grant.
fn any_kinds(rng: &mut Rng, n: usize) -> Vec<u8> {
    mostly(rng, |rng| kinds::nested(rng, n), |kinds| kinds.iter().filter(|kind| **kind == BEGIN).count())
}

/// These words with a list of grants and a count, which now and then is above the list.
pub fn any_system(rng: &mut Rng, words: Vec<u32>) -> System {
    let view = View::of(&words).unwrap_or_default();
    let len = rng.pick(&[0, 1, 2, 3, 5, 8, 8, 20]);
    let grants = (0..len).map(|_| any_record(rng, &view)).collect();
    let some = rng.below(len + 1);
    let above = rng.pick(&[len + 1, len + 2, len + (1 << 32), usize::MAX]);
    let count = if rng.percent(8) { above } else { rng.pick(&[0, len, some, some]) };
    System { words, grants, count }
}

/// Another book, by a load or by a file of this one, mostly so that all grants end; now and then it is refused.
fn anew(rng: &mut Rng, words: &[u32], sound: bool) -> Call {
    let ends = rng.percent(70);
    if sound && rng.percent(50) {
        let mut file = records(words, &order(words)).concat();
        if rng.percent(30) {
            let at = rng.below(file.len());
            file[at] ^= 1 << rng.below(8);
        }
        let cleared = rng.percent(50).then(|| rng.word());
        return if ends { Call::ReadWithGrants { file, cleared } } else { Call::Read { file, cleared } };
    }
    let (s, r) = rng.pick(&[(2, 2), (2, 2), (3, 2), (2, 3), (4, 4), (16, 2), (17, 2)]);
    let most = rng.pick(&[8, 30, words.len() / RECORD]);
    let (n, book) = (2 + rng.below(most), rng.pick(&[7, 8]));
    let kinds = if rng.percent(20) { kinds::spoiled(rng, n) } else { any_kinds(rng, n) };
    if ends { Call::LoadWithGrants { s, r, book, kinds } } else { Call::Load { s, r, book, kinds } }
}

/// A record to aim a call at: mostly a live one that names a section, at times one behind the count or none of the list.
fn aim(rng: &mut Rng, view: &View, system: &System) -> Grant {
    let among = if rng.percent(12) { &system.grants } else { system.live() };
    if among.is_empty() || rng.percent(8) {
        return [any_party(rng), any_section(rng, view), 0];
    }
    let some = [rng.pick(among), rng.pick(among), rng.pick(among)];
    some.into_iter().find(|grant| view.is_section(grant[1])).unwrap_or(some[0])
}

/// One right, mostly of these.
fn any_right(rng: &mut Rng, rights: u32) -> u32 {
    let given: Vec<u32> = RIGHTS.into_iter().filter(|right| rights / right % 2 == 1).collect();
    match rng.below(16) {
        0 => rng.pick(&NO_RIGHT),
        1..=9 if !given.is_empty() => rng.pick(&given),
        _ => rng.pick(&[READ, WRITE, INSERT, INSERT]),
    }
}

/// A party's call: mostly at what a record grants, with the pair of the moment and a tag inside.
fn any_party_call(rng: &mut Rng, view: &View, system: &System, held: &[Pair]) -> Call {
    let [by, on, rights] = aim(rng, view, system);
    let party = match rng.below(10) {
        0..=4 => by,
        5 => by % (1 << 16),
        6 => any_party(rng),
        _ => powerless(rng, system),
    };
    let pair = if !held.is_empty() && rng.percent(12) { rng.pick(held) } else { view.pair(on) };
    let [book, tag, start, end] = if rng.percent(25) { view.nearly(rng, pair) } else { pair };
    let d = match rng.below(12) {
        0 | 1 => tag,
        2 => view.mate(tag),
        3 => view.odd(rng),
        4 => view.any(rng),
        _ => view.inside(rng, tag),
    };
    let right = any_right(rng, rights);
    let kind = if rng.percent(15) { rng.pick(&[0, END, 4, 17, 19, 255]) } else { rng.pick(&[BEGIN, TEXT, TEXT]) };
    Call::Party { party, book, tag, start, end, d, right, kind }
}

fn any_grant(rng: &mut Rng, view: &View, system: &System) -> Call {
    let rights = if rng.percent(6) { rng.pick(&[0, 8, 9, 15, 1 << 31, u32::MAX]) } else { 1 + rng.below(7) as u32 };
    // At times one that stands there already.
    match system.live() {
        live @ [_, ..] if rng.percent(15) => {
            let [party, section, rights] = rng.pick(live);
            Call::Grant { party, section, rights }
        }
        _ => Call::Grant { party: any_party(rng), section: any_section(rng, view), rights },
    }
}

fn any_revoke(rng: &mut Rng, view: &View, system: &System) -> Call {
    let (party, section) = (any_party(rng), any_section(rng, view));
    let [by, on, _] = system.grants.get(rng.below(system.grants.len())).copied().unwrap_or([party, section, 0]);
    match rng.below(6) {
        0 => Call::Revoke { party, section },
        1 => Call::Revoke { party, section: on },
        _ => Call::Revoke { party: by, section: on },
    }
}

fn any_call(rng: &mut Rng, system: &System, held: &[Pair]) -> Call {
    let view = View::of(&system.words);
    let sound = view.is_some();
    let view = view.unwrap_or_default();
    // Where there is nothing to grant, or all is refused, another book is the way out.
    let stuck = system.count > system.grants.len() || !(0..view.tags.len()).any(|tag| view.is_section(tag as u32));
    match rng.below(100) {
        _ if stuck && rng.percent(25) => anew(rng, &system.words, sound),
        0..=44 => any_party_call(rng, &view, system, held),
        45..=66 => any_grant(rng, &view, system),
        67..=78 => any_revoke(rng, &view, system),
        79..=82 => anew(rng, &system.words, sound),
        83..=90 => Call::Insert { kind: rng.pick(&[BEGIN, TEXT]), place: view.any(rng) },
        _ => other(rng, &view, held),
    }
}

/// So many calls on any system. Then the whole of them is set beside those that are left without the calls of parties that
/// had no grant.
pub fn walk(session: &mut Session, rng: &mut Rng, steps: usize) -> Result<(), Failure> {
    let mut held = Vec::new();
    for _ in 0..steps {
        let call = any_call(rng, &session.system, &held);
        if let Call::Party { book, tag, start, end, .. } = call {
            held.push([book, tag, start, end]);
        }
        session.step(call)?;
    }
    session.isolate()
}

/// A party's call with this pair.
fn asked(party: u32, [book, tag, start, end]: Pair, d: u32, right: u32, kind: u8) -> Call {
    Call::Party { party, book, tag, start, end, d, right, kind }
}

/// Every tag as a section, granted and asked for by a party that has the right there and by one that has the others, with
/// every tag as d and each right.
pub fn everywhere(subject: &dyn Subject, tally: &mut Tally, rng: &mut Rng, sound: &[u32]) -> Result<(), Failure> {
    let view = View::of(sound).unwrap_or_default();
    let words = with_room(sound, rng.below(3));
    let numbers: Vec<u32> = (0..=view.tags.len() as u32).chain([NO_TAG]).collect();
    let over = |grants: &[Grant], count| System { words: words.clone(), grants: grants.to_vec(), count };
    for &tag in &numbers {
        for room in 0..2 {
            let start = over(&[[9; 3], [8; 3]][..room], 0);
            Session::new(subject, tally, start).step(Call::Grant { party: 5, section: tag, rights: 7 })?;
        }
        for (&d, right) in numbers.iter().flat_map(|d| RIGHTS.map(|right| (d, right))) {
            let start = over(&[[5, tag, right], [6, tag, 7 - right], [6, tag, 7]], 2);
            let call = asked(rng.pick(&[5, 5, 6]), view.pair(tag), d, right, rng.pick(&[BEGIN, TEXT, END]));
            Session::new(subject, tally, start).step(call)?;
        }
    }
    Ok(())
}

/// One of a few calls on every damaged form of a store, with a list that would allow most of them.
pub fn damage(subject: &dyn Subject, tally: &mut Tally, rng: &mut Rng, sound: &[u32]) -> Result<(), Failure> {
    let view = View::of(sound).unwrap_or_default();
    let pair = view.pair(view.unmarked(rng, Some(Kind::Begin)).unwrap_or(0));
    let (section, d) = (pair[1], view.inside(rng, pair[1]));
    let calls = [
        Call::Grant { party: 5, section, rights: 7 },
        Call::Grant { party: 0, section, rights: 7 },
        Call::Revoke { party: 5, section },
        asked(5, pair, d, READ, 0),
        asked(5, pair, section, INSERT, TEXT),
        asked(5, pair, section, INSERT, BEGIN),
        asked(9, pair, d, INSERT, TEXT),
        asked(5, pair, d, 3, TEXT),
    ];
    for words in variants(sound, rng) {
        let room = if words.len() == sound.len() { rng.below(3) } else { 0 };
        let start =
            System { words: with_room(&words, room), grants: vec![[6, 0, 1], [5, section, 7], [0; 3]], count: 2 };
        let call = calls[rng.below(calls.len())].clone();
        Session::new(subject, tally, start).step(call)?;
    }
    Ok(())
}

/// A text and an element by a party, of which one or both are more than the labels reach. Only where that is at most so many
/// tags.
pub fn labels(subject: &dyn Subject, tally: &mut Tally, rng: &mut Rng, most: usize) -> Result<(), Failure> {
    for (s, r) in (2..=16).flat_map(|s| (2..=16).map(move |r| (s, r))) {
        let top = shape::top(s, r);
        let full = shape::leaves(s, r, top).1;
        for n in [full - 1, full].into_iter().filter(|n| *n < most) {
            let labels = shape::labels(rng, s, r, top, n);
            let words = with_room(&shape::store(rng, s, r, top, &labels), 2);
            let view = View::of(&words).unwrap_or_default();
            let Some(section) = view.unmarked(rng, Some(Kind::Begin)) else { continue };
            for kind in [TEXT, BEGIN, END] {
                let start = System { words: words.clone(), grants: vec![[5, section, 4]], count: 1 };
                Session::new(subject, tally, start).step(asked(5, view.pair(section), section, INSERT, kind))?;
            }
        }
    }
    Ok(())
}

/// A party's insertions into a book of 199,999 tags, all inside one element.
pub fn tags_at_most(subject: &dyn Subject, tally: &mut Tally) -> Result<(), Failure> {
    let most = 200_000;
    let start = System { words: vec![0; HEADER + RECORD * (most + 2)], grants: vec![[0; 3]; 2], count: 9 };
    let mut session = Session::new(subject, tally, start);
    let kinds = [&[BEGIN][..], &vec![TEXT; most - 3], &[END]].concat();
    session.step(Call::LoadWithGrants { s: 2, r: 16, book: 7, kinds })?;
    session.step(Call::Grant { party: 65_535, section: 0, rights: 4 })?;
    for kind in [BEGIN, TEXT, TEXT] {
        let pair = View::of(&session.system.words).unwrap_or_default().pair(0);
        session.step(asked(65_535, pair, 99_999, INSERT, kind))?;
    }
    Ok(())
}
