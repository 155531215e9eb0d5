//! Edits of a case that leave the rest of it say what it said.

use crate::call::{Call, Case};
use crate::session::{After, perform};
use crate::subject::Reference;
use crate::system::System;
use crate::view::View;
use reference::{HEADER, Kind, NO_TAG, PROGRAM_TAGS, RECORD};

/// The number of a tag as if `many` tags from `first` on had never been: the tags after them have lower numbers, and
/// what stood at one of them now stands at the place.
pub(crate) fn lowered(tag: u32, first: u32, many: u32, place: u32) -> u32 {
    match tag {
        NO_TAG => tag,
        _ if tag >= first + many => tag - many,
        _ if tag >= first => place,
        _ => tag,
    }
}

/// The tag numbers that a call brings.
fn numbers(call: &mut Call) -> Vec<&mut u32> {
    match call {
        Call::Insert { place: tag, .. }
        | Call::InsertSheet { place: tag, .. }
        | Call::Mark { tag }
        | Call::Hold { tag }
        | Call::List { begin: tag, .. }
        | Call::Grant { section: tag, .. }
        | Call::Revoke { section: tag, .. } => vec![tag],
        Call::Question { tag, d, .. } | Call::Party { tag, d, .. } => vec![tag, d],
        Call::Load { .. } | Call::LoadWithGrants { .. } => vec![],
        Call::Write { .. } | Call::Read { .. } | Call::ReadWithGrants { .. } => vec![],
    }
}

/// Renames tags from this call on up to the next load, and in the list of grants where no load comes before.
fn rename(case: &mut Case, from: usize, name: impl Fn(u32) -> u32) {
    let first = case.calls[..from].iter().filter(|call| call.load().is_some()).count() <= 1;
    let listed = case.start.grants.iter_mut().filter(|_| first).map(|grant| &mut grant[1]);
    let calls = case.calls[from..].iter_mut().take_while(|call| call.load().is_none());
    listed.chain(calls.flat_map(numbers)).for_each(|tag| *tag = name(*tag));
}

/// Tells the calls from this one on that so many tags have never been.
pub(crate) fn forget(case: &mut Case, from: usize, first: u32, many: u32, place: u32) {
    rename(case, from, |tag| lowered(tag, first, many, place));
}

/// What the reference leaves behind.
pub(crate) fn reference(call: &Call, system: &System) -> After {
    perform(&Reference::right(), call, &call.over(system)).expect("the reference writes where it may")
}

/// The case with each pair as it would be held at that moment, where it would; None where there are no pairs.
pub(crate) fn held_again(case: &Case) -> Option<Case> {
    case.calls.iter().find(|call| matches!(call, Call::Question { .. } | Call::Party { .. }))?;
    let (mut case, mut system) = (case.clone(), case.start.clone());
    for call in &mut case.calls {
        if let Call::Question { book, tag, start, end, .. } | Call::Party { book, tag, start, end, .. } = call {
            let held = reference(&Call::Hold { tag: *tag }, &system).reply;
            if held[0] == 0 {
                [*book, _, *start, *end] = [held[1], held[2], held[3], held[4]];
            }
        }
        system = reference(call, &system).system;
    }
    Some(case)
}

/// The case with a load in place of the store that is found in its words, which is index 0, or of the file that the call
/// before this index reads. Tags are numbered along the book, and what was marked is marked by calls.
pub(crate) fn loaded(case: &Case, index: usize) -> Option<Case> {
    let ends = match case.calls.get(..index)?.last() {
        None | Some(Call::Read { .. }) => false,
        Some(Call::ReadWithGrants { .. }) => true,
        _ => return None,
    };
    let system = case.calls[..index].iter().fold(case.start.clone(), |system, call| reference(call, &system).system);
    let view = View::of(&system.words)?;
    let (s, r, book) = (system.words[1], system.words[2], view.book);
    let kinds = view.order.iter().map(|&x| (view.tags[x].kind_word() % 16) as u8).collect();
    let load = if ends { Call::LoadWithGrants { s, r, book, kinds } } else { Call::Load { s, r, book, kinds } };
    let at = |tag: u32| view.order.iter().position(|&x| x == tag as usize).map_or(tag, |at| at as u32);
    let top = |x: usize| view.tags[x].up.is_none_or(|up| !view.tags[up].marked);
    let marked = view.order.iter().filter(|&&x| view.tags[x].marked && view.tags[x].kind != Kind::End && top(x));
    let marks = marked.map(|&x| Call::Mark { tag: at(x as u32) });
    let mut case = case.clone();
    rename(&mut case, index, at);
    if index == 0 {
        case.start.words = vec![0; case.start.words.len().max(HEADER + RECORD * PROGRAM_TAGS)];
    }
    case.calls.splice(index.saturating_sub(1)..index, [load].into_iter().chain(marks));
    Some(case)
}
