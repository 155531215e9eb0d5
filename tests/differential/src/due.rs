//! Which calls must be refused and with which number, from the calls alone: load's arguments, and for the calls after
//! it the bare list with kinds and marks. Neither the reference nor a word of the store is asked.

use crate::bare::Bare;
use crate::call::Call;
use crate::kinds::{BEGIN, END, TEXT};
use reference::{HEADER, NO_TAG, RECORD, bytes_for};

const LABELS: u64 = 1 << 32;
const MOST_TAGS: usize = 200_000;

/// The first number of a condition that holds; 0 where none does.
fn first(conditions: &[(bool, u32)]) -> u32 {
    conditions.iter().find(|(holds, _)| *holds).map_or(0, |(_, number)| *number)
}

fn too_few(words: usize, tags: usize) -> bool {
    words < HEADER + RECORD * tags
}

fn all_kinds(kinds: &[u8]) -> bool {
    kinds.iter().all(|kind| [BEGIN, END, TEXT].contains(kind))
}

fn properly_nested(kinds: &[u8]) -> bool {
    let mut open = 0i64;
    kinds.iter().all(|&kind| {
        open += i64::from(kind == BEGIN) - i64::from(kind == END);
        open >= 0
    }) && open == 0
}

/// Of a load over so many words, in the order 3, 6, 1, 4, 5, 7.
pub fn load_refusal(s: u32, r: u32, kinds: &[u8], words: usize) -> u32 {
    let n = kinds.len();
    let degrees = [s, r].iter().all(|it| (2..=16).contains(it));
    let no_labels = || {
        let height = (1..).find(|&height| (n as u64) < 2 * u64::from(r).pow(height)).expect("r is at least 2");
        u64::from(s * r - 1).pow(height) > LABELS
    };
    first(&[
        (!degrees, 3),
        (n > MOST_TAGS, 6),
        (too_few(words, n), 1),
        (!all_kinds(kinds), 4),
        (!properly_nested(kinds), 5),
        (degrees && n <= MOST_TAGS && no_labels(), 7),
    ])
}

impl Bare {
    /// Of a call on a sound store of so many words. None for a question and a party's call, whose answer is a matter of
    /// labels, for a reading, which is one of the file, and for what is one of grants.
    pub fn refusal(&self, call: &Call, words: usize) -> Option<u32> {
        match *call {
            Call::Load { s, r, ref kinds, .. } | Call::LoadWithGrants { s, r, ref kinds, .. } => {
                Some(load_refusal(s, r, kinds, words))
            }
            Call::Insert { kind, place } => {
                let wrong = first(&[(kind != BEGIN && kind != TEXT, 4)]);
                Some(self.insert_refusal(wrong, if kind == BEGIN { 2 } else { 1 }, place, words))
            }
            Call::InsertSheet { ref kinds, place } => {
                let wrong = first(&[(!all_kinds(kinds), 4), (!properly_nested(kinds), 5)]);
                Some(self.insert_refusal(wrong, kinds.len(), place, words))
            }
            Call::Mark { tag } | Call::Hold { tag } => {
                Some(first(&[(self.no_tag(tag), 8), (self.is_marked(tag), 9), (self.kind(tag) == END, 10)]))
            }
            Call::List { begin, tags, labels } => Some(self.list_refusal(begin, tags.min(labels))),
            Call::Write { bytes } => Some(first(&[(bytes < bytes_for(self.list.len()), 16)])),
            Call::Question { .. } | Call::Party { .. } => None,
            Call::Read { .. } | Call::ReadWithGrants { .. } => None,
            Call::Grant { .. } | Call::Revoke { .. } => None,
        }
    }

    /// Of so many tags: what is wrong with their kinds, which is 4 or 5, or 0; then in the order 8, 9, 6, 7.
    fn insert_refusal(&self, wrong: u32, new: usize, place: u32, words: usize) -> u32 {
        let n = self.list.len() + new;
        let at_front = place == NO_TAG;
        // The height that the tree comes to, which is not that of the next root split alone where many tags go in.
        let holds = |height: &u32| (n as u64) < self.s * self.r.pow(*height);
        let height = (self.height..).find(holds).expect("r is at least 2");
        let no_labels = (self.s * self.r - 1).saturating_pow(height) > LABELS;
        first(&[
            (wrong != 0, wrong),
            (!at_front && self.no_tag(place), 8),
            (!at_front && self.is_marked(place), 9),
            (n > MOST_TAGS || too_few(words, n), 6),
            (height > self.height && no_labels, 7),
        ])
    }

    /// In the order 8, 9, 10, 11; `room` is the length of the shorter list.
    fn list_refusal(&self, begin: u32, room: usize) -> u32 {
        if begin == NO_TAG {
            return first(&[(self.unmarked(&self.list) > room, 11)]);
        }
        let wrong = first(&[(self.no_tag(begin), 8), (self.is_marked(begin), 9), (self.kind(begin) != BEGIN, 10)]);
        if wrong != 0 {
            return wrong;
        }
        let from = self.position(begin);
        first(&[(self.unmarked(&self.list[from + 1..self.close(from)]) > room, 11)])
    }

    fn no_tag(&self, tag: u32) -> bool {
        tag as usize >= self.list.len()
    }

    fn is_marked(&self, tag: u32) -> bool {
        self.marked.get(tag as usize).is_some_and(|it| *it)
    }

    /// 0 for a tag that is none.
    fn kind(&self, tag: u32) -> u8 {
        self.kinds.get(tag as usize).copied().unwrap_or(0)
    }

    fn unmarked(&self, tags: &[u32]) -> usize {
        tags.iter().filter(|&&tag| !self.is_marked(tag)).count()
    }
}
