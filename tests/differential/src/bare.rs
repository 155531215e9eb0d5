//! Document 01's bare list, and the statements of demand 3 about a store beside it.
//!
//! The list is fed arguments and whether a call was accepted, never a word of the store. Only the checks look at words.

use crate::call::{Call, Reply};
use crate::kinds::{BEGIN, END};
use reference::{HEADER, NO_TAG, RECORD, bytes_for};

/// Where a record has its label, its kind and its depth, and what a mark adds to the kind.
const LABEL: usize = 0;
const KIND: usize = 5;
const DEPTH: usize = 6;
const MARK: u32 = 16;

pub struct Bare {
    pub(crate) s: u64,
    pub(crate) r: u64,
    /// The tag numbers in book order.
    pub(crate) list: Vec<u32>,
    /// Tags of the load.
    n0: u64,
    /// Tags inserted since.
    m: u64,
    pub(crate) height: u32,
    /// The sum of the moved numbers replied since the load: T.
    moved: u64,
    /// How many tags got another label since then, marked ones too: never fewer than T.
    relabelled: u64,
    /// Kind and mark of each tag, by number. Document 01's list keeps neither; they tell which calls are to be refused.
    pub(crate) kinds: Vec<u8>,
    pub(crate) marked: Vec<bool>,
}

impl Bare {
    /// The list after an accepted load.
    pub fn load(s: u32, r: u32, kinds: &[u8]) -> Bare {
        let (s, r, n0) = (u64::from(s), u64::from(r), kinds.len() as u64);
        let mut height = 1;
        while n0 >= 2 * r.pow(height) {
            height += 1;
        }
        let list = (0..kinds.len() as u32).collect();
        Bare {
            s,
            r,
            list,
            n0,
            m: 0,
            height,
            moved: 0,
            relabelled: 0,
            kinds: kinds.to_vec(),
            marked: vec![false; kinds.len()],
        }
    }

    /// An accepted call after the load, or what is wrong with the numbers that it replied.
    pub fn accepted(&mut self, call: &Call, reply: &Reply) -> Result<(), String> {
        if let Some(it) = call.insertion(reply) {
            if it.first as usize != self.list.len() {
                return Err(format!("bare list: first new tag {}, not {}", it.first, self.list.len()));
            }
            self.insert(it.kinds, it.place);
            self.moved += u64::from(it.moved);
        }
        match *call {
            Call::Mark { tag } => {
                let count = self.mark(tag);
                if reply[1] != count {
                    return Err(format!("bare list: {} became marked, not {count}", reply[1]));
                }
            }
            Call::Write { .. } if reply[1] as usize != bytes_for(self.list.len()) => {
                return Err(format!("bare list: a file of {} bytes for {} tags", reply[1], self.list.len()));
            }
            _ => {}
        }
        Ok(())
    }

    fn insert(&mut self, kinds: &[u8], place: u32) {
        let at = if place == NO_TAG { 0 } else { self.position(place) + 1 };
        for (i, &kind) in kinds.iter().enumerate() {
            self.list.insert(at + i, self.list.len() as u32);
            self.kinds.push(kind);
            self.marked.push(false);
            self.m += 1;
            if self.list.len() as u64 == self.s * self.r.pow(self.height) {
                self.height += 1;
            }
        }
    }

    /// Marks a text, or an element with all inside; how many became marked.
    fn mark(&mut self, tag: u32) -> u32 {
        let from = self.position(tag);
        let mut count = 0;
        for &tag in &self.list[from..=self.close(from)] {
            let mark = &mut self.marked[tag as usize];
            count += u32::from(!*mark);
            *mark = true;
        }
        count
    }

    /// Where in the list the tag stands. Only asked for tags that are there.
    pub(crate) fn position(&self, tag: u32) -> usize {
        self.list.iter().position(|&it| it == tag).expect("the tag is in the list")
    }

    /// Where the element that begins at this position ends, by counting begins and ends; a text ends where it stands.
    pub(crate) fn close(&self, from: usize) -> usize {
        let mut open = 0;
        for (i, &tag) in self.list.iter().enumerate().skip(from) {
            match self.kinds[tag as usize] {
                BEGIN => open += 1,
                END => open -= 1,
                _ => {}
            }
            if open == 0 {
                return i;
            }
        }
        unreachable!("kinds are properly nested")
    }

    /// Counts all tags that an accepted insertion gave another label.
    pub fn relabelled(&mut self, before: &[u32], after: &[u32]) {
        self.relabelled += differing(LABEL, before, after).count() as u64;
    }

    /// What demand 3 says of the words, or which statement fails.
    pub fn check(&self, words: &[u32]) -> Result<(), String> {
        let n = self.list.len() as u64;
        if words.len() < HEADER + RECORD * self.list.len() {
            return Err("bare list: more tags than words".into());
        }
        let header = [self.s as u32, self.r as u32, self.height, n as u32];
        if words[1..5] != header {
            return Err(format!("bare list: s, r, H, n are {:?}, not {header:?}", &words[1..5]));
        }
        self.check_chain(words)?;
        if self.height >= 2 && 2 * self.r.pow(self.height - 1) > n {
            return Err(format!("bare list: 2·r^(H-1) > {n} with H = {}", self.height));
        }
        let (s, f) = (self.s, self.s * self.r);
        let paid = (s - 1) * (f * self.m + 2 * n) + f * (u64::from(self.height - 1) * self.m + self.n0);
        if (s - 1) * self.moved > paid {
            return Err(format!("bare list: (s-1)·T = {} is over {paid}", (s - 1) * self.moved));
        }
        if self.moved > self.relabelled {
            return Err(format!("bare list: T = {}, and {} tags got another label", self.moved, self.relabelled));
        }
        Ok(())
    }

    /// Tags along next are the list, labels rise below (f - 1)^H, and depths are those of the kinds along it.
    fn check_chain(&self, words: &[u32]) -> Result<(), String> {
        let bound = (self.s * self.r - 1).pow(self.height);
        let mut here = words[5];
        let mut above: Option<u32> = None;
        let mut open = 0;
        for &tag in &self.list {
            if here != tag {
                return Err(format!("bare list: next comes to {here}, not to {tag}"));
            }
            let record = &words[HEADER + RECORD * tag as usize..][..RECORD];
            let label = record[0];
            if above.is_some_and(|it| it >= label) || u64::from(label) >= bound {
                return Err(format!("bare list: label {label} of tag {tag} after {above:?}, bound {bound}"));
            }
            above = Some(label);
            let kind = self.kinds[tag as usize];
            open -= u32::from(kind == END);
            if record[DEPTH] != open {
                return Err(format!("bare list: depth {} of tag {tag}, not {open}", record[DEPTH]));
            }
            open += u32::from(kind == BEGIN);
            here = record[1];
        }
        if here != NO_TAG {
            return Err(format!("bare list: next goes on to {here} after the last tag"));
        }
        Ok(())
    }
}

/// The tags that were there before with another word in this field of their record.
fn differing<'a>(field: usize, before: &'a [u32], after: &'a [u32]) -> impl Iterator<Item = usize> + 'a {
    let at = move |tag: &usize| HEADER + RECORD * tag + field;
    (0..before[4] as usize).filter(move |tag| before[at(tag)] != after[at(tag)])
}

/// Moved and marked are differences between the words before and after an accepted call: labels of the tags that were
/// there before and are unmarked in both, and their kinds.
pub fn counts(call: &Call, reply: &Reply, before: &[u32], after: &[u32]) -> Result<(), String> {
    let unmarked = |tag: &usize| [before, after].iter().all(|words| words[HEADER + RECORD * tag + KIND] < MARK);
    let (count, said) = match (call, call.insertion(reply)) {
        (_, Some(it)) => (differing(LABEL, before, after).filter(unmarked).count(), it.moved),
        (Call::Mark { .. }, None) => (differing(KIND, before, after).count(), reply[1]),
        _ => return Ok(()),
    };
    if count == said as usize { Ok(()) } else { Err(format!("the words differ at {count} tags, not at {said}")) }
}
