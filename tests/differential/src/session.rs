//! A session makes calls on the subject and on the reference, from the same words, and compares all they give.

use crate::bare::{self, Bare};
use crate::call::{Call, Case, INSERTED, Reply, STALE, YES};
use crate::due;
use crate::in_turn;
use crate::isolation;
use crate::kept::{Kept, store_of};
use crate::subject::{Lent, Reference, Subject};
use crate::system::System;
use std::collections::BTreeMap;
use std::fmt::Debug;

/// Words around every lent slice, to see writes outside it.
const GUARD: [u32; 4] = [0xA5A5_5A5A; 4];

/// And around bytes, grants, and a count.
const BYTES: [u8; 4] = [0xA5; 4];
const GRANTS: [[u32; 3]; 4] = [[GUARD[0]; 3]; 4];
const COUNTS: [usize; 4] = [0xA5A5_5A5A; 4];

/// How often which call gave which refusal number, or 0; an answered question or party counts under its answer.
pub type Tally = BTreeMap<(&'static str, u32), u64>;

/// A difference, with all it takes to see it again.
#[derive(Debug)]
pub struct Failure {
    pub case: Case,
    pub what: String,
}

/// What a call left behind.
#[derive(PartialEq)]
pub(crate) struct After {
    pub(crate) reply: Reply,
    pub(crate) system: System,
    tags: Vec<u32>,
    labels: Vec<u32>,
    bytes: Vec<u8>,
}

/// A slice to lend, with guards on both sides.
pub(crate) struct Guarded<T>(Vec<T>, [T; 4]);

impl<T: Copy + PartialEq> Guarded<T> {
    pub(crate) fn new(inner: &[T], guard: [T; 4]) -> Guarded<T> {
        Guarded([&guard[..], inner, &guard[..]].concat(), guard)
    }

    pub(crate) fn lend(&mut self) -> &mut [T] {
        let end = self.0.len() - self.1.len();
        &mut self.0[self.1.len()..end]
    }

    /// What stands between the guards; None where a guard was written.
    pub(crate) fn back(self) -> Option<Vec<T>> {
        let inner = self.0.strip_prefix(&self.1[..])?.strip_suffix(&self.1[..])?;
        Some(inner.to_vec())
    }
}

/// Distinct values, so that a list that writes past its count is seen.
fn blank(len: usize) -> Vec<u32> {
    (0..len).map(|i| 0xEE00_0000 + i as u32).collect()
}

/// The same of bytes, as far as there are distinct ones. No two neighbours are alike.
fn blank_bytes(len: usize) -> Vec<u8> {
    (0..len).map(|i| 0x40 + (i % 191) as u8).collect()
}

/// Makes a call on this system. What it left behind, or where it wrote and must not.
pub(crate) fn perform(subject: &dyn Subject, call: &Call, system: &System) -> Result<After, String> {
    let (tags, labels) = call.lists();
    let mut given = Guarded::new(call.given(), BYTES);
    let mut words = Guarded::new(&system.words, GUARD);
    let mut grants = Guarded::new(&system.grants, GRANTS);
    let mut count = Guarded::new(&[system.count], COUNTS);
    let [mut tags, mut labels] = [tags, labels].map(|len| Guarded::new(&blank(len), GUARD));
    let mut bytes = Guarded::new(&blank_bytes(call.bytes()), BYTES);
    let lent = Lent {
        given: given.lend(),
        words: words.lend(),
        tags: tags.lend(),
        labels: labels.lend(),
        bytes: bytes.lend(),
        grants: grants.lend(),
        count: &mut count.lend()[0],
    };
    let reply = subject.call(call, lent);
    let given = given.back();
    if given.as_ref().is_some_and(|given| given != call.given()) {
        return Err("the store wrote into what it was given to read".into());
    }
    let back = || {
        given?;
        let system = System { words: words.back()?, grants: grants.back()?, count: count.back()?[0] };
        Some(After { reply, system, tags: tags.back()?, labels: labels.back()?, bytes: bytes.back()? })
    };
    back().ok_or("the store wrote outside a lent slice".into())
}

fn first_other<T: PartialEq + Debug>(name: &str, want: &[T], got: &[T]) -> Option<String> {
    let i = (0..want.len()).find(|&i| want[i] != got[i])?;
    Some(format!("{name}[{i}] is {:?}, the reference says {:?}", got[i], want[i]))
}

fn difference(before: &System, want: &After, got: &After) -> Option<String> {
    if want.reply != got.reply {
        return Some(format!("reply {:?}, the reference says {:?}", got.reply, want.reply));
    }
    if got.reply[0] != 0 && before.words != got.system.words {
        return Some(format!("refusal {} changed words", got.reply[0]));
    }
    first_other("words", &want.system.words, &got.system.words)
        .or_else(|| first_other("grants", &want.system.grants, &got.system.grants))
        .or_else(|| first_other("count", &[want.system.count], &[got.system.count]))
        .or_else(|| first_other("tags", &want.tags, &got.tags))
        .or_else(|| first_other("labels", &want.labels, &got.labels))
        .or_else(|| first_other("bytes", &want.bytes, &got.bytes))
}

fn heading(call: &Call, reply: &Reply) -> &'static str {
    match (call, reply) {
        (Call::Question { .. }, [0, 0, ..]) => "no",
        (Call::Question { .. }, [0, 1, ..]) => "yes",
        (Call::Question { .. }, [0, ..]) => "stale",
        (Call::Party { .. }, [0, YES, ..]) => "party yes",
        (Call::Party { .. }, [0, STALE, ..]) => "party stale",
        (Call::Party { .. }, [0, INSERTED, ..]) => "party puts",
        (Call::Revoke { .. }, [0, 0, ..]) => "revoke none",
        _ => call.name(),
    }
}

pub struct Session<'a> {
    subject: &'a dyn Subject,
    tally: &'a mut Tally,
    pub system: System,
    /// There is none before the first accepted load: a store found in words, or read from a file, has no history to
    /// account for.
    bare: Option<Bare>,
    /// The file that was written or read last.
    kept: Option<Kept>,
    case: Case,
}

impl<'a> Session<'a> {
    /// Over words alone, or over a system with grants.
    pub fn new(subject: &'a dyn Subject, tally: &'a mut Tally, start: impl Into<System>) -> Session<'a> {
        let system = start.into();
        let case = Case { start: system.clone(), calls: Vec::new() };
        Session { subject, tally, system, bare: None, kept: None, case }
    }

    /// What has been done so far.
    pub fn case(&self) -> &Case {
        &self.case
    }

    /// The bare list that accounts for the store, where it has a history.
    pub fn bare(&self) -> Option<&Bare> {
        self.bare.as_ref()
    }

    /// The file that was written or read last.
    pub fn kept(&self) -> Option<&Kept> {
        self.kept.as_ref()
    }

    /// Makes a call on both sides.
    pub fn step(&mut self, call: Call) -> Result<Reply, Failure> {
        let result = self.compare(&call);
        self.case.calls.push(call);
        result.map_err(|what| Failure { case: self.case.clone(), what })
    }

    /// Sets the whole history beside the one without the calls of parties that had no grant.
    pub fn isolate(&mut self) -> Result<(), Failure> {
        match isolation::trace(self.subject, &self.case, self.tally) {
            Some((_, what)) => Err(Failure { case: self.case.clone(), what }),
            None => Ok(()),
        }
    }

    fn compare(&mut self, call: &Call) -> Result<Reply, String> {
        let lent = call.over(&self.system);
        let want = perform(&Reference::right(), call, &lent)?;
        let got = perform(self.subject, call, &lent)?;
        if let Some(what) = difference(&lent, &want, &got) {
            return Err(what);
        }
        *self.tally.entry((heading(call, &got.reply), got.reply[0])).or_default() += 1;
        self.account(call, &got)?;
        self.keep(call, &got)?;
        self.system = got.system;
        Ok(got.reply)
    }

    /// Sets the call beside the bare list. This asks the reference nothing.
    fn account(&mut self, call: &Call, got: &After) -> Result<(), String> {
        let (before, after) = (&self.system.words, &got.system.words);
        let due = match (&self.bare, call.load()) {
            (_, Some((s, r, kinds))) => Some(due::load_refusal(s, r, kinds, before.len())),
            (Some(bare), None) => bare.refusal(call, before.len()),
            (None, None) => None,
        };
        if let Some(due) = due.filter(|due| *due != got.reply[0]) {
            return Err(format!("bare list: refusal {} where {due} is due", got.reply[0]));
        }
        // A store that comes back from its file has its history; any other that is read has none.
        self.bare.take_if(|_| call.file().is_some() && store_of(before) != store_of(after));
        if got.reply[0] != 0 {
            return Ok(());
        }
        bare::counts(call, &got.reply, before, after)?;
        if let Call::InsertSheet { kinds, place } = call {
            in_turn::check(self.subject, kinds.len(), *place, before, &got.reply, after)?;
        }
        match (&mut self.bare, call.load()) {
            (bare, Some((s, r, kinds))) => *bare = Some(Bare::load(s, r, kinds)),
            (Some(bare), None) => {
                bare.accepted(call, &got.reply)?;
                if call.insertion(&got.reply).is_some() {
                    bare.relabelled(before, after);
                }
            }
            (None, None) => {}
        }
        self.bare.as_ref().map_or(Ok(()), |bare| bare.check(after))
    }

    /// Sets a file that was written or read beside the one before it. This asks the reference nothing.
    fn keep(&mut self, call: &Call, got: &After) -> Result<(), String> {
        let file = match (call, call.file()) {
            (Call::Write { .. }, _) if got.reply[0] == 0 => &got.bytes[..got.reply[1] as usize],
            (_, Some(file)) if got.reply[0] == 0 => file,
            _ => return Ok(()),
        };
        let now = Kept { file: file.to_vec(), words: store_of(&got.system.words).to_vec() };
        let before = self.kept.replace(now.clone());
        before.map_or(Ok(()), |before| before.beside(&now))
    }
}

/// Does a case again: what differs, and at which call. What a party without a grant leaves behind counts too.
pub fn replay(subject: &dyn Subject, case: &Case) -> Option<(usize, String)> {
    let mut tally = Tally::new();
    let mut session = Session::new(subject, &mut tally, case.start.clone());
    for (i, call) in case.calls.iter().enumerate() {
        if let Err(failure) = session.step(call.clone()) {
            return Some((i, failure.what));
        }
    }
    isolation::trace(subject, case, &mut tally)
}
