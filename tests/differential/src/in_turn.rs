//! A sheet beside so many single texts, each behind the one before: labels go by the number of tags and by the place alone.
//! The store that is compared makes both, and the reference is not asked.

use crate::call::{Call, Reply};
use crate::kinds::TEXT;
use crate::subject::{Lent, Subject};
use reference::{HEADER, RECORD};

/// Every text reads the whole store: more tags than these, all of them added up, are not looked at.
const MOST: usize = 100_000;

/// Words of a record that do not tell kinds: label, next and prior.
const PLACED: usize = 3;

/// s, r, H, n, the first tag and the book number, then label, next and prior of each tag: what the kinds and the number of
/// calls do not change.
fn placed(words: &[u32]) -> impl Iterator<Item = &u32> {
    let records = words[HEADER..HEADER + RECORD * words[4] as usize].chunks(RECORD);
    words[1..HEADER - 1].iter().chain(records.flat_map(|record| &record[..PLACED]))
}

/// What differs, where a sheet of so many tags was accepted over these words.
pub fn check(
    subject: &dyn Subject,
    tags: usize,
    place: u32,
    before: &[u32],
    reply: &Reply,
    after: &[u32],
) -> Result<(), String> {
    let n = before[4] as usize;
    if tags * (n + tags) > MOST {
        return Ok(());
    }
    let (mut words, mut behind, mut split) = (before.to_vec(), place, 0);
    for _ in 0..tags {
        let call = Call::Insert { kind: TEXT, place: behind };
        let [refusal, first, _, height, _] = subject.call(&call, Lent::only(&mut words, &mut 0));
        if refusal != 0 {
            return Err(format!("in turn: text {first} of a sheet that was accepted gives {refusal}"));
        }
        (behind, split) = (first, split.max(height));
    }
    if split != reply[3] {
        return Err(format!("in turn: split height {}, and {split} of single texts", reply[3]));
    }
    if placed(after).ne(placed(&words)) {
        return Err("in turn: other labels than those of single texts".into());
    }
    Ok(())
}
