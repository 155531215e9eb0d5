//! The comparison of two readers of sheets: a text, lists of several lengths, and all that is replied and written.

use crate::session::Guarded;
use crate::subject::Reference;
use std::time::{Duration, Instant};

pub trait SheetReader {
    /// The number of the refusal or 0, and the count. The text is lent mutably so that a write into it is seen.
    fn kinds(&self, text: &mut [u8], kinds: &mut [u8]) -> (u32, usize);
}

/// Bytes around a text: a reader that looks behind its end finds there what it may be waiting for.
const AROUND: [[u8; 4]; 4] = [*b"></a", *b"-->x", *b"]]>x", *b"'/>x"];

/// And around a list.
const GUARD: [u8; 4] = [0xA5; 4];

/// The time for one shortening.
const TIME: Duration = Duration::from_secs(20);

/// A text on which a reader differs, with the length of the list.
#[derive(Clone, PartialEq, Eq, Debug)]
pub struct Misread {
    pub text: Vec<u8>,
    pub room: usize,
    pub what: String,
}

/// What a call left behind.
#[derive(PartialEq, Eq)]
struct After {
    reply: (u32, usize),
    list: Vec<u8>,
}

/// No kinds, and no two neighbours alike, so that every write is seen.
fn blank(room: usize) -> Vec<u8> {
    (0..room).map(|i| 0x40 + (i % 64) as u8).collect()
}

fn perform(reader: &dyn SheetReader, text: &[u8], room: usize) -> Result<After, String> {
    let mut lent = Guarded::new(text, AROUND[room % AROUND.len()]);
    let mut list = Guarded::new(&blank(room), GUARD);
    let reply = reader.kinds(lent.lend(), list.lend());
    match (lent.back(), list.back()) {
        (Some(back), Some(list)) if back == text => Ok(After { reply, list }),
        (Some(_), Some(_)) => Err("the reader wrote into the text".into()),
        _ => Err("the reader wrote outside a lent slice".into()),
    }
}

fn difference(want: &After, got: &After) -> Option<String> {
    if want.reply != got.reply {
        return Some(format!("reply {:?}, the reference says {:?}", got.reply, want.reply));
    }
    let at = (0..want.list.len()).find(|&i| want.list[i] != got.list[i])?;
    Some(format!("kinds[{at}] is {}, the reference says {}", got.list[at], want.list[at]))
}

/// The lengths of lists that a text is read with: where it has so many kinds, those around their number; where it is
/// refused, whatever is lent, one that suffices for every text of the length and short ones.
fn rooms(reply: (u32, usize), text: usize) -> Vec<usize> {
    let mut rooms = match reply {
        (0, count) => (count.saturating_sub(3)..=count + 3).chain([0, 1]).collect(),
        _ => vec![0, 1, 2, text],
    };
    rooms.sort();
    rooms.dedup();
    rooms
}

/// Reads a text with lists of several lengths; the refusal's number, or 0, with one that suffices.
pub fn compare(reader: &dyn SheetReader, text: &[u8]) -> Result<u32, Misread> {
    // No construct has more kinds than bytes.
    let reply = Reference::right().kinds(&mut text.to_vec(), &mut blank(text.len()));
    for room in rooms(reply, text.len()) {
        let differs = |what| Misread { text: text.to_vec(), room, what };
        let want = perform(&Reference::right(), text, room).map_err(differs)?;
        let got = perform(reader, text, room).map_err(differs)?;
        difference(&want, &got).map_or(Ok(()), |what| Err(differs(what)))?;
    }
    Ok(reply.0)
}

/// A short text on which the reader differs too: bytes are dropped, in runs that get shorter, as long as that helps.
pub fn shorten(reader: &dyn SheetReader, found: Misread) -> Misread {
    let until = Instant::now() + TIME;
    let mut best = found;
    loop {
        let before = best.text.len();
        // Short runs of every length: what can go is often one whole construct.
        for run in (1..=before).rev().filter(|run| *run <= 32 || run.is_power_of_two()) {
            let mut at = 0;
            while at + run <= best.text.len() && Instant::now() < until {
                match compare(reader, &[&best.text[..at], &best.text[at + run..]].concat()) {
                    Err(shorter) => best = shorter,
                    // Long runs are tried side by side, short ones at every place.
                    Ok(_) => at += (run / 64).max(1),
                }
            }
        }
        if best.text.len() == before {
            return best;
        }
    }
}
