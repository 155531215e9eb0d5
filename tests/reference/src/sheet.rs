//! A sheet: XML 1.0, fifth edition, cut down. The text is first cut into constructs, each by its production, up to the
//! first that cannot be completed; then a stack of names goes over them.

mod construct;

use crate::fault::{Fault, Slip};
use crate::reply::Refusal;
use construct::{Construct, cut};

/// So many elements may be open at once.
pub const DEPTH: usize = 64;

const BEGIN: u8 = 1;
const END: u8 = 2;
const TEXT: u8 = 3;

/// The constructs of a text, and why there are no more of them where the text goes on.
fn constructs(mut text: &[u8], fault: Fault) -> (Vec<Construct<'_>>, Option<Refusal>) {
    let mut all = Vec::new();
    while !text.is_empty() {
        match cut(text, fault) {
            Ok((construct, rest)) => {
                all.push(construct);
                text = rest;
            }
            Err(refusal) => return (all, Some(refusal)),
        }
    }
    (all, None)
}

/// What has been read of a sheet.
#[derive(Default)]
struct Reading<'a> {
    kinds: Vec<u8>,
    /// The names of the open elements, the outermost first.
    open: Vec<&'a [u8]>,
    /// What came last is a part of a text.
    in_text: bool,
    fault: Fault,
}

impl<'a> Reading<'a> {
    fn take(&mut self, construct: Construct<'a>) -> Result<(), Refusal> {
        let goes_on = self.in_text && !self.fault.misreads(Slip::TextsParted);
        self.in_text = matches!(construct, Construct::Part(_))
            || self.in_text && matches!(construct, Construct::Comment) && self.fault.misreads(Slip::CommentsJoin);
        match construct {
            Construct::Part(_) if goes_on => {}
            Construct::Part(bytes) if self.fault.misreads(Slip::BlanksDropped) && bytes.trim_ascii().is_empty() => {}
            Construct::Part(_) => self.kinds.push(TEXT),
            Construct::Comment => {}
            Construct::Start(name) => {
                self.begin()?;
                self.open.push(name);
            }
            Construct::Empty => {
                self.begin()?;
                self.kinds.push(END);
            }
            Construct::End(name) => {
                let begun = self.open.pop().ok_or(Refusal::NotASheet)?;
                if begun != name && !self.fault.misreads(Slip::AnyEndCloses) {
                    return Err(Refusal::NotASheet);
                }
                self.kinds.push(END);
            }
        }
        Ok(())
    }

    /// A tag that is whole begins an element.
    fn begin(&mut self) -> Result<(), Refusal> {
        let most = DEPTH + usize::from(self.fault.misreads(Slip::OneDeeper));
        if self.open.len() == most {
            return Err(Refusal::TooDeep);
        }
        self.kinds.push(BEGIN);
        Ok(())
    }

    /// Behind the last construct: the stop of the cutting, where there was one, or the end of the text.
    fn finish(&self, stop: Option<Refusal>) -> Result<(), Refusal> {
        match stop {
            Some(_) if self.open.len() == DEPTH && self.fault.misreads(Slip::DepthFirst) => Err(Refusal::TooDeep),
            Some(refusal) => Err(refusal),
            None if self.open.is_empty() => Ok(()),
            None => Err(Refusal::NotASheet),
        }
    }
}

/// The kinds that are found, and whether the text is a sheet.
fn read(text: &[u8], fault: Fault) -> (Vec<u8>, Result<(), Refusal>) {
    let (constructs, stop) = constructs(text, fault);
    let mut reading = Reading { fault, ..Reading::default() };
    let all = constructs.into_iter().try_for_each(|it| reading.take(it));
    let verdict = all.and_then(|()| reading.finish(stop));
    (reading.kinds, verdict)
}

/// Writes the kinds of a sheet into the list, and gives their number. Refusals: 12, 13 and 14 by what comes first in the
/// text, then 11.
pub fn xml_kinds(text: &[u8], kinds: &mut [u8], fault: Fault) -> Result<usize, Refusal> {
    let (found, verdict) = read(text, fault);
    if fault.misreads(Slip::WrittenEarly) {
        kinds.iter_mut().zip(&found).for_each(|(to, kind)| *to = *kind);
    }
    if !fault.misreads(Slip::ShortListFirst) || found.len() <= kinds.len() {
        verdict?;
    }
    let to = kinds.get_mut(..found.len()).ok_or(Refusal::ShortList)?;
    to.copy_from_slice(&found);
    Ok(found.len())
}
