//! Two histories that are alike but for calls by parties that have no live grant at those moments: they end with the same
//! store, grants and count, and with the same replies to all calls that they share. The store that is compared makes both,
//! one after the other, and the reference is not asked.

use crate::call::{Call, Case};
use crate::session::{After, Tally, perform};
use crate::subject::Subject;
use crate::system::System;

/// Whether the call is that of a party without a live grant.
pub fn powerless(call: &Call, system: &System) -> bool {
    matches!(call, Call::Party { party, .. } if system.live().iter().all(|grant| grant[0] != *party))
}

/// What is wrong, and at which call.
type Wrong = (usize, String);

/// What each call has left behind, and all of them; none for a call that was left out.
struct Run {
    each: Vec<Option<After>>,
    end: System,
}

impl Run {
    /// Makes the calls that are not to be left out, of which it is told the number and the system that they find.
    fn of(subject: &dyn Subject, case: &Case, mut leave: impl FnMut(usize, &System) -> bool) -> Result<Run, Wrong> {
        let mut run = Run { each: Vec::new(), end: case.start.clone() };
        for (i, call) in case.calls.iter().enumerate() {
            if leave(i, &run.end) {
                run.each.push(None);
                continue;
            }
            let after = perform(subject, call, &call.over(&run.end)).map_err(|what| (i, what))?;
            run.end.clone_from(&after.system);
            run.each.push(Some(after));
        }
        Ok(run)
    }
}

fn check(subject: &dyn Subject, case: &Case, tally: &mut Tally) -> Result<(), Wrong> {
    let mut extra = Vec::new();
    let whole = Run::of(subject, case, |i, system| {
        extra.push(powerless(&case.calls[i], system));
        false
    })?;
    let shared = Run::of(subject, case, |i, _| extra[i])?;
    let differs = |what: String| format!("isolation: {what} without the calls of parties that have no grant");
    for (i, (with, without)) in whole.each.iter().zip(&shared.each).enumerate() {
        let (Some(with), name) = (with, if extra[i] { "extra" } else { "shared" }) else { continue };
        *tally.entry((name, with.reply[0])).or_default() += 1;
        match without {
            Some(it) if it.reply != with.reply => {
                return Err((i, differs(format!("reply {:?}, and {:?}", with.reply, it.reply))));
            }
            Some(it) if it != with => return Err((i, differs("something else is written than".into()))),
            _ => {}
        }
    }
    let alike = whole.end == shared.end;
    if alike { Ok(()) } else { Err((extra.len().saturating_sub(1), differs("another end than".into()))) }
}

/// What is wrong with a history beside the same one without its calls of parties that have no live grant, and at which call.
/// The calls of both count in the tally.
pub fn trace(subject: &dyn Subject, case: &Case, tally: &mut Tally) -> Option<(usize, String)> {
    let parties = case.calls.iter().any(|call| matches!(call, Call::Party { .. }));
    parties.then(|| check(subject, case, tally).err()).flatten()
}
