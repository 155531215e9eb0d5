//! The comparison of rights must fail on every seeded breach and say it briefly, what it draws must be various, and what a
//! party without a grant leaves behind must show without the reference. Needs no library.

use differential::bare::{Bare, counts};
use differential::call::{Call, Case, Reply};
use differential::isolation::{powerless, trace};
use differential::plan;
use differential::rights;
use differential::script::{input, script};
use differential::session::{Failure, Session, Tally, replay};
use differential::shrink::shrink;
use differential::subject::{Lent, Reference, Spoiled, Subject};
use differential::system::System;
use draw::Rng;
use reference::{Breach, Fault, HEADER, RECORD};
use std::cell::Cell;

/// The parts that are drawn.
fn drawn(subject: &dyn Subject, tally: &mut Tally) -> Result<(), Failure> {
    let rng = &mut Rng::new(3);
    plan::systems(subject, tally, rng, 400)?;
    plan::rights_everywhere(subject, tally, rng, 8)?;
    plan::damaged_rights(subject, tally, rng, 4)
}

fn caught(subject: &dyn Subject) -> Failure {
    drawn(subject, &mut Tally::new()).expect_err("it must show")
}

#[test]
fn the_reference_agrees_with_itself() {
    let mut tally = Tally::new();
    plan::rights(&Reference::right(), &mut tally, 1, 12).expect("no difference");
    // Every refusal that CR 6 names must have come, and every reply.
    let expected: [(&str, &[u32]); 9] = [
        ("grant", &[0, 1, 2, 8, 9, 10, 17, 19]),
        ("revoke", &[0, 17]),
        ("revoke none", &[0]),
        ("party", &[1, 2, 4, 6, 7, 8, 9, 10, 17, 18]),
        ("party yes", &[0]),
        ("party stale", &[0]),
        ("party puts", &[0]),
        ("load ends", &[0, 1, 3, 4, 5]),
        ("read ends", &[0, 2, 15]),
    ];
    for (name, refusals) in expected {
        let met: Vec<u32> = tally.keys().filter(|(it, _)| *it == name).map(|(_, refusal)| *refusal).collect();
        assert_eq!(met, refusals, "{name}");
    }
    for (key, least) in [(("party yes", 0), 50), (("party puts", 0), 50), (("extra", 18), 500), (("shared", 0), 1_000)]
    {
        assert!(tally[&key] > least, "{key:?}: {tally:?}");
    }
}

#[test]
fn every_breach_is_caught() {
    for breach in Breach::ALL {
        let subject = Reference { fault: Fault::Misgrants(breach) };
        let failure = caught(&subject);
        let (case, what) = shrink(&subject, failure.case, failure.what);
        let printed = script(&case);
        println!("{breach:?}: {what}\n{printed}");
        assert!(replay(&subject, &case).is_some() && replay(&Reference::right(), &case).is_none(), "{breach:?}");
        // A load, three grants and a revocation are the most that it takes.
        assert!(case.calls.len() <= 5 && printed.len() <= 400, "{breach:?} is not short");
    }
}

#[test]
fn writing_where_a_call_must_not_is_caught() {
    let what = |spoil| caught(&Spoiled(spoil)).what;
    let behind = what(|reply, call, lent| {
        if let (Call::Grant { .. }, 0, Some(it)) = (call, reply[0], lent.grants.get_mut(*lent.count)) {
            it[0] ^= 1;
        }
    });
    assert!(behind.starts_with("grants["), "{behind}");
    let asked = what(|_, call, lent| {
        if let (Call::Party { .. }, Some(it)) = (call, lent.grants.first_mut()) {
            it[2] = 0;
        }
    });
    assert!(asked.starts_with("grants[0] is "), "{asked}");
    let full = what(|reply, _, lent| *lent.count -= usize::from(reply[0] == 19 && *lent.count > 0));
    assert!(full.starts_with("count[0] is "), "{full}");
    // A plain load knows no count.
    let plain = what(|reply, call, lent| {
        if let (Call::Load { .. }, 0) = (call, reply[0]) {
            *lent.count = 0;
        }
    });
    assert!(plain.starts_with("count[0] is 0, the reference says "), "{plain}");
    let refused = what(|reply, _, lent| {
        if let (18, Some(it)) = (reply[0], lent.words.last_mut()) {
            *it ^= 1;
        }
    });
    assert_eq!(refused, "refusal 18 changed words");
    let granted = what(|reply, call, lent| {
        if let (Call::Grant { .. }, 0, Some(it)) = (call, reply[0], lent.words.last_mut()) {
            *it ^= 1;
        }
    });
    assert!(granted.starts_with("words["), "{granted}");
}

/// Histories of so many systems, as the reference makes them.
fn histories(many: usize) -> Vec<Case> {
    let (reference, rng) = (Reference::right(), &mut Rng::new(6));
    let one = |_| {
        let words = [rights::any_store(rng, 2, 2, 12), vec![9; 120]].concat();
        let (mut tally, start) = (Tally::new(), rights::any_system(rng, words));
        let mut session = Session::new(&reference, &mut tally, start);
        rights::walk(&mut session, rng, 40).expect("no difference");
        session.case().clone()
    };
    (0..many).map(one).collect()
}

/// Of parties without a grant, some had one before and some get one later; and most calls would be allowed with one.
#[test]
fn calls_without_a_grant_are_various() {
    let (mut extra, mut before, mut later, mut allowed) = (0, 0, 0, 0);
    for case in histories(100) {
        let (reference, mut tally) = (Reference::right(), Tally::new());
        let mut session = Session::new(&reference, &mut tally, case.start.clone());
        let has = |system: &System, party: u32| system.live().iter().any(|grant| grant[0] == party);
        let mut systems = vec![case.start.clone()];
        for call in &case.calls {
            session.step(call.clone()).expect("no difference");
            systems.push(session.system.clone());
        }
        for (i, call) in case.calls.iter().enumerate().filter(|(i, call)| powerless(call, &systems[*i])) {
            let Call::Party { party, tag, .. } = *call else { continue };
            let granted = System { grants: vec![[party, tag, 7]], count: 1, ..systems[i].clone() };
            let reply = Session::new(&reference, &mut Tally::new(), granted).step(call.clone()).expect("no difference");
            extra += 1;
            before += u32::from(systems[..i].iter().any(|system| has(system, party)));
            later += u32::from(systems[i..].iter().any(|system| has(system, party)));
            allowed += u32::from(reply[0] == 0);
        }
    }
    println!("{extra} calls, {before} had a grant before, {later} later, {allowed} are allowed with one");
    assert!(extra > 500 && before > 100 && later > 100 && allowed > 250);
}

/// The reference, but it remembers that a party was refused, and then says of the next insertion that it moved one tag more.
struct Grudge(Cell<bool>);

impl Subject for Grudge {
    fn call(&self, call: &Call, lent: Lent) -> Reply {
        let mut reply = Reference::right().call(call, lent);
        if matches!(call, Call::Insert { .. }) && reply[0] == 0 {
            reply[2] += u32::from(self.0.take());
        }
        self.0.set(self.0.get() || reply[0] == 18);
        reply
    }
}

/// By calls of the store itself: the reference is not asked.
#[test]
fn what_a_party_without_a_grant_leaves_behind_is_caught() {
    let cases = histories(120);
    let found = |subject: &dyn Subject| cases.iter().find_map(|case| trace(subject, case, &mut Tally::new()));
    assert_eq!(found(&Reference::right()), None);
    // Where what a party may do is judged wrongly, but only by its own live grants, others see nothing of it.
    assert_eq!(found(&Reference { fault: Fault::Misgrants(Breach::RightNotAsked) }), None);
    for breach in [Breach::RefusedStamps, Breach::PartyNotAsked, Breach::BehindCount] {
        let (_, what) = found(&Reference { fault: Fault::Misgrants(breach) }).expect("it leaves something behind");
        println!("{breach:?}: {what}");
        assert!(what.starts_with("isolation: "), "{breach:?}: {what}");
    }
    let (_, what) = found(&Grudge(Cell::new(false))).expect("it remembers");
    assert!(what.starts_with("isolation: reply [0, "), "{what}");
}

/// B T E with room, and a party that may insert there.
fn small() -> (Vec<Call>, Call) {
    let load = Call::LoadWithGrants { s: 2, r: 2, book: 7, kinds: vec![1, 3, 2] };
    let grant = Call::Grant { party: 5, section: 0, rights: 4 };
    let party = Call::Party { party: 5, book: 7, tag: 0, start: 0, end: 2, d: 1, right: 4, kind: 3 };
    (vec![load, grant, party.clone()], party)
}

/// What a party inserts counts in the bare list as any insertion does.
#[test]
fn a_party_inserts_as_others_do() {
    let (calls, party) = small();
    let (reference, mut tally) = (Reference::right(), Tally::new());
    let start = System { words: vec![0; HEADER + RECORD * 9], grants: vec![[0; 3]], count: 4 };
    let mut session = Session::new(&reference, &mut tally, start);
    let mut before = Vec::new();
    for call in calls {
        before.clone_from(&session.system.words);
        session.step(call).expect("no difference");
    }
    let (after, said) = (&session.system.words, [0, 3, 3, 1, 1]);
    assert_eq!(counts(&party, &said, &before, after), Ok(()));
    assert!(counts(&party, &[0, 3, 3, 2, 1], &before, after).is_err());
    let mut bare = Bare::load(2, 2, &[1, 3, 2]);
    assert!(bare.check(after).is_err());
    bare.accepted(&party, &said).expect("a new tag");
    bare.relabelled(&before, after);
    assert_eq!(bare.check(after), Ok(()));
    assert_eq!((session.bare().is_some(), session.system.grants[0], session.system.count), (true, [5, 0, 4], 1));
}

/// No line of the book program says grants: they are shown as they are.
#[test]
fn a_script_shows_the_grants() {
    let start = System { words: vec![0; HEADER + RECORD * 2_000], grants: vec![[5, 0, 4]], count: 9 };
    let case = Case { start, calls: small().0 };
    let lines = [
        "# with these grants (party, section, rights), count 9: [[5, 0, 4]]",
        "# LoadWithGrants { s: 2, r: 2, book: 7, kinds: BTE }",
        "# Grant { party: 5, section: 0, rights: 4 }",
        "# Party { party: 5, book: 7, tag: 0, start: 0, end: 2, d: 1, right: 4, kind: 3 }",
    ];
    assert_eq!(script(&case), lines.join("\n"));
    assert_eq!(input(&case), None);
}
