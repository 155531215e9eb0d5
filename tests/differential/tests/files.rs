//! The comparison by files must fail on every seeded lapse, and what it reads must be various. Needs no library.

use differential::call::{Call, Reply};
use differential::files;
use differential::kept::Kept;
use differential::plan;
use differential::script::script;
use differential::session::{Failure, Session, Tally, replay};
use differential::shrink::shrink;
use differential::subject::{Lent, Reference, Spoiled, Subject};
use draw::Rng;
use reference::{Clause, Fault, HEADER, Lapse, RECORD};

/// The parts that are drawn, without the deep and the great stores.
fn drawn(subject: &dyn Subject, tally: &mut Tally) -> Result<(), Failure> {
    let rng = &mut Rng::new(3);
    plan::stops(subject, tally, rng, 30)?;
    plan::damaged_files(subject, tally, rng, 8)?;
    plan::flawed_files(subject, tally, rng, 8)
}

fn caught(subject: &dyn Subject) -> Failure {
    drawn(subject, &mut Tally::new()).expect_err("it must show")
}

#[test]
fn the_reference_agrees_with_itself() {
    let mut tally = Tally::new();
    plan::files(&Reference::right(), &mut tally, 1, 12).expect("no difference");
    let expected: [(&str, &[u32]); 2] = [("write", &[0, 1, 2, 16]), ("read", &[0, 1, 2, 15])];
    for (name, refusals) in expected {
        let met: Vec<u32> = tally.keys().filter(|(it, _)| *it == name).map(|(_, refusal)| *refusal).collect();
        assert_eq!(met, refusals, "{name}");
        let fewest = refusals.iter().map(|refusal| tally[&(name, *refusal)]).min();
        assert!(fewest > Some(30), "{tally:?}");
    }
}

#[test]
fn every_lapse_is_caught() {
    for lapse in Lapse::ALL {
        let subject = Reference { fault: Fault::Misfiles(lapse) };
        let failure = caught(&subject);
        let (case, what) = shrink(&subject, failure.case, failure.what);
        println!("{lapse:?}: {what}\n{}", script(&case));
        assert!(replay(&subject, &case).is_some() && replay(&Reference::right(), &case).is_none(), "{lapse:?}");
        // A load of nothing, two texts at the front, which then stand in another order than by number, and the writing.
        assert!(case.calls.len() <= 4, "{lapse:?} is not short");
    }
}

/// The reference, but where a wrong soundness test lets a store through, or a file; the other call is right. A file has no
/// first word and no depths.
#[test]
fn every_overlooked_clause_is_caught_in_words_and_in_files() {
    struct Overlooks(Clause, &'static str);

    impl Subject for Overlooks {
        fn call(&self, call: &Call, lent: Lent) -> Reply {
            let fault = if call.name() == self.1 { Fault::Overlooks(self.0) } else { Fault::None };
            Reference { fault }.call(call, lent)
        }
    }

    for clause in Clause::ALL {
        let in_files = !matches!(clause, Clause::One | Clause::Depth);
        for name in ["write", "read"].into_iter().filter(|name| in_files || *name == "write") {
            let what = caught(&Overlooks(clause, name)).what;
            assert!(what.ends_with("the reference says [2, 0, 0, 0, 0]"), "{clause:?}, {name}: {what}");
        }
    }
}

#[test]
fn writing_where_a_call_must_not_is_caught() {
    let what = |spoil| caught(&Spoiled(spoil)).what;
    let past_the_file = what(|reply, _, lent| {
        if let (0, Some(it)) = (reply[0], lent.bytes.get_mut(reply[1] as usize)) {
            *it ^= 1;
        }
    });
    assert!(past_the_file.starts_with("bytes["), "{past_the_file}");
    let refused_bytes = what(|reply, _, lent| {
        if let (16, Some(it)) = (reply[0], lent.bytes.first_mut()) {
            *it ^= 1;
        }
    });
    assert!(refused_bytes.starts_with("bytes[0]"), "{refused_bytes}");
    let past_the_book = what(|reply, call, lent| {
        if let (Call::Read { .. }, 0, Some(it)) =
            (call, reply[0], lent.words.get_mut(HEADER + RECORD * reply[1] as usize))
        {
            *it ^= 1;
        }
    });
    assert!(past_the_book.starts_with("words["), "{past_the_book}");
    let refused_words = what(|reply, _, lent| {
        if let (15, Some(it)) = (reply[0], lent.words.last_mut()) {
            *it ^= 1;
        }
    });
    assert_eq!(refused_words, "refusal 15 changed words");
    let into_the_file = what(|_, call, lent| {
        if let Call::Read { .. } = call {
            lent.given[0] ^= 1;
        }
    });
    assert_eq!(into_the_file, "the store wrote into what it was given to read");
}

/// The reference over what this makes of a file.
struct Changed(fn(Vec<u8>) -> Vec<u8>);

impl Subject for Changed {
    fn call(&self, call: &Call, lent: Lent) -> Reply {
        match call {
            Call::Read { file, cleared } => {
                let call = Call::Read { file: (self.0)(file.clone()), cleared: *cleared };
                Reference::right().call(&call, lent)
            }
            _ => Reference::right().call(call, lent),
        }
    }
}

/// A reader that takes the places of records for granted: a text whose number has come before gets the one that is missing,
/// and its neighbours are told.
#[test]
fn a_number_that_comes_twice_is_caught() {
    fn word(file: &mut [u8], row: usize, k: usize) -> &mut [u8; 4] {
        file[34 * row + 6 + 4 * k..].first_chunk_mut().expect("a word")
    }
    let reader = Changed(|mut file| {
        let n = file.len().saturating_sub(44) / 34;
        let mut numbers: Vec<[u8; 4]> = (1..=n).map(|row| *word(&mut file, row, 0)).collect();
        let missing = (0..n as u32).map(u32::to_le_bytes).find(|it| !numbers.contains(it));
        let twice = (2..=n).find(|&row| numbers[..row - 1].contains(&numbers[row - 1]));
        if let (Some(missing), Some(row)) = (missing, twice) {
            numbers[row - 1] = missing;
            (*word(&mut file, row, 0), *word(&mut file, row, 4)) = (missing, missing);
            *word(&mut file, row - 1, 2) = missing;
            if row < n {
                *word(&mut file, row + 1, 3) = missing;
            }
        }
        file
    });
    let what = caught(&reader).what;
    assert!(what.ends_with("the reference says [2, 0, 0, 0, 0]"), "{what}");
}

/// A reader whose counts are of 31 bits must show: both counts then fit the records.
#[test]
fn counts_that_come_round_are_caught() {
    let reader = Changed(|mut file| {
        if file.len() >= 44 {
            let last = file.len() - 1;
            file[21] &= 127;
            file[last] &= 127;
        }
        file
    });
    let what = caught(&reader).what;
    assert!(what.ends_with("the reference says [15, 0, 0, 0, 0]"), "{what}");
}

/// The reference, but where this gives a refusal for a file's number of tags and the greatest depth of its kinds, that one.
struct Short(fn(usize, i64) -> Option<u32>);

impl Subject for Short {
    fn call(&self, call: &Call, lent: Lent) -> Reply {
        let refusal = match call {
            Call::Read { file, .. } => {
                let (rows, _) = file[34..file.len() - 10].as_chunks::<34>();
                let depths = rows.iter().scan(0, |open, row| {
                    *open += [0, 1, -1, 0][usize::from(row[30] & 3)];
                    Some(*open)
                });
                (self.0)(rows.len(), depths.max().unwrap_or(0))
            }
            _ => None,
        };
        refusal.map_or_else(|| Reference::right().call(call, lent), |refusal| [refusal, 0, 0, 0, 0])
    }
}

/// A reader with room for too few open begins, in a small table or in a large one, and one that has a refusal of its own for
/// too many tags.
#[test]
fn readers_that_stop_short_are_caught() {
    let deep = |reader: Short| files::deep(&reader, &mut Tally::new()).expect_err("it stops short").what;
    let small = deep(Short(|_, depth| (1_024..2_000).contains(&depth).then_some(2)));
    assert_eq!(small, "reply [2, 0, 0, 0, 0], the reference says [0, 2048, 11, 0, 0]");
    let large = deep(Short(|_, depth| (depth == 100_000).then_some(2)));
    assert_eq!(large, "reply [2, 0, 0, 0, 0], the reference says [0, 200000, 17, 0, 0]");
    let great =
        |reader: Short| files::great(&reader, &mut Tally::new(), &mut Rng::new(5)).expect_err("it stops short").what;
    let tags = great(Short(|n, _| (n == 200_000).then_some(2)));
    assert_eq!(tags, "reply [2, 0, 0, 0, 0], the reference says [0, 200000, 17, 0, 0]");
    let more = great(Short(|n, _| (n > 200_000).then_some(6)));
    assert_eq!(more, "reply [6, 0, 0, 0, 0], the reference says [1, 0, 0, 0, 0]");
}

/// What is asked of two files fails where one of them is another's.
#[test]
fn files_are_paired_with_stores() {
    let kept = |file: u8, word: u32| Kept { file: vec![file], words: vec![word] };
    assert!(kept(1, 1).beside(&kept(1, 1)).is_ok() && kept(1, 1).beside(&kept(2, 2)).is_ok());
    assert!(kept(1, 1).beside(&kept(1, 2)).is_err() && kept(1, 1).beside(&kept(2, 1)).is_err());
}

/// A store that comes back from its file keeps its history, which the bare list accounts for; one that is read from another
/// file has none.
#[test]
fn a_history_goes_on_over_a_stop() {
    let (reference, mut tally) = (Reference::right(), Tally::new());
    let mut session = Session::new(&reference, &mut tally, vec![0; HEADER + RECORD * 9]);
    session.step(Call::Load { s: 2, r: 2, book: 7, kinds: vec![3; 4] }).expect("no difference");
    files::stop(&mut session, &mut Rng::new(1)).expect("no difference");
    let first = session.kept().expect("a file was written").clone();
    session.step(Call::Insert { kind: 3, place: 1 }).expect("no difference");
    files::stop(&mut session, &mut Rng::new(2)).expect("no difference");
    assert!(session.bare().is_some());
    assert_ne!(session.kept(), Some(&first));
    session.step(Call::Read { file: first.file, cleared: None }).expect("no difference");
    assert!(session.bare().is_none());
    let stops = [("load", 0), ("insert", 0), ("read", 0), ("write", 0), ("write", 16)].map(|key| tally[&key]);
    assert_eq!(stops, [1, 1, 3, 2, 2]);
}
