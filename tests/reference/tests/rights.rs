//! Rights for parties (document 02, CR 6): the specimens, the refusals in their order, and what grants give.

use reference::{
    Access, Answer, Ask, Breach, Fault, Grant, HEADER, Held, INSERT, Inserted, Loaded, NO_TAG, READ, RECORD,
};
use reference::{Refusal, Rights, Store, WRITE};

const BEGIN: u8 = 1;
const END: u8 = 2;
const TEXT: u8 = 3;

/// The kinds of the printed case, B B E B E E.
const PRINTED: [u8; 6] = [BEGIN, BEGIN, END, BEGIN, END, END];

const PAIR_0: Held = Held { book: 7, tag: 0, start: 0, end: 7 };
const PAIR_1: Held = Held { book: 7, tag: 1, start: 1, end: 3 };

fn grant(party: u32, section: u32, rights: u32) -> Grant {
    Grant { party, section, rights }
}

fn ask(party: u32, pair: Held, d: u32, right: u32, kind: u8) -> Ask {
    Ask { party, pair, d, right, kind }
}

/// A call that brings no kind.
fn look(party: u32, pair: Held, d: u32, right: u32) -> Ask {
    ask(party, pair, d, right, 0)
}

fn inserted(first: u32, moved: u32, split: u32) -> Result<Access, Refusal> {
    Ok(Access::Inserted(Inserted { first, moved, split }))
}

/// The printed case over words for so many tags, with these grants, all live.
fn printed(tags: usize, grants: &[Grant], fault: Fault) -> Rights {
    let mut store = Store::faulty(vec![0; HEADER + RECORD * tags], fault);
    store.load(2, 2, 7, &PRINTED).unwrap();
    Rights { store, grants: grants.to_vec(), count: grants.len() }
}

fn label(rights: &Rights, tag: usize) -> u32 {
    rights.store.words[HEADER + RECORD * tag]
}

/// Whatever it says, the call writes nothing.
fn refused(rights: &mut Rights, ask: Ask) -> Refusal {
    let before = rights.clone();
    let reply = rights.call(ask);
    assert_eq!(*rights, before, "{ask:?}");
    reply.expect_err("it is refused")
}

#[test]
fn the_specimens() {
    let store = Store::new(vec![0; HEADER + RECORD * 8]);
    let mut it = Rights { store, grants: vec![Grant::default(); 3], count: 9 };
    assert_eq!(it.grant(grant(5, 0, 1)), Err(Refusal::OutOfRange));
    assert_eq!(it.load(2, 2, 7, &PRINTED), Ok(Loaded { tags: 6, height: 2 }));
    assert_eq!(it.count, 0);
    assert_eq!([0, 1].map(|tag| it.store.hold(tag)), [Ok(PAIR_0), Ok(PAIR_1)]);
    for wrong in [grant(0, 0, 1), grant(65_536, 0, 1), grant(5, 0, 0), grant(5, 0, 8)] {
        assert_eq!(it.grant(wrong), Err(Refusal::OutOfRange));
    }
    let on = [6, 2, NO_TAG].map(|section| it.grant(grant(5, section, 1)));
    assert_eq!(on, [Err(Refusal::NoSuchTag), Err(Refusal::WrongTag), Err(Refusal::NoSuchTag)]);
    assert_eq!([grant(5, 0, 5), grant(6, 1, 7), grant(5, 0, 2)].map(|one| it.grant(one)), [Ok(1), Ok(2), Ok(3)]);
    assert_eq!(it.grant(grant(5, 9, 1)), Err(Refusal::NoSuchTag));
    assert_eq!(it.grant(grant(5, 0, 1)), Err(Refusal::ListFull));

    let rights = [READ, WRITE, 3].map(|right| it.call(look(5, PAIR_0, 3, right)));
    assert_eq!(rights, [Ok(Access::Yes), Ok(Access::Yes), Err(Refusal::OutOfRange)]);
    for not_allowed in [look(6, PAIR_0, 3, READ), look(5, PAIR_0, 0, READ), ask(5, PAIR_0, 5, INSERT, TEXT)] {
        assert_eq!(refused(&mut it, not_allowed), Refusal::NotAllowed);
    }
    assert_eq!(it.call(look(5, Held { book: 8, ..PAIR_0 }, 3, READ)), Ok(Access::Stale));
    assert_eq!(refused(&mut it, look(5, Held { tag: 9, ..PAIR_0 }, 3, READ)), Refusal::NoSuchTag);
    assert_eq!(refused(&mut it, look(5, PAIR_0, 9, READ)), Refusal::NoSuchTag);
    assert_eq!(refused(&mut it, ask(9, PAIR_0, 3, INSERT, END)), Refusal::NotAllowed);
    assert_eq!(refused(&mut it, ask(5, PAIR_0, 3, INSERT, END)), Refusal::Kind);

    assert_eq!(it.store.question(PAIR_1, 1), Ok(Answer::No));
    assert_eq!(it.call(ask(6, PAIR_1, 1, INSERT, TEXT)), inserted(6, 0, 0));
    assert_eq!(label(&it, 6), 2);
    assert_eq!(it.call(look(6, PAIR_1, 6, READ)), Ok(Access::Yes));
    assert_eq!(refused(&mut it, ask(6, PAIR_1, 2, INSERT, TEXT)), Refusal::NotAllowed);
    assert_eq!(it.call(ask(6, PAIR_1, 1, INSERT, TEXT)), inserted(7, 5, 2));
    assert_eq!(it.call(ask(6, PAIR_1, 1, INSERT, TEXT)), Ok(Access::Stale));

    assert_eq!(it.revoke(5, 0), Ok(2));
    assert_eq!((&it.grants[..], it.count), (&[grant(6, 1, 7), grant(6, 1, 7), grant(5, 0, 2)][..], 1));
    assert_eq!([it.revoke(5, 0), it.revoke(0, 0)], [Ok(0), Err(Refusal::OutOfRange)]);
    let now = it.store.hold(1).unwrap();
    assert_eq!(refused(&mut it, ask(6, now, 6, INSERT, BEGIN)), Refusal::TooMany);
}

#[test]
fn seventeen_comes_before_the_store_is_read() {
    // No words at all, then words that are no store.
    for words in [0, 8] {
        let unread = |count| Rights { store: Store::new(vec![0; words]), grants: vec![Grant::default(); 2], count };
        for (party, rights, count) in [(0, 7, 0), (65_536, 7, 0), (5, 0, 0), (5, 8, 0), (5, 7, 3), (5, 7, usize::MAX)] {
            assert_eq!(unread(count).grant(grant(party, 0, rights)), Err(Refusal::OutOfRange));
        }
        for (party, right, count) in [(0, 1, 0), (u32::MAX, 1, 0), (5, 0, 0), (5, 3, 0), (5, 8, 0), (5, 1, 3)] {
            assert_eq!(refused(&mut unread(count), look(party, PAIR_0, 3, right)), Refusal::OutOfRange);
        }
        let behind = if words == 0 { Refusal::FewWords } else { Refusal::NotSound };
        assert_eq!(unread(2).grant(grant(1, 99, 7)), Err(behind));
        assert_eq!(refused(&mut unread(2), look(65_535, PAIR_0, 3, INSERT)), behind);
        // Revoking looks at no store.
        assert_eq!(unread(2).revoke(65_535, 9), Ok(0));
        assert_eq!([unread(3).revoke(1, 9), unread(0).revoke(65_536, 9)], [Err(Refusal::OutOfRange); 2]);
    }
}

#[test]
fn a_grant_in_the_order_8_9_10_19() {
    let mut store = Store::new(vec![0; HEADER + RECORD * 6]);
    store.load(2, 2, 7, &[BEGIN, TEXT, END, TEXT, BEGIN, END]).unwrap();
    store.mark(4).unwrap();
    for (room, free) in [(0, false), (1, true)] {
        let mut it = Rights { store: store.clone(), grants: vec![Grant::default(); room], count: 0 };
        let before = it.clone();
        for (section, refusal) in
            [(6, Refusal::NoSuchTag), (4, Refusal::Marked), (5, Refusal::Marked), (2, Refusal::WrongTag)]
        {
            assert_eq!(it.grant(grant(5, section, 7)), Err(refusal), "{section}");
        }
        assert_eq!([1, 3].map(|text| it.grant(grant(5, text, 7))), [Err(Refusal::WrongTag); 2]);
        assert_eq!(it, before);
        assert_eq!(it.grant(grant(5, 0, 7)), if free { Ok(1) } else { Err(Refusal::ListFull) });
        // No word of the store is written, not the stamp either.
        assert_eq!(it.store, store);
    }
}

#[test]
fn a_party_s_call_has_the_question_s_order() {
    let mut it = printed(6, &[grant(5, 0, 7)], Fault::None);
    // Of every party: the question's own replies come before 18.
    for party in [5, 6] {
        let mut say = |pair, d| it.call(ask(party, pair, d, INSERT, END));
        assert_eq!(say(Held { book: 8, tag: 99, ..PAIR_0 }, 99), Ok(Access::Stale));
        assert_eq!(say(Held { tag: 6, ..PAIR_0 }, 0), Err(Refusal::NoSuchTag));
        assert_eq!(say(Held { tag: 5, ..PAIR_0 }, 6), Err(Refusal::NoSuchTag));
        assert_eq!(say(PAIR_0, NO_TAG), Err(Refusal::NoSuchTag));
        assert_eq!(say(Held { tag: 5, ..PAIR_0 }, 1), Err(Refusal::WrongTag));
        assert_eq!(say(Held { end: 8, ..PAIR_0 }, 1), Ok(Access::Stale));
    }
    it.store.mark(3).unwrap();
    assert_eq!(refused(&mut it, look(6, PAIR_0, 3, READ)), Refusal::Marked);
    assert_eq!(refused(&mut it, look(6, PAIR_0, 1, READ)), Refusal::NotAllowed);
    // 4 before 6, and 18 before both.
    assert_eq!(refused(&mut it, ask(6, PAIR_0, 1, INSERT, END)), Refusal::NotAllowed);
    assert_eq!(refused(&mut it, ask(5, PAIR_0, 1, INSERT, END)), Refusal::Kind);
    assert_eq!(refused(&mut it, ask(5, PAIR_0, 1, INSERT, TEXT)), Refusal::TooMany);
    it.store.mark(0).unwrap();
    assert_eq!(it.call(look(5, PAIR_0, 1, READ)), Ok(Access::Stale));
}

#[test]
fn seven_comes_last() {
    let mut store = Store::new(vec![0; HEADER + RECORD * 1_030]);
    store.load(16, 2, 7, &[&[BEGIN][..], &[TEXT; 125], &[END]].concat()).unwrap();
    store.insert_sheet(&[TEXT; 896], 5).unwrap();
    let mut it = Rights { store, grants: vec![grant(5, 0, 4)], count: 1 };
    let pair = it.store.hold(0).unwrap();
    assert_eq!(refused(&mut it, ask(5, pair, 9, INSERT, END)), Refusal::Kind);
    assert_eq!(refused(&mut it, ask(5, pair, 9, INSERT, TEXT)), Refusal::Labels);
    it.store.words.truncate(HEADER + RECORD * 1_023);
    assert_eq!(refused(&mut it, ask(5, pair, 9, INSERT, TEXT)), Refusal::TooMany);
}

/// Yes only inside; an insertion also right behind the begin. A no is 18.
#[test]
fn where_a_party_may_go() {
    for right in [READ, WRITE, INSERT] {
        let at = |d| printed(8, &[grant(5, 3, 7), grant(5, 0, 7)], Fault::None).call(ask(5, PAIR_0, d, right, TEXT));
        let allowed: Vec<u32> = (0..6).filter(|&d| at(d).is_ok()).collect();
        assert_eq!(allowed, if right == INSERT { vec![0, 1, 2, 3, 4] } else { vec![1, 2, 3, 4] });
        assert_eq!(at(5), Err(Refusal::NotAllowed));
    }
    let mut it = printed(8, &[grant(5, 1, 4)], Fault::None);
    assert_eq!(it.call(ask(5, PAIR_1, 1, INSERT, BEGIN)).map(|_| it.store.words[4..8].to_vec()), Ok(vec![8, 0, 7, 1]));
    // The kind is nobody's business where nothing is inserted.
    let mut it = printed(6, &[grant(5, 0, 3)], Fault::None);
    assert_eq!([0, 2, 255].map(|kind| it.call(ask(5, PAIR_0, 3, READ, kind))), [Ok(Access::Yes); 3]);
}

/// What gives a right: the first records of the list, by a quotient that is odd.
#[test]
fn which_grants_give_what() {
    let gives = |rights| {
        [READ, WRITE, INSERT]
            .map(|right| printed(6, &[grant(5, 0, rights)], Fault::None).call(ask(5, PAIR_0, 3, right, END)))
    };
    let (yes, no, inserts) = (Ok(Access::Yes), Err(Refusal::NotAllowed), Err(Refusal::Kind));
    assert_eq!(gives(5), [yes, no, inserts]);
    assert_eq!(gives(0), [no; 3]);
    // Numbers that no grant writes are read all the same.
    assert_eq!(gives(8), [no; 3]);
    assert_eq!(gives(10), [no, yes, no]);
    assert_eq!(gives(u32::MAX), [yes, yes, inserts]);
    for other in [grant(65_541, 0, 7), grant(5, 1, 7), grant(5, NO_TAG, 7), grant(0, 0, 7)] {
        assert_eq!(refused(&mut printed(6, &[other], Fault::None), look(5, PAIR_0, 3, READ)), Refusal::NotAllowed);
    }
    // Two grants are not one: here none gives both rights, and each call needs one only.
    let mut it = printed(6, &[grant(5, 0, 1), grant(5, 0, 2)], Fault::None);
    assert_eq!([READ, WRITE].map(|right| it.call(look(5, PAIR_0, 3, right))), [yes; 2]);
    it.count = 1;
    assert_eq!(refused(&mut it, look(5, PAIR_0, 3, WRITE)), Refusal::NotAllowed);
    it.count = 0;
    assert_eq!(refused(&mut it, look(5, PAIR_0, 3, READ)), Refusal::NotAllowed);
}

#[test]
fn revoking_closes_the_gap_in_order() {
    let list = [grant(5, 0, 1), grant(6, 0, 1), grant(5, 1, 1), grant(5, 0, 7), grant(7, 0, 1), grant(5, 0, 2)];
    let mut it = Rights { store: Store::default(), grants: list.to_vec(), count: 5 };
    assert_eq!([it.revoke(8, 0), it.revoke(5, 9), it.revoke(6, 1)], [Ok(0); 3]);
    assert_eq!((&it.grants[..], it.count), (&list[..], 5));
    assert_eq!(it.revoke(5, 0), Ok(2));
    // The record behind the count is that of the party too, and stays.
    assert_eq!(it.grants, [list[1], list[2], list[4], list[3], list[4], list[5]]);
    assert_eq!((it.count, it.revoke(5, 1), it.count), (3, Ok(1), 2));
    assert_eq!(it.grants, [list[1], list[4], list[4], list[3], list[4], list[5]]);
}

/// An accepted load or reading ends all grants, the plain ones leave the count, and a refused one does.
#[test]
fn loads_and_readings_end_grants() {
    let list = [grant(5, 0, 7); 2];
    let file = {
        let mut bytes = vec![0; reference::bytes_for(6)];
        printed(6, &[], Fault::None).store.write_file(&mut bytes).map(|_| bytes).unwrap()
    };
    for count in [0, 2, 9, usize::MAX] {
        let mut it = Rights { count, ..printed(6, &list, Fault::None) };
        assert_eq!(it.store.load(2, 2, 7, &PRINTED), it.store.read_file(&file));
        assert_eq!(it.load(2, 2, 7, &[END]), Err(Refusal::Nesting));
        assert_eq!(it.read_file(&file[1..]), Err(Refusal::NotAFile));
        assert_eq!((it.count, &it.grants[..]), (count, &list[..]));
        assert!(it.load(2, 2, 7, &[]).is_ok());
        assert_eq!((it.count, &it.grants[..]), (0, &list[..]));
        it.count = count;
        assert!(it.read_file(&file).is_ok());
        assert_eq!((it.count, &it.grants[..]), (0, &list[..]));
    }
}

/// Two histories with the same shared calls, of which one has a call more before each, by a party without a grant then.
#[test]
fn parties_without_a_grant_leave_no_trace() {
    let run = |more: bool| {
        let mut it = printed(9, &[Grant::default(); 3], Fault::None);
        it.count = 0;
        let extra = |it: &mut Rights, party| {
            let say = ask(party, it.store.hold(0).unwrap(), 3, INSERT, TEXT);
            assert!(!more || it.call(say) == Err(Refusal::NotAllowed));
        };
        let mut replies = Vec::new();
        extra(&mut it, 5);
        replies.push(it.grant(grant(5, 0, 4)).ok());
        extra(&mut it, 6);
        replies.push(it.call(ask(5, PAIR_0, 3, INSERT, TEXT)).ok().map(|_| 0));
        extra(&mut it, 6);
        replies.push(it.revoke(5, 0).ok());
        extra(&mut it, 5);
        (replies, it)
    };
    assert_eq!(run(true), run(false));
    assert_eq!(run(true).0, [Some(1), Some(0), Some(1)]);
}

/// Replies and what is left behind of calls over a few systems, under a fault.
fn short_history(fault: Fault) -> (Vec<String>, Vec<Rights>) {
    let list = [
        grant(5, 0, 1),
        grant(65_542, 0, 7),
        grant(8, 0, 15),
        grant(9, 1, 7),
        grant(5, 1, 2),
        grant(5, 0, 1),
        grant(9, 0, 4),
        grant(11, 0, 7),
    ];
    let mut systems = Vec::new();
    let mut replies = Vec::new();
    let mut over = |count, of: &dyn Fn(&mut Rights) -> String| {
        let mut it = Rights { count, ..printed(8, &list, fault) };
        replies.push(of(&mut it));
        systems.push(it);
    };
    for (party, rights) in [(5, 0), (6, 0), (7, 0), (8, 0), (9, 0), (9, 1), (11, 0)] {
        for (d, right, kind) in [(4, 1, 3), (4, 2, 3), (4, 3, 3), (4, 4, 3), (4, 4, 2), (4, 1, 2), (0, 1, 3), (0, 4, 3)]
        {
            let pair = if rights == 0 { PAIR_0 } else { PAIR_1 };
            over(7, &|it| format!("{:?}", it.call(ask(party, pair, d, right, kind))));
            over(7, &|it| format!("{:?}", it.call(ask(party, pair, 5, right, kind))));
        }
        over(7, &|it| format!("{:?}", it.call(look(party, Held { book: 8, ..PAIR_0 }, 4, 1))));
        over(7, &|it| format!("{:?}", it.revoke(party, rights)));
    }
    for (count, party, section, rights) in [(7, 5, 0, 7), (8, 5, 2, 7), (9, 5, 1, 1), (7, 5, 0, 1), (7, 5, 3, 0)] {
        over(count, &|it| format!("{:?}", it.grant(grant(party, section, rights))));
    }
    over(7, &|it| format!("{:?}", it.load(2, 2, 7, &[TEXT])));
    over(7, &|it| format!("{:?}", it.load(2, 2, 7, &[END])));
    over(7, &|it| {
        let mut file = vec![0; reference::bytes_for(6)];
        let written = it.store.write_file(&mut file);
        format!("{written:?}, {:?}", it.read_file(&file))
    });
    over(7, &|it| {
        it.store.load(2, 2, 7, &[BEGIN, TEXT, END]).unwrap();
        format!("{:?}", it.grant(grant(5, 1, 7)))
    });
    over(7, &|it| {
        it.store.words[0] = 0;
        format!("{:?}", it.grant(grant(0, 1, 7)))
    });
    (replies, systems)
}

#[test]
fn each_breach_shows() {
    let (replies, systems) = short_history(Fault::None);
    for breach in Breach::ALL {
        let (wrong, mut others) = short_history(Fault::Misgrants(breach));
        others.iter_mut().for_each(|it| it.store.fault = Fault::None);
        assert!((wrong, others) != (replies.clone(), systems.clone()), "{breach:?}");
    }
}
