//! A contractor's session, from grant to revoke: it is granted to read and insert in one section, inserts, finds its pair stale
//! after its own insertion, holds it again, and is refused what it was not granted and, once revoked, everything.
//!
//! Writes what examples/rights.c of the repository writes.

use vekhturop::{Access, Ask, Grant, Grants, HeldPair, Kind, Refusal, Rights, Store, Tag, words_for};

const CONTRACTOR: u32 = 5;
const OTHER: u32 = 6;

fn tag(number: u32) -> Tag {
    Tag::new(number).expect("a tag")
}

fn hold(store: &Store, section: Tag) -> Result<HeldPair, Refusal> {
    let pair = store.hold(section)?;
    println!("pair of {}: {} {}", pair.tag, pair.start, pair.end);
    Ok(pair)
}

/// Not every call of this program is allowed.
fn call(grants: &Grants, store: &mut Store, party: u32, pair: &HeldPair, d: Tag, ask: Ask) {
    match ask {
        Ask::Read => print!("party {party}, read {d}: "),
        Ask::Write => print!("party {party}, write {d}: "),
        Ask::Insert(_) => print!("party {party}, text behind {d}: "),
    }
    match grants.call(store, party, pair, d, ask) {
        Ok(Access::Yes) => println!("yes"),
        Ok(Access::Stale) => println!("stale"),
        Ok(Access::Inserted(reply)) => println!("tag {}, moved {}, split {}", reply.first, reply.moved, reply.split),
        Err(refusal) => println!("refused, {}", refusal.number()),
    }
}

fn main() -> Result<(), Refusal> {
    use Kind::{Begin, End, Text};
    let (mut words, mut list) = (vec![0; words_for(100)], [Grant::default(); 3]);
    let mut store = Store::new(&mut words);
    let mut grants = Grants::new(&mut list);
    let loaded = grants.load(&mut store, 2, 2, 7, &[Begin, Begin, End, Begin, End, End])?;
    println!("loaded {} tags, height {}, {} grants", loaded.tags, loaded.height, grants.count());

    let count = grants.add(&store, CONTRACTOR, tag(1), Rights::READ | Rights::INSERT)?;
    println!("party {CONTRACTOR} may read and insert in 1: {count} grants");
    let pair = hold(&store, tag(1))?;
    call(&grants, &mut store, CONTRACTOR, &pair, tag(1), Ask::Insert(Text));
    call(&grants, &mut store, CONTRACTOR, &pair, tag(6), Ask::Read);
    call(&grants, &mut store, CONTRACTOR, &pair, tag(6), Ask::Write);
    call(&grants, &mut store, OTHER, &pair, tag(6), Ask::Read);
    call(&grants, &mut store, CONTRACTOR, &pair, tag(1), Ask::Insert(Text));
    call(&grants, &mut store, CONTRACTOR, &pair, tag(6), Ask::Read);
    let pair = hold(&store, tag(1))?;
    call(&grants, &mut store, CONTRACTOR, &pair, tag(6), Ask::Read);

    let revoked = grants.revoke(CONTRACTOR, tag(1))?;
    println!("revoked {revoked}: {} grants", grants.count());
    call(&grants, &mut store, CONTRACTOR, &pair, tag(6), Ask::Read);
    Ok(())
}
