//! A session on one section of a book: it holds the section's pair of labels, shows it with a write, finds it stale once the
//! book has been relabelled, and holds it again. Then the book is listed, each tag as far in as it is deep, and once more with a
//! part of it marked. Last it is saved as a file, and read back into other words.
//!
//! Writes what examples/section.c of the repository writes.

use vekhturop::{Answer, HeldPair, Kind, Place, Refusal, Store, Tag, Within, bytes_for, words_for};

const MOST: usize = 100;

fn tag(number: u32) -> Tag {
    Tag::new(number).expect("a tag")
}

fn insert_text(store: &mut Store, place: Tag) -> Result<(), Refusal> {
    let reply = store.insert_text(Place::After(place))?;
    println!("text {} behind {}: moved {}, split {}", reply.first, place, reply.moved, reply.split);
    Ok(())
}

fn hold(store: &Store, section: Tag) -> Result<HeldPair, Refusal> {
    let pair = store.hold(section)?;
    println!("pair of {}: {} {}", pair.tag, pair.start, pair.end);
    Ok(pair)
}

fn ask(store: &Store, pair: &HeldPair, d: Tag) -> Result<(), Refusal> {
    let says = match store.question(pair, d)? {
        Answer::No => "no",
        Answer::Yes => "yes",
        Answer::Stale => "stale",
    };
    println!("{d} inside {}: {says}", pair.tag);
    Ok(())
}

fn list(store: &Store) -> Result<(), Refusal> {
    let all = store.list(Within::Book)?;
    println!("{} tags:", all.len());
    for (tag, label) in all {
        let depth = store.depth(tag).expect("a tag of the book");
        println!("{}{tag}={label}", "  ".repeat(depth as usize + 1));
    }
    Ok(())
}

/// A program that keeps the book writes the file's bytes to disk here, and reads them when it starts again.
fn save_and_read(store: &Store) -> Result<(), Refusal> {
    let mut file = vec![0; bytes_for(MOST)];
    let bytes = store.write_to(&mut file)?;
    println!("saved {bytes} bytes");
    let mut words = vec![0; words_for(MOST)];
    let (again, loaded) = Store::read_from(&file[..bytes], &mut words)?;
    let book = ..words_for(loaded.tags as usize);
    let same = if again.words()[book] == store.words()[book] { "the same" } else { "other" };
    println!("read {} tags, height {}: {same} words", loaded.tags, loaded.height);
    Ok(())
}

fn main() -> Result<(), Refusal> {
    use Kind::{Begin, End};
    let mut words = vec![0; words_for(MOST)];
    let mut store = Store::new(&mut words);
    let loaded = store.load(2, 2, 7, &[Begin, Begin, End, Begin, End, End])?;
    println!("loaded {} tags, height {}", loaded.tags, loaded.height);

    let pair = hold(&store, tag(0))?;
    insert_text(&mut store, tag(2))?;
    ask(&store, &pair, tag(6))?;
    insert_text(&mut store, tag(2))?;
    ask(&store, &pair, tag(6))?;
    let pair = hold(&store, tag(0))?;
    ask(&store, &pair, tag(6))?;
    list(&store)?;

    println!("marked {}", store.mark(tag(3))?);
    list(&store)?;
    save_and_read(&store)
}
