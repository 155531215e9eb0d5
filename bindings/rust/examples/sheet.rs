//! A new alloy comes as a sheet of XML text. Its kinds are read, and one call puts all of its tags into a book, inside one of
//! the book's lines: labels as if the tags had come one by one, mates and ups as the sheet nests. The book was read from
//! XML in the same way.
//!
//! Writes what examples/sheet.c of the repository writes.

use vekhturop::{Answer, Kind, Place, Refusal, Store, Tag, Within, kinds_of_xml, words_for};

const MOST: usize = 100;

const BOOK: &str = "<book><line></line><line></line></book>";
const SHEET: &str = "<alloy><pass>gap 4</pass>2 passes</alloy>";

fn tag(number: u32) -> Tag {
    Tag::new(number).expect("a tag")
}

/// The kinds of a text; a list as long as the text always has room.
fn kinds(text: &str) -> Result<Vec<Kind>, Refusal> {
    let mut bytes = vec![0; text.len()];
    let count = kinds_of_xml(text.as_bytes(), &mut bytes)?;
    println!("{count} kinds: {text}");
    bytes[..count].iter().map(|byte| Kind::try_from(*byte)).collect()
}

/// Asks with a pair that is held just before.
fn ask(store: &Store, section: Tag, d: Tag) -> Result<(), Refusal> {
    let pair = store.hold(section)?;
    let says = match store.question(&pair, d)? {
        Answer::No => "no",
        Answer::Yes => "yes",
        Answer::Stale => "stale",
    };
    println!("{d} inside {section}: {says}");
    Ok(())
}

fn list(store: &Store) -> Result<(), Refusal> {
    let all = store.list(Within::Book)?;
    print!("{} tags:", all.len());
    for (tag, label) in all {
        print!(" {tag}={label}");
    }
    println!();
    Ok(())
}

fn main() -> Result<(), Refusal> {
    let mut words = vec![0; words_for(MOST)];
    let mut store = Store::new(&mut words);
    let loaded = store.load(2, 2, 7, &kinds(BOOK)?)?;
    println!("loaded {} tags, height {}", loaded.tags, loaded.height);
    list(&store)?;

    // Behind the begin of the first line, so inside it.
    let line = tag(1);
    let reply = store.insert_sheet(&kinds(SHEET)?, Place::After(line))?;
    println!("tags {} to {} behind {line}: moved {}, split {}", reply.first, reply.last, reply.moved, reply.split);
    list(&store)?;

    // Tags 6 and 7 are the begins of the alloy and of its pass, 8 is the text in the pass and 10 the one behind it.
    ask(&store, line, tag(6))?;
    ask(&store, tag(7), tag(8))?;
    ask(&store, tag(7), tag(10))
}
