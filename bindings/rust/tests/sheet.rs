//! The kinds of sheets, and every refusal of that call.

use vekhturop::{Kind, Refusal, Store, kinds_of_xml, words_for};

/// The kinds, with a list that is long enough.
fn kinds(text: &str) -> Result<Vec<u8>, Refusal> {
    let mut list = vec![9; text.len()];
    let count = kinds_of_xml(text.as_bytes(), &mut list)?;
    list.truncate(count);
    Ok(list)
}

/// So many elements opened, this inside, and all closed again.
fn inside(depth: usize, text: &str) -> String {
    format!("{}{text}{}", "<a>".repeat(depth), "</a>".repeat(depth))
}

#[test]
fn sheets_have_kinds() {
    assert_eq!(kinds(""), Ok(vec![]));
    assert_eq!(kinds(" "), Ok(vec![3]));
    assert_eq!(kinds("<a b = \"1\" c='&lt;\"]]>'/>"), Ok(vec![1, 2]));
    assert_eq!(kinds("<a>t<b/>u<!--c-->v<![CDATA[w]]>&gt;</a>"), Ok(vec![1, 3, 1, 2, 3, 3, 2]));
    assert_eq!(kinds(&inside(64, "")).map(|it| it.len()), Ok(128));
}

#[test]
fn other_texts_are_refused() {
    for text in ["<a>", "</a>", "]]>", "&#60;", "<!-- a--->", "<a b='' b=''/>", "<a></b><?c?>", "\0"] {
        assert_eq!(kinds(text), Err(Refusal::NotASheet), "{text}");
    }
    assert_eq!(kinds(&inside(65, "")), Err(Refusal::TooDeep));
    assert_eq!(kinds(&inside(64, "<b x='1' x='1'/>")), Err(Refusal::NotASheet));
    for text in ["<?xml version='1.0'?>", "<!DOCTYPEx", "<a><?b?></a>"] {
        assert_eq!(kinds(text), Err(Refusal::NotRead), "{text}");
    }
}

#[test]
fn a_list_is_written_whole_or_not_at_all() {
    let mut list = [9; 5];
    assert_eq!(kinds_of_xml(b"<a>x</a>", &mut list[..2]), Err(Refusal::ListTooShort));
    assert_eq!(kinds_of_xml(b"<a>x</b>", &mut list), Err(Refusal::NotASheet));
    assert_eq!(list, [9; 5]);
    assert_eq!(kinds_of_xml(b"<a>x</a>", &mut list), Ok(3));
    assert_eq!(list, [1, 3, 2, 9, 9]);
    assert_eq!(kinds_of_xml(b"", &mut []), Ok(0));
}

/// From a text to a book: what a sheet gives is what load takes.
#[test]
fn a_sheet_is_loaded() {
    let bytes = kinds("<a>x<b/></a>").expect("a sheet");
    let kinds: Vec<Kind> = bytes.iter().map(|byte| Kind::try_from(*byte).expect("a kind")).collect();
    let mut words = vec![0; words_for(kinds.len())];
    let loaded = Store::new(&mut words).load(2, 2, 7, &kinds).expect("a book");
    assert_eq!((loaded.tags, loaded.height), (5, 2));
    assert_eq!(Kind::try_from(0), Err(Refusal::Kind));
    assert_eq!(Kind::try_from(17), Err(Refusal::Kind));
}
