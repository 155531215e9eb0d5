//! Sheets: the specimens of the rules, worked out by hand.

use reference::{DEPTH, Fault, Refusal, Slip, xml_kinds};

/// The kinds of a sheet, with a list that is long enough.
fn kinds(text: impl AsRef<[u8]>, fault: Fault) -> Result<Vec<u8>, Refusal> {
    let text = text.as_ref();
    let mut list = vec![9; text.len() + 1];
    let count = xml_kinds(text, &mut list, fault)?;
    assert!(list[count..].iter().all(|&it| it == 9), "written behind the count");
    list.truncate(count);
    Ok(list)
}

fn all_are(texts: &[&str], verdict: Result<&[u8], Refusal>) {
    for text in texts {
        assert_eq!(kinds(text, Fault::None).as_deref(), verdict.as_ref().map(|it| *it), "{text}");
    }
}

/// So many elements opened, this inside, and all closed again.
fn inside(depth: usize, text: &str) -> String {
    format!("{}{text}{}", "<a>".repeat(depth), "</a>".repeat(depth))
}

#[test]
fn texts() {
    all_are(&["", "<!--->-->", "<!---->", "<!--->--><!-- a - b -->"], Ok(&[]));
    all_are(&[" ", "\r\n", "\t", "]]", "]]&gt;", "\x7f", "&lt;&gt;&amp;&apos;&quot;", "a>b\"'=/"], Ok(&[3]));
    all_are(&["<![CDATA[]]>", "<![CDATA[<?&]]]]>", "]]<![CDATA[]]>>", "a<![CDATA[b]]>c&lt;"], Ok(&[3]));
    all_are(&["]]<!---->>", "a<!-- -->b", "&lt;<!----><![CDATA[]]>"], Ok(&[3, 3]));
    let bytes: Vec<u8> = (0..=255).filter(|&it| kinds([it], Fault::None) == Ok(vec![3])).collect();
    let allowed = [9, 10, 13].into_iter().chain(32..128).filter(|it| !b"<&".contains(it));
    assert_eq!(bytes, allowed.collect::<Vec<_>>());
}

#[test]
fn what_is_no_text() {
    all_are(&["]]>", "a]]]>", "<![CDATA[x]]>]]>", "&gt;]]>", "]]>&lt;"], Err(Refusal::NotASheet));
    all_are(&["&", "&lt", "&LT;", "& lt;", "&#60;", "&#x3c;", "&a;", "&;", "&lt&gt;"], Err(Refusal::NotASheet));
    all_are(&["<!-- a--->", "<!-->", "<!--->", "<!-- -- -->", "<!--", "<!-", "<!"], Err(Refusal::NotASheet));
    all_are(&["<![CDATA[", "<![CDATA[]]", "<![CDAT", "<![cdata[]]>", "<![CDATA []]>"], Err(Refusal::NotASheet));
    all_are(&["<!--\u{b}-->", "<![CDATA[\u{80}]]>", "<a b='\0'/>", "\u{7f}\u{80}"], Err(Refusal::NotASheet));
}

#[test]
fn elements() {
    all_are(&["<a/>", "<a></a>", "<a></a >", "<a ></a\r\n>", "<a />", "<a\t/>"], Ok(&[1, 2]));
    all_are(&["<a b = \"1\" c='&lt;\"]]>'/>", "<a b='>' B=\"'\"/>", "<a b=''\nc=''></a>"], Ok(&[1, 2]));
    all_are(&["<_/>", "<:/>", "<a-.:_0/>", "<A></A>", "<a _='' :=''/>", "<a a=''/>"], Ok(&[1, 2]));
    all_are(&["<a>x</a>", "<a>]]</a>", "<a> </a>"], Ok(&[1, 3, 2]));
    all_are(&["<a/><b/>", "<a></a><a/>"], Ok(&[1, 2, 1, 2]));
    all_are(&["<a>t<b/>u<!--c-->v<![CDATA[w]]>&gt;</a>"], Ok(&[1, 3, 1, 2, 3, 3, 2]));
    all_are(&[" <a/> "], Ok(&[3, 1, 2, 3]));
}

#[test]
fn what_is_no_element() {
    all_are(&["<", "< a/>", "<a", "<a ", "<a/", "<a/ >", "<a//>", "<1/>", "<-/>", "<.a/>"], Err(Refusal::NotASheet));
    all_are(
        &["<a b=\"1\"c=\"2\"/>", "<a b/>", "<a b=/>", "<a b=1/>", "<a b='1/>", "<a b='1\"/>", "<ab='1'/>"],
        Err(Refusal::NotASheet),
    );
    all_are(&["<a b=\"<\"/>", "<a b='&'/>", "<a b='&#60;'/>", "<a b='&lt'/>", "<a =''/>"], Err(Refusal::NotASheet));
    all_are(&["<a b=\"1\" b=\"2\"/>", "<a b='' c='' b=''></a>"], Err(Refusal::NotASheet));
    all_are(&["<a></ a>", "</a>", "<a></b>", "<a></A>", "<a></a b=''>", "<a></a/>", "<a></>"], Err(Refusal::NotASheet));
    all_are(&["<a>", "<a><b></a></b>", "<a/></a>", "<a></a></a>", "<a><a></a>"], Err(Refusal::NotASheet));
}

/// The first construct that cannot be completed decides, and nothing behind it counts.
#[test]
fn what_is_not_read() {
    all_are(
        &["<?", "<?a?>", "<!DOCTYPE", "<!DOCTYPEx", "<a><?b?></a>", "<a><!DOCTYPE", "x<?\0"],
        Err(Refusal::NotRead),
    );
    all_are(&["<!DOCTYP", "<!DOC", "<!doctype", "<! DOCTYPE"], Err(Refusal::NotASheet));
    all_are(
        &["<a></b><?c?>", "</a><?", "<a <?b?>>", "<!-- <?", "]]><?", "<![CDATA[<?", "\0<?"],
        Err(Refusal::NotASheet),
    );
    all_are(
        &["<!--<?-->", "<![CDATA[<?]]>"].map(|it| [it, "<?"].concat()).each_ref().map(|it| it.as_str()),
        Err(Refusal::NotRead),
    );
}

#[test]
fn sixty_four_are_the_most() {
    let nested = [vec![1; DEPTH], vec![2; DEPTH]].concat();
    assert_eq!(kinds(inside(64, ""), Fault::None), Ok(nested));
    for text in ["<b/>", "<b x=\"1\">", "<b/></b><?", "<a>"] {
        assert_eq!(kinds(inside(64, text), Fault::None), Err(Refusal::TooDeep), "{text}");
    }
    for text in ["<b x=\"1\" x=\"1\">", "<b", "<b x='<'/>", "</b>", "]]>", "<b\0/>"] {
        assert_eq!(kinds(inside(64, text), Fault::None), Err(Refusal::NotASheet), "{text}");
    }
    assert_eq!(kinds(inside(64, "<?"), Fault::None), Err(Refusal::NotRead));
    // What is closed again does not count.
    assert!(kinds(inside(63, "<b/><b></b>x<b/>"), Fault::None).is_ok());
}

#[test]
fn a_list_that_is_too_short_comes_last() {
    let mut list = [9; 5];
    assert_eq!(xml_kinds(b"<a>x</a>", &mut list[..2], Fault::None), Err(Refusal::ShortList));
    assert_eq!(xml_kinds(b"<a>x</b>", &mut list[..2], Fault::None), Err(Refusal::NotASheet));
    assert_eq!(xml_kinds(b"<a>x</a><?", &mut list[..2], Fault::None), Err(Refusal::NotRead));
    assert_eq!(xml_kinds(inside(65, "").as_bytes(), &mut list[..2], Fault::None), Err(Refusal::TooDeep));
    assert_eq!(xml_kinds(b"", &mut list[..0], Fault::None), Ok(0));
    assert_eq!(list, [9; 5]);
    assert_eq!(xml_kinds(b"<a>x</a>", &mut list, Fault::None), Ok(3));
    assert_eq!(list, [1, 3, 2, 9, 9]);
}

#[test]
fn a_book_has_no_limit_here() {
    let text = "<a/>".repeat(100_001);
    assert_eq!(kinds(text, Fault::None).map(|it| it.len()), Ok(200_002));
}

#[test]
fn each_seeded_slip_shows() {
    let deep = inside(64, "<b");
    for (slip, text) in [
        (Slip::TextsParted, "a&lt;"),
        (Slip::CommentsJoin, "a<!---->b"),
        (Slip::BlanksDropped, " "),
        (Slip::CloserInData, "]]>"),
        (Slip::DashesInComments, "<!-- a--->"),
        (Slip::NumberedReferences, "&#60;"),
        (Slip::HighBytes, "\u{80}"),
        (Slip::LessInValues, "<a b='<'/>"),
        (Slip::AttributesTogether, "<a b=''c=''/>"),
        (Slip::AttributesRepeated, "<a b='' b=''/>"),
        (Slip::AnyEndCloses, "<a></b>"),
        (Slip::OneDeeper, &inside(65, "")),
        (Slip::DepthFirst, &deep),
        (Slip::DoctypeWhole, "<!DOCTYPEx"),
        (Slip::InstructionAnywhere, "]]><?"),
    ] {
        assert_ne!(kinds(text, Fault::Misreads(slip)), kinds(text, Fault::None), "{slip:?}");
    }
    let mut list = [9];
    assert_eq!(xml_kinds(b"a<", &mut list[..0], Fault::Misreads(Slip::ShortListFirst)), Err(Refusal::ShortList));
    assert_eq!(xml_kinds(b"a<", &mut list, Fault::Misreads(Slip::WrittenEarly)), Err(Refusal::NotASheet));
    assert_eq!(list, [3]);
}
