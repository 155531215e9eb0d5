//! Texts that are sheets or nearly: the specimens, joined pieces of markup, texts about as deep as is allowed, tags of many
//! attributes, any text spoiled, and all short texts at the places where something may stand.

use crate::printed::{BYTES, NAMES};
use draw::Rng;
use reference::DEPTH;

/// Bytes that stand nowhere.
const FORBIDDEN: [u8; 7] = [0, 8, 11, 12, 31, 128, 255];

/// Pieces that sheets are made of, whole ones and halves, between bars.
const PIECES: &str = concat!(
    "<|>|/|</|/>|<a|<a>|<a/>|</a>|</a|<b>|</b>|<b |<ab>|</ab>| |\t|\r\n|x|]|]]|]]>|]>|&|&lt;|&gt;|&amp;|&apos;|",
    "&quot;|&#60;|&lt|;|<!--|-->|--|-|->|<!---->|<!|<![CDATA[|<![CDATA[]]>|<![CDATA|<?|?>|<!DOCTYPE|<!DOCTYP|",
    "<!doctype| a='1'| b=\"2\"| a = ''|='|=\"|'|\"|=| a|a|:|_.-|1",
);

/// Where something may stand: what comes before it and behind it.
const PLACES: [(&str, &str); 19] = [
    ("", ""),
    ("x", "x"),
    ("<a>", "</a>"),
    ("<", ">x</a>"),
    ("<a", "/>"),
    ("<a ", "></a>"),
    ("<a b", "'1'/>"),
    ("<a b=", "/>"),
    ("<a b='", "'/>"),
    ("<a b=\"1\"", "/>"),
    ("<a b='' ", "=''/>"),
    ("<a></", ">"),
    ("<a></a", ">"),
    ("<!", ""),
    ("<!--", "-->"),
    ("<![CDATA[", "]]>"),
    ("]", ">"),
    ("&", ";"),
    ("&g", ""),
];

/// The bytes that texts at these places are made of.
const SHORT: &[u8] = b"<>/!?-[]&;='\" \nagt1\0";

/// The specimens of the rules, between bars; those that need 64 open elements come below.
const SPECIMENS: &str = concat!(
    "| |<a/>|<a>x</a>|<a>t<b/>u<!--c-->v<![CDATA[w]]>&gt;</a>|<!--->-->|<!---->|<!-- a--->|<!-->|]]|]]>|]]&gt;|",
    "]]<!---->>|a<!-- -->b|<![CDATA[]]>|<a></a>|<![CDATA[x]]>]]>|\x7f|\r\n|<a b = \"1\" c='&lt;\"]]>'/>|",
    "<a b=\"1\"c=\"2\"/>|<a b=\"1\" b=\"2\"/>|<a b=\"<\"/>|<a></a >|<a></ a>|<a/ >|<a></b><?c?>|</a>|<a>|<?|",
    "<!DOCTYPEx|<!DOCTYP|<!DOC|<!doctype|<![CDAT|<a><?b?></a>|<a <?b?>>|<!-- <?|]]><?|&#60;|\0|\x0b",
);

/// What the specimens have inside 64 elements.
const DEEPEST: [&str; 6] = ["", "<b/>", "<b x=\"1\">", "<b x=\"1\" x=\"1\">", "<b", "<?"];

pub fn specimens() -> Vec<Vec<u8>> {
    let (begins, ends) = ("<a>".repeat(DEPTH), "</a>".repeat(DEPTH));
    let deepest = DEEPEST.map(|inside| [&begins, inside, &ends].concat().into_bytes());
    SPECIMENS.split('|').map(|text| text.as_bytes().to_vec()).chain(deepest).chain([vec![128]]).collect()
}

fn piece(rng: &mut Rng) -> &'static str {
    let many = PIECES.split('|').count();
    PIECES.split('|').nth(rng.below(many)).unwrap_or_default()
}

/// Pieces of markup, one behind the other.
pub fn joined(rng: &mut Rng) -> Vec<u8> {
    let many = rng.pick(&[2, 4, 7, 12]);
    (0..many).flat_map(|_| piece(rng).bytes()).collect()
}

/// So many elements opened, with something inside that may be right there or not, and mostly closed again.
pub fn deep(rng: &mut Rng, open: usize) -> Vec<u8> {
    let mut text = Vec::new();
    let mut names = Vec::new();
    for _ in 0..open {
        let name = rng.pick(&NAMES);
        let beside = rng.pick(&["", "", "", "x", "<!---->", "<b/>", "<b></b>"]);
        text.extend(format!("{beside}<{name}>").bytes());
        names.push(name);
    }
    let inside = [
        "",
        "",
        "",
        "x",
        "<b/>",
        "<b x='1'>",
        "<b x='1' x='1'/>",
        "<b x='<'/>",
        "<b",
        "<?",
        "</b>",
        "<!DOCTYPE",
        "]]>",
    ];
    text.extend(rng.pick(&inside).bytes());
    let left = rng.pick(&[0, 0, 0, 1]);
    for name in names[left..].iter().rev() {
        text.extend(format!("</{name}>{}", rng.pick(&["", "", "", " ", "<b/>"])).bytes());
    }
    text
}

/// A tag of up to so many attributes, with names that are easily taken for each other and now and then the same, and
/// values that look like attributes.
pub fn crowded(rng: &mut Rng, most: usize) -> Vec<u8> {
    let mut text = b"<a".to_vec();
    for _ in 0..rng.below(most + 1) {
        let name: String = (0..1 + rng.below(6)).map(|_| rng.pick(&['a', 'b', 'c'])).collect();
        let value = rng.pick(&["''", "\"\"", "'1'", "\"a=''\"", "' b=\"'", "\">\"", "'&lt;/>'", " 'c'"]);
        text.extend(format!("{}{name}{}={value}", rng.pick(&[" ", "\n", "  "]), rng.pick(&["", " "])).bytes());
    }
    text.extend(b"/>");
    text
}

/// A tag of very many attributes, by numbers in no order; every second time one name stands twice. The names are short, alike at both
/// ends, or `Aa` and `BB` in turn, which a hash by powers of 31 does not tell apart.
pub fn packed(rng: &mut Rng, many: usize) -> Vec<u8> {
    let form = rng.below(3);
    let name = |i: usize| match form {
        0 => format!("n{i}"),
        1 => format!("pass{i:05}mm"),
        _ => (0..13).map(|bit| if i >> bit & 1 == 1 { "BB" } else { "Aa" }).collect(),
    };
    let mut names: Vec<String> = (0..many).map(name).collect();
    rng.shuffle(&mut names);
    if rng.percent(50) {
        names[rng.below(many)] = names[rng.below(many)].clone();
    }
    let attributes: String = names.iter().map(|name| format!(" {name}='{}'", rng.below(10))).collect();
    format!("<a{attributes}/>").into_bytes()
}

fn any_byte(rng: &mut Rng) -> u8 {
    match rng.below(8) {
        0 => rng.word() as u8,
        1 => rng.pick(&FORBIDDEN),
        _ => rng.pick(BYTES),
    }
}

/// The text with bytes dropped, changed and put in, one to three times.
pub fn spoiled(rng: &mut Rng, text: &[u8]) -> Vec<u8> {
    let mut text = text.to_vec();
    for _ in 0..rng.pick(&[1, 1, 2, 3]) {
        let at = rng.below(text.len() + 1);
        if rng.percent(6) {
            // As where a file was cut off.
            text.truncate(at);
        }
        let end = (at + rng.pick(&[1, 1, 2, 5])).min(text.len());
        let old = &text[at..end];
        let new = match rng.below(15) {
            0..=4 => vec![],
            5..=7 => vec![any_byte(rng)],
            8..=10 => [&[any_byte(rng)], old].concat(),
            11..=12 => [piece(rng).as_bytes(), old].concat(),
            _ => old.repeat(2),
        };
        text.splice(at..end, new);
    }
    text
}

/// All texts of up to so many of the bytes that matter.
fn short_texts(longest: usize) -> Vec<Vec<u8>> {
    let mut all = vec![vec![]];
    let mut from = 0;
    for _ in 0..longest {
        let longer = |text: &Vec<u8>| SHORT.iter().map(|&byte| [&text[..], &[byte]].concat()).collect::<Vec<_>>();
        let new: Vec<_> = all[from..].iter().flat_map(longer).collect();
        from = all.len();
        all.extend(new);
    }
    all
}

/// At each place every byte, and all texts of up to so many bytes that matter.
pub fn at_each_place<E>(longest: usize, mut take: impl FnMut(&[u8]) -> Result<(), E>) -> Result<(), E> {
    let single = (0..=u8::MAX).map(|byte| vec![byte]);
    let texts: Vec<Vec<u8>> = short_texts(longest).into_iter().chain(single).collect();
    for (before, behind) in PLACES {
        texts.iter().try_for_each(|text| take(&[before.as_bytes(), text, behind.as_bytes()].concat()))?;
    }
    Ok(())
}
