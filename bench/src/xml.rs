//! Sheets, timed: the verified reader and the plain one, in turn on the same text.

use crate::calls::{median, timed};
use crate::plain::Plain;
use crate::store::{Reader, Verified};
use crate::table::{table as markdown, thousands};
use draw::Rng;
use std::hint::black_box;
use std::time::Duration;

/// The bytes of a sheet, but for the one tag of 1,000 attributes.
pub const SIZE: usize = 1_000_000;

/// Attributes of that tag.
const MANY: usize = 1_000;

/// The most times that a sheet which takes long is read.
const FEW_TIMES: usize = 5;

pub struct Sheet {
    pub name: &'static str,
    pub text: Vec<u8>,
    /// Whether its ratio to the plain reader is judged, or only told.
    pub judged: bool,
    /// Whether it is one tag of very many attributes, which takes long.
    pub slow: bool,
}

/// What was found of a sheet: medians in seconds, and how many kinds it has.
pub struct Speed {
    pub name: &'static str,
    pub judged: bool,
    pub bytes: usize,
    pub kinds: usize,
    pub verified: f64,
    pub plain: f64,
}

impl Speed {
    pub fn ratio(&self) -> f64 {
        self.verified / self.plain
    }
}

const WORDS: [&str; 12] =
    ["reduction", "of", "the", "strip", "at", "stand", "rolling", "force", "kept", "below", "limit", "tension"];

const NAMES: [&str; 8] = ["gap", "force", "speed", "tension", "thickness", "width", "temperature", "bend"];

/// Elements one behind the other, as `element` writes them, up to the size.
fn filled(mut element: impl FnMut(&mut String)) -> Vec<u8> {
    let mut text = String::with_capacity(SIZE + 10_000);
    while text.len() < SIZE {
        element(&mut text);
    }
    text.into_bytes()
}

/// Notes of some hundred bytes, with a reference now and then, a comment and a CDATA section at times.
fn texts(rng: &mut Rng) -> Vec<u8> {
    filled(|text| {
        text.push_str("<note>");
        for _ in 0..rng.between(40, 160) {
            text.push_str(rng.pick(&WORDS));
            text.push_str(match rng.below(60) {
                0 => " &lt; ",
                1 => ".\n",
                2 => "<![CDATA[ a[i] > 0 ]]>",
                3 => "<!-- mm -->",
                _ => " ",
            });
        }
        text.push_str("</note>\n");
    })
}

/// Passes of settings: hardly any text, and a tag every few bytes.
fn tags(rng: &mut Rng) -> Vec<u8> {
    filled(|text| {
        text.push_str("<pass>");
        for _ in 0..rng.between(2, 9) {
            let name = rng.pick(&NAMES);
            match rng.below(4) {
                0 => text.push_str(&format!("<{name}/>")),
                1 => text.push_str(&format!("<{name}></{name}>")),
                _ => text.push_str(&format!("<{name}>{}</{name}>", rng.below(1_000))),
            }
        }
        text.push_str("</pass>");
    })
}

/// One attribute with a space before it.
fn attribute(name: &str, rng: &mut Rng) -> String {
    let quote = rng.pick(&['"', '\'']);
    format!(" {name}={quote}{}{quote}", rng.below(100_000))
}

/// Empty elements with these attributes each, in changing order.
fn attributes(names: &[String], rng: &mut Rng) -> Vec<u8> {
    filled(|text| {
        let mut names = names.to_vec();
        rng.shuffle(&mut names);
        text.push_str("<pass");
        names.iter().for_each(|name| text.push_str(&attribute(name, rng)));
        text.push_str("/>\n");
    })
}

/// So many names, by their numbers.
fn numbered(count: usize, name: impl Fn(usize) -> String) -> Vec<String> {
    (0..count).map(name).collect()
}

/// One empty element of these attributes, up to a size.
fn one_tag(size: usize, front: &str, name: impl Fn(usize) -> String) -> Vec<u8> {
    let mut text = format!("<pass{front}");
    for i in 0.. {
        if text.len() >= size {
            break;
        }
        text.push_str(&format!(" {}=''", name(i)));
    }
    text.push_str("/>");
    text.into_bytes()
}

/// The numbers below 2^20, in an order that looks like none.
fn mixed(i: usize) -> usize {
    i * 40_503 % (1 << 20)
}

/// Names of one hash, however it weighs bytes by powers of 31: `Aa` and `BB` are alike to it.
fn of_one_hash(i: usize) -> String {
    (0..17).rev().map(|bit| if mixed(i) >> bit & 1 == 1 { "BB" } else { "Aa" }).collect()
}

/// One tag of very many attributes, of so many bytes (and in one case of four times as many): what could hold a reader up.
pub fn one_tags(size: usize) -> Vec<Sheet> {
    let long = format!(" long='{}'", "x".repeat(size / 2));
    let short = |i| format!("k{:x}", mixed(i));
    let tags: [(&str, Vec<u8>); 5] = [
        (SHORT_NAMES, one_tag(size, "", short)),
        (FOUR_TIMES, one_tag(4 * size, "", short)),
        (ALIKE_AT_ENDS, one_tag(size, "", |i| format!("p{:07}m", mixed(i)))),
        (ONE_HASH, one_tag(size, "", of_one_hash)),
        (LONG_VALUE, one_tag(size, &long, |i| format!("a{i}"))),
    ];
    tags.into_iter().map(|(name, text)| Sheet { name, text, judged: false, slow: true }).collect()
}

const MANY_TAGS: &str = "many tags";
const EIGHT: &str = "eight attributes a tag";
const EIGHT_NUMBERED: &str = "eight numbered attributes a tag";
const FORTY: &str = "forty numbered attributes a tag";
const TWO_HUNDRED: &str = "two hundred numbered attributes a tag";
const SHORT_NAMES: &str = "one tag of short names";
const FOUR_TIMES: &str = "one tag of short names, four times as long";
const ALIKE_AT_ENDS: &str = "one tag of names alike at both ends";
const ONE_HASH: &str = "one tag of names of one hash";
const LONG_VALUE: &str = "one tag of a long value and names after it";

/// The sheets that are read.
pub fn sheets() -> Vec<Sheet> {
    let rng = &mut Rng::new(2);
    let many: String = (0..MANY).map(|i| attribute(&format!("n{i}"), rng)).collect();
    let eight = NAMES.map(String::from);
    let sheet = |name, text, judged| Sheet { name, text, judged, slow: false };
    vec![
        sheet("much text", texts(rng), true),
        sheet(MANY_TAGS, tags(rng), true),
        sheet(EIGHT, attributes(&eight, rng), true),
        sheet(EIGHT_NUMBERED, attributes(&numbered(8, |i| format!("pass{i}mm")), rng), false),
        sheet(FORTY, attributes(&numbered(40, |i| format!("c{i:02}")), rng), false),
        sheet(TWO_HUNDRED, attributes(&numbered(200, |i| format!("c{i:03}")), rng), false),
        sheet("one tag of 1,000 attributes", format!("<pass{many}/>").into_bytes(), false),
    ]
}

fn read<R: Reader>(text: &[u8], kinds: &mut [u8]) -> Duration {
    let (time, (refusal, _)) = timed(|| R::xml_kinds(black_box(text), black_box(kinds)));
    assert_eq!(refusal, 0, "a sheet is read");
    time
}

/// Times a sheet on both sides, one after the other, each as often in front.
fn speed(sheet: &Sheet, repetitions: usize) -> Speed {
    let text = &sheet.text;
    let (mut mine, mut theirs) = (vec![0; text.len()], vec![0; text.len()]);
    let (mut verified, mut plain) = (vec![], vec![]);
    for i in 0..2 * if sheet.slow { repetitions.min(FEW_TIMES) } else { repetitions } {
        // In pairs, of which every second has the plain reader in front.
        if matches!(i % 4, 0 | 3) {
            verified.push(read::<Verified>(text, &mut mine));
        } else {
            plain.push(read::<Plain>(text, &mut theirs));
        }
    }
    assert!(mine == theirs, "lists are alike");
    let kinds = mine.iter().filter(|&&kind| kind != 0).count();
    let (bytes, verified, plain) = (text.len(), median(verified), median(plain));
    Speed { name: sheet.name, judged: sheet.judged, bytes, kinds, verified, plain }
}

/// Of all sheets, those of one tag of so many bytes.
pub fn speeds(one_tag: usize, repetitions: usize) -> Vec<Speed> {
    sheets().iter().chain(&one_tags(one_tag)).map(|sheet| speed(sheet, repetitions)).collect()
}

/// What no text may hold up: ratios of the verified reader's times, and the most that each may be.
pub fn held_up(speeds: &[Speed]) -> Vec<(String, f64, f64)> {
    let of = |name| speeds.iter().find(|it| it.name == name);
    let beside = |name, other, most| {
        let (it, by) = (of(name)?, of(other)?);
        Some((format!("sheet of {name} / {other}"), it.verified / by.verified, most))
    };
    // Of sheets of whole tags: the time of a tag.
    let by_tag = |name, other, most| {
        let tag = |it: &Speed| it.verified / it.kinds as f64;
        Some((format!("sheet of {name} / {other}, a tag"), tag(of(name)?) / tag(of(other)?), most))
    };
    let at_least = |name, rate: f64| {
        let it = of(name)?;
        Some((format!("{rate} MB/s / sheet of {name}"), rate * 1e6 * it.verified / it.bytes as f64, 1.0))
    };
    [
        beside(SHORT_NAMES, MANY_TAGS, 250.0),
        beside(FOUR_TIMES, SHORT_NAMES, 20.0),
        beside(ALIKE_AT_ENDS, MANY_TAGS, 1_000.0),
        beside(ONE_HASH, MANY_TAGS, 1_000.0),
        beside(LONG_VALUE, MANY_TAGS, 1_000.0),
        by_tag(EIGHT_NUMBERED, EIGHT, 1.3),
        at_least(FORTY, 100.0),
        at_least(TWO_HUNDRED, 50.0),
    ]
    .into_iter()
    .flatten()
    .collect()
}

pub fn table(speeds: &[Speed]) -> String {
    let rate = |it: &Speed, time: f64| match it.bytes as f64 / time / 1e6 {
        slow if slow < 10.0 => format!("{slow:.1}"),
        rate => format!("{rate:.0}"),
    };
    let row = |it: &Speed| {
        let ratio = format!("{:.2}", it.ratio());
        vec![it.name.to_string(), thousands(it.bytes), rate(it, it.verified), rate(it, it.plain), ratio]
    };
    let head = ["sheet", "bytes", "verified, MB/s", "plain, MB/s", "verified / plain"];
    markdown(1, &head.map(String::from), &speeds.iter().map(row).collect::<Vec<_>>())
}
