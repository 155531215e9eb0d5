//! The figures as tables, and their places in docs/PERFORMANCE.md.

use crate::books::{SHEETS, Sheet};
use crate::calls::{CALLS, Call, Times};
use crate::insert_sheets::{self, Whole};
use crate::rights::{self, Rights};
use crate::table::{table, thousands};
use crate::xml::{self, Speed};

/// The most that a verified reading of a sheet, or a reading or writing of a file, may take in plain ones.
const MOST: f64 = 1.3;

/// The most that a verified insertion of a sheet may take in plain ones, and one of a text or an element, by a party too, in
/// walks.
const MOST_INSERTED: f64 = 1.2;

/// A generated piece of the document, which stands there between `<!-- bench:NAME -->` and `<!-- end -->`.
pub struct Section {
    pub name: &'static str,
    pub title: &'static str,
    pub body: String,
}

/// One row a case, with these figures of it; a dash where it has none.
fn cases<const N: usize>(all: &[Times], names: [&str; N], figures: impl Fn(&Times) -> [Option<f64>; N]) -> String {
    let shown = |figure: Option<f64>| figure.map_or("–".into(), |it| format!("{it:.2}"));
    let row = |times: &Times| {
        let case = times.case;
        let order = if case.shuffled { "shuffled" } else { "in order" };
        let of = [thousands(case.n), name(case.sheet).into(), order.into(), format!("{}, {}", case.s, case.r)];
        of.into_iter().chain(figures(times).map(shown)).collect()
    };
    let head: Vec<String> = ["tags", "kinds", "in memory", "s, r"].into_iter().chain(names).map(String::from).collect();
    table(4, &head, &all.iter().map(row).collect::<Vec<_>>())
}

/// Document 01's calls, as their tables show them.
const COLUMNS: [(Call, &str); 7] = [
    (Call::Hold, "walk (hold)"),
    (Call::Text, "text"),
    (Call::Element, "element"),
    (Call::Mark, "mark"),
    (Call::Question, "question"),
    (Call::List, "list"),
    (Call::Load, "load"),
];

/// One column a call: what `figure` makes of the case and the call's place in CALLS.
pub fn calls(all: &[Times], figure: impl Fn(&Times, usize) -> f64) -> String {
    cases(all, COLUMNS.map(|(_, name)| name), |times| {
        // A load puts tags in order, whatever the words held before.
        COLUMNS.map(|(call, _)| (call != Call::Load || !times.case.shuffled).then(|| figure(times, place(call))))
    })
}

/// Files beside the walk and beside plain ones.
pub fn files(all: &[Times]) -> String {
    let names = ["write / walk", "read / walk", "write, verified / plain", "read, verified / plain"];
    cases(all, names, |it| {
        [over_walk(it, Call::Write), over_walk(it, Call::Read), over_plain(it, Call::Write), over_plain(it, Call::Read)]
            .map(Some)
    })
}

/// A verified call in walks.
fn over_walk(times: &Times, call: Call) -> f64 {
    times.verified[place(call)] / times.verified[place(Call::Hold)]
}

/// A verified call in plain ones.
fn over_plain(times: &Times, call: Call) -> f64 {
    times.verified[place(call)] / times.plain[place(call)]
}

fn name(sheet: Sheet) -> &'static str {
    SHEETS.iter().find(|(it, _)| *it == sheet).expect("SHEETS has every sheet").1
}

fn place(call: Call) -> usize {
    CALLS.iter().position(|&it| it == call).expect("CALLS has every call")
}

/// What is to be reached, beside what this run gives.
pub fn targets(all: &[Times], whole: &[Whole], parties: &[Rights], speeds: &[Speed]) -> String {
    let mut rows = Vec::new();
    let mut row = |what: String, figure: f64, most: f64| {
        // As precise as it is shown.
        let figure = (figure * 100.0).round() / 100.0;
        let met = if figure <= most { "met" } else { "not met" };
        rows.push(vec![what, format!("{figure:.2}"), format!("{most:.1}"), met.to_string()]);
    };
    let walk = place(Call::Hold);
    let kinds = |it: &Times| format!("{} kinds, ({}, {})", name(it.case.sheet), it.case.s, it.case.r);
    let just_loaded = || all.iter().filter(|it| it.case.n == 20_000 && !it.case.shuffled);
    for it in just_loaded() {
        let most = if (it.case.s, it.case.r) == (2, 2) { 3.5 } else { 3.0 };
        let what = format!("20,000 tags just loaded, {}: walk / bare walk", kinds(it));
        row(what, it.verified[walk] / it.bare, most);
    }
    for (call, name) in [(Call::Text, "text"), (Call::Element, "element")] {
        for it in just_loaded() {
            let what = format!("20,000 tags just loaded, {}: insert {name} / walk", kinds(it));
            row(what, over_walk(it, call), MOST_INSERTED);
        }
    }
    for it in whole {
        let (tags, book) = (thousands(it.tags), thousands(insert_sheets::TAGS));
        let what = format!("sheet of {tags} tags into {book}, ({}, {}): verified / plain", it.s, it.r);
        row(what, it.verified / it.plain, MOST_INSERTED);
    }
    for it in parties.iter().filter(|it| it.grants == 1) {
        let what = format!("a party's insertion into {}, ({}, {}), one grant", thousands(rights::TAGS), it.s, it.r);
        row(format!("{what}: insertion / walk"), it.insert / it.walk, MOST_INSERTED);
    }
    for (call, name, most) in [(Call::Write, "write", 2.0), (Call::Read, "read", 3.0)] {
        for it in just_loaded() {
            let of = |what| format!("20,000 tags just loaded, {}: {name} file{what}", kinds(it));
            row(of(" / walk"), over_walk(it, call), most);
            row(of(", verified / plain"), over_plain(it, call), MOST);
        }
    }
    for it in all.iter().filter(|it| it.case.n > 20_000 && it.case.shuffled) {
        let what = format!("{} tags shuffled, {}: walk / bare walk", thousands(it.case.n), kinds(it));
        row(what, it.verified[walk] / it.bare, 1.5);
    }
    for it in speeds.iter().filter(|it| it.judged) {
        row(format!("sheet of {}: verified / plain", it.name), it.ratio(), MOST);
    }
    for (what, ratio, most) in xml::held_up(speeds) {
        row(what, ratio, most);
    }
    table(1, &["ratio", "this run", "at most", ""].map(String::from), &rows)
}

/// The document with each section's piece replaced; an error names a section that has no place in it.
pub fn filled(document: &str, sections: &[Section]) -> Result<String, String> {
    let mut document = document.to_string();
    for section in sections {
        let open = format!("<!-- bench:{} -->\n", section.name);
        let missing = || format!("no place for {}", section.name);
        let start = document.find(&open).ok_or_else(missing)? + open.len();
        let length = document[start..].find("<!-- end -->").ok_or_else(missing)?;
        document.replace_range(start..start + length, &format!("\n{}\n\n", section.body.trim_end()));
    }
    Ok(document)
}
