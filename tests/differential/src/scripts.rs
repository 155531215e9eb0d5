//! Scripts for the book program: histories with refused calls and near misses among them, and lines of all lengths.

use crate::kinds::{self, TEXT};
use crate::near;
use crate::writer::{LineTally, Script, Writer};
use draw::Rng;
use reference::LONGEST_LINE;

/// Where the insertions of a history go.
#[derive(Clone, Copy)]
enum Pattern {
    Front,
    One(usize),
    Anywhere,
    /// Front and end of the book in turn.
    Ends,
    /// After the tag inserted last.
    Onward,
}

fn pattern(rng: &mut Rng, n: usize) -> Pattern {
    match rng.below(5) {
        0 => Pattern::Front,
        1 => Pattern::One(rng.below(n)),
        2 => Pattern::Ends,
        3 => Pattern::Onward,
        _ => Pattern::Anywhere,
    }
}

fn place(writer: &Writer, rng: &mut Rng, pattern: Pattern) -> String {
    let n = writer.n();
    match pattern {
        Pattern::Ends if rng.percent(50) => writer.last(),
        Pattern::Front | Pattern::Ends => rng.pick(&["front", "front", "front", "4294967295"]).into(),
        Pattern::One(tag) => tag.to_string(),
        Pattern::Anywhere => rng.below(n).to_string(),
        Pattern::Onward => n.checked_sub(1).map_or("front".into(), |tag| tag.to_string()),
    }
}

/// A tag that is often there, sometimes just past the last, sometimes far out.
fn odd_place(rng: &mut Rng, n: usize) -> String {
    let (any, far) = (rng.below(n), rng.word() as usize);
    let tag = rng.pick(&[any, any, any, n, n + 1, far, u32::MAX as usize - 1]);
    if rng.percent(15) { "front".into() } else { tag.to_string() }
}

/// One line that is neither the pattern's insertion nor a listing of the whole.
fn other(writer: &mut Writer, rng: &mut Rng, s: u32, r: u32) {
    let n = writer.n();
    let y = odd_place(rng, n);
    match rng.below(10) {
        0..=2 => drop(writer.say(format!("mark {y}"))),
        3 => drop(writer.say(format!("{} {y}", rng.pick(&["element", "text"])))),
        4 => {
            let line = format!("{} {y}", rng.pick(&["element", "text", "mark"]));
            writer.say(near::spoiled(rng, line.as_bytes()));
        }
        5 => {
            let form = rng.pick(&near::FORMS);
            writer.say(near::spoiled(rng, form.as_bytes()));
        }
        6 => {
            let kinds = kinds::spoiled(rng, n.min(40));
            writer.load(rng, s, r, &kinds);
        }
        7 => {
            let (s, r) = rng.pick(&[(1, r), (17, r), (s, 1), (s, 17), (0, 0), (u32::MAX, r), (s, u32::MAX)]);
            writer.load(rng, s, r, &[TEXT]);
        }
        8 => {
            let len = LONGEST_LINE - 2 + rng.below(5);
            writer.say(near::of_length(rng, len));
        }
        _ => drop(writer.say("")),
    }
}

/// So many lines from a load on. `more` is how many of a hundred are other lines than insertions.
fn history(writer: &mut Writer, rng: &mut Rng, s: u32, r: u32, steps: usize, more: u64) {
    let mut pattern_now = pattern(rng, writer.n());
    let elements = rng.pick(&[0, 10, 50, 100]);
    let marks = rng.pick(&[0, 0, 10, 30]);
    let mut full = 0;
    for _ in 0..steps {
        if rng.percent(more) {
            other(writer, rng, s, r);
        }
        if rng.percent(marks) {
            writer.say(format!("mark {}", rng.below(writer.n())));
        }
        // A listing is long where the book is.
        if rng.below(20 + writer.n() / 2) == 0 {
            writer.say("list");
        }
        let y = place(writer, rng, pattern_now);
        let reply = writer.say(format!("{} {y}", if rng.percent(elements) { "element" } else { "text" }));
        full = if reply == "no 6\n" || reply == "no 7\n" { full + 1 } else { 0 };
        if full == 4 {
            break;
        }
        // A marked place, or one of a book that has been loaded over, would be refused from now on.
        if reply.starts_with("no") || rng.below(300) == 0 {
            pattern_now = pattern(rng, writer.n());
        }
    }
    writer.say("list");
}

/// Commands that are accepted and refused, and near misses, from a fresh program on.
pub fn mixed(rng: &mut Rng, tally: &mut LineTally, s: u32, r: u32) -> Script {
    let mut writer = Writer::new(tally);
    if rng.percent(30) {
        other(&mut writer, rng, s, r);
        writer.say("list");
    }
    for _ in 0..rng.between(1, 3) {
        let most = rng.pick(&[10, 40, 300, 2_000]);
        let n = kinds::size(rng, s, r, most);
        let kinds = kinds::nested(rng, n);
        writer.load(rng, s, r, &kinds);
        let steps = rng.pick(&[10, 40, 100]);
        let more = rng.pick(&[5, 20, 60]);
        history(&mut writer, rng, s, r, steps, more);
    }
    if rng.percent(50) { writer.without_last_feed() } else { writer.script() }
}

/// A long history, up to a full store where the labels last.
pub fn long(rng: &mut Rng, tally: &mut LineTally, s: u32, r: u32) -> Script {
    let mut writer = Writer::new(tally);
    let n = rng.below(30);
    let kinds = kinds::nested(rng, n);
    writer.load(rng, s, r, &kinds);
    history(&mut writer, rng, s, r, 2_100, 1);
    writer.script()
}

/// Document 01's run from specimen K: with s = 16 and r = 2 texts go in one by one until 1,023 tags stand.
pub fn run_from_k(rng: &mut Rng, tally: &mut LineTally) -> Script {
    let mut writer = Writer::new(tally);
    writer.load(rng, 16, 2, &[TEXT; 128]);
    writer.load(rng, 16, 2, &[TEXT; 127]);
    for n in 127..1_026 {
        if n >= 1_022 {
            writer.say(format!("element {}", rng.below(127)));
        }
        writer.say(format!("text {}", rng.below(127)));
    }
    writer.say("list");
    writer.script()
}

/// Loads of about as many kinds as the store takes, with insertions after them.
pub fn full(rng: &mut Rng, tally: &mut LineTally) -> Script {
    let mut writer = Writer::new(tally);
    for n in [1_998, 1_999, 2_000, 2_001, 2_078, 2_089] {
        let (s, r) = (rng.between(2, 4) as u32, rng.between(2, 16) as u32);
        let kinds = kinds::nested(rng, n);
        writer.load(rng, s, r, &kinds);
        for line in ["element front", "text 1997", "text 1998", "text 1", "element 2", "list"] {
            writer.say(line);
        }
    }
    writer.script()
}

/// Lines about as long as a line may be, about as long as a reader's block may be, and of a megabyte.
pub fn lengths(rng: &mut Rng, tally: &mut LineTally) -> Script {
    let mut writer = Writer::new(tally);
    let greatest = 1_000_000 + rng.below(100_000);
    let mut lens: Vec<usize> = (LONGEST_LINE - 2..=LONGEST_LINE + 3).cycle().take(40).collect();
    for block in [4_096, 8_192, 65_536] {
        lens.extend(block - 2..=block + 2);
    }
    lens.push(greatest);
    rng.shuffle(&mut lens);
    writer.say("load 2 2 7 BTE");
    for len in lens {
        writer.say(near::of_length(rng, len));
        writer.say(rng.pick(&near::FORMS));
        if rng.percent(20) {
            writer.say(near::long_then_line(rng));
            writer.say("list");
        }
    }
    // Half of the inputs end in the middle of a line.
    if rng.percent(50) {
        let len = rng.pick(&[LONGEST_LINE, LONGEST_LINE + 1, greatest]);
        writer.say(near::of_length(rng, len));
        return writer.without_last_feed();
    }
    writer.script()
}

/// Given lines on a small book that is loaded afresh now and then.
fn on_a_small_book(tally: &mut LineTally, misses: &[Vec<u8>]) -> Script {
    let mut writer = Writer::new(tally);
    for some in misses.chunks(25) {
        writer.say("load 2 2 7 BTE");
        for line in some {
            writer.say(line);
        }
        writer.say("list");
    }
    writer.script()
}

/// Every form but the loads on the words of a fresh program, and after a load that is refused.
pub fn fresh(tally: &mut LineTally) -> Script {
    let mut writer = Writer::new(tally);
    for load in ["", "load 17 2 7 T", "load 2 2 7 EB"] {
        writer.say(load);
        for line in near::FORMS.iter().filter(|form| !form.starts_with("load")) {
            writer.say(line);
        }
    }
    writer.script()
}

/// The near misses that need no chance: every byte at every place of every form, and a table.
pub fn misses(tally: &mut LineTally) -> Vec<Script> {
    let lines = [near::table(), near::bytes_everywhere()].concat();
    lines.chunks(8_000).map(|some| on_a_small_book(tally, some)).collect()
}

/// A short script that ends after each of its bytes.
pub fn endings(tally: &mut LineTally) -> Vec<Script> {
    let whole = "load 2 2 7 BBEBEE\ntext 2\nelement front\n\nmark 0\nlist\n";
    (0..=whole.len())
        .map(|end| {
            let mut writer = Writer::new(tally);
            let (said, rest) = whole[..end].rsplit_once('\n').unwrap_or(("", &whole[..end]));
            if end > rest.len() {
                writer.say(said);
            }
            if rest.is_empty() {
                return writer.script();
            }
            writer.say(rest);
            writer.without_last_feed()
        })
        .collect()
}
