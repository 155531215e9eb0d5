//! `cargo run --release -p bench`: prints all figures. With `-- --write FOLDER` it also writes the tables into
//! FOLDER/PERFORMANCE.md and draws FOLDER/moved.svg, FOLDER/label-bits.svg and FOLDER/split.svg.

use bench::books::{SHEETS, Sheet};
use bench::calls::{Bench, Case, SHAPES, SIZES, Times};
use bench::report::{Section, calls, files, filled, targets};
use bench::table::thousands;
use bench::{bits, branches, insert_sheets, moved, others, picture, plot, rights, small, store, xml};
use std::path::{Path, PathBuf};
use std::process::ExitCode;

/// Every round visits all cases, so that a spell in which the machine is busy falls on none of them alone.
const ROUNDS: usize = 25;

/// Repetitions of a case within a round.
fn repetitions(n: usize) -> usize {
    match n {
        0..=2_000 => 40,
        2_001..=20_000 => 20,
        _ => 4,
    }
}

/// All cases that fit, and a sentence on those that do not.
fn times() -> (Vec<Times>, String) {
    let (mut all, mut left_out) = (Vec::new(), Vec::new());
    for n in SIZES {
        for (shuffled, (sheet, _)) in [false, true].into_iter().flat_map(|it| SHEETS.map(|sheet| (it, sheet))) {
            for (s, r) in SHAPES {
                match Bench::new(Case { n, s, r, sheet, shuffled }) {
                    Some(bench) => all.push((n, bench)),
                    None if shuffled || sheet != Sheet::Random => {}
                    None => left_out.push(format!("{} tags with ({s}, {r})", thousands(n))),
                }
            }
        }
    }
    for round in 1..=ROUNDS {
        eprintln!("round {round} of {ROUNDS}");
        for (n, bench) in &mut all {
            (0..repetitions(*n)).for_each(|_| bench.repeat());
        }
    }
    let note = match left_out.join("; ") {
        none if none.is_empty() => none,
        some => format!("Left out, because load refuses with 7: {some}."),
    };
    (all.into_iter().map(|(_, bench)| bench.times()).collect(), note)
}

fn write(folder: &Path, sections: &[Section], plots: &[(&str, String)]) -> Result<(), String> {
    let put = |path: &Path, text: &str| std::fs::write(path, text).map_err(|it| format!("{}: {it}", path.display()));
    let document = folder.join("PERFORMANCE.md");
    let old = std::fs::read_to_string(&document).map_err(|it| format!("{}: {it}", document.display()))?;
    put(&document, &filled(&old, sections)?)?;
    plots.iter().try_for_each(|(name, text)| put(&folder.join(name), text))
}

fn main() -> ExitCode {
    let arguments: Vec<String> = std::env::args().skip(1).collect();
    let folder = match arguments.as_slice() {
        [] => None,
        [option, folder] if option == "--write" => Some(PathBuf::from(folder)),
        _ => {
            eprintln!("usage: bench [--write FOLDER]");
            return ExitCode::from(2);
        }
    };
    if folder.is_some() && !store::LINKED {
        eprintln!("the verified store is not linked: its figures cannot be written");
        return ExitCode::from(2);
    }
    let (times, note) = times();
    eprintln!("inserting sheets");
    let whole = insert_sheets::times(201);
    eprintln!("acting for parties");
    let parties = rights::times(201);
    eprintln!("holding on small books");
    let small = small::times(1_001);
    eprintln!("reading sheets");
    let speeds = xml::speeds(xml::SIZE, 201);
    eprintln!("counting moved tags");
    let (moved, bits) = (moved::all(), bits::all());
    let mut reached = targets(&times, &whole, &parties, &speeds);
    if !store::LINKED {
        reached.insert_str(0, "The verified store is not linked: the plain version stands in for it.\n\n");
    }
    let sections = [
        Section { name: "targets", title: "Targets", body: reached },
        Section {
            name: "bare",
            title: "Verified call / bare walk",
            body: format!("{}\n{note}\n", calls(&times, |it, i| it.verified[i] / it.bare)),
        },
        Section {
            name: "plain",
            title: "Verified call / plain call",
            body: calls(&times, |it, i| it.verified[i] / it.plain[i]),
        },
        Section {
            name: "plain-bare",
            title: "Plain call / bare walk",
            body: calls(&times, |it, i| it.plain[i] / it.bare),
        },
        Section { name: "inserted-sheets", title: "Whole sheets by one call", body: insert_sheets::table(&whole) },
        Section { name: "rights", title: "Calls of parties", body: rights::table(&parties) },
        Section { name: "files", title: "Files", body: files(&times) },
        Section { name: "small", title: "Small books", body: small::tables(&small) },
        Section { name: "sheets", title: "Sheets", body: xml::table(&speeds) },
        Section { name: "branches", title: "A branch on the kind", body: branches::table(&branches::ratios(1_000)) },
        Section { name: "moved", title: "Moved tags per insertion", body: moved::tables(&moved) },
        Section { name: "bits", title: "Label bits: largest label / all below (f − 1)^H", body: bits::tables(&bits) },
        Section { name: "others", title: "What else could be chosen", body: others::table(&others::all()) },
        Section { name: "room", title: "Most tags with labels of 32 bits", body: bits::room_table() },
    ];
    for section in &sections {
        println!("## {}\n\n{}", section.title, section.body);
    }
    let plots = [
        ("split.svg", picture::printed()),
        ("moved.svg", plot::svg(&moved::plot(&moved))),
        ("label-bits.svg", plot::svg(&bits::plot(&bits))),
    ];
    match folder.map_or(Ok(()), |folder| write(&folder, &sections, &plots)) {
        Ok(()) => ExitCode::SUCCESS,
        Err(what) => {
            eprintln!("{what}");
            ExitCode::FAILURE
        }
    }
}
