//! `cargo run --release -p differential -- SEED SIZE [calls|files|rights|sheets|lines]`: compares the verified store with the
//! reference, by calls of the C interface, by files, by rights of parties, by sheets that are read and by lines of the book
//! program, or only by one of them.
//!
//! SIZE is the number of random histories of each, and of trees; 225 meet every s and r. A difference is printed as a short
//! script or text and ends the run with status 1. The library is linked (vekhturop-sys); the program is the one that
//! VEKHTUROP_BOOK names, or target/bin/book of the repository.

use differential::plan;
use differential::process::Process;
use differential::program::LineProgram;
use differential::report;
use differential::session::{Failure, Tally};
use differential::sheet::{self, SheetReader};
use differential::shorten::shorten;
use differential::shrink::shrink;
use differential::subject::Subject;
use differential::writer::LineTally;
use std::fmt::Display;
use std::process::ExitCode;
use std::time::Instant;

/// What may be compared alone.
const PARTS: [&str; 5] = ["calls", "files", "rights", "sheets", "lines"];

struct Run {
    seed: u64,
    size: usize,
    part: Option<String>,
}

impl Run {
    fn of_arguments() -> Option<Run> {
        let all: Vec<String> = std::env::args().skip(1).collect();
        let (seed, size, part) = match &all[..] {
            [seed, size] => (seed, size, None),
            [seed, size, part] if PARTS.contains(&part.as_str()) => (seed, size, Some(part.clone())),
            _ => return None,
        };
        Some(Run { seed: seed.parse().ok()?, size: size.parse().ok()?, part })
    }

    fn has(&self, part: &str) -> bool {
        self.part.as_ref().is_none_or(|it| it == part)
    }

    /// For a report.
    fn name(&self) -> String {
        format!("seed-{}-size-{}", self.seed, self.size)
    }
}

/// Says what was alike, and how often which reply came.
fn alike(what: &str, since: Instant, tally: impl Iterator<Item = (&'static str, String, u64)>) {
    let rows: Vec<_> = tally.collect();
    let all: u64 = rows.iter().map(|(.., count)| count).sum();
    println!("{all} {what} alike in {} seconds", since.elapsed().as_secs());
    for (name, reply, count) in rows {
        println!("{name:>11} {reply:>5} {count:>9}");
    }
}

/// A store that also reads sheets.
trait Verified: Subject + SheetReader {}

impl<T: Subject + SheetReader> Verified for T {}

/// What is set beside the reference. Built without the library there is nothing to compare, and the run must not pass.
fn verified() -> Result<Box<dyn Verified>, &'static str> {
    #[cfg(feature = "library")]
    return Ok(Box::new(differential::cstore::CStore));
    #[cfg(not(feature = "library"))]
    return Err("the verified store is not linked: build with the feature `library`, which is on by default");
}

fn replies(tally: Tally) -> impl Iterator<Item = (&'static str, String, u64)> {
    tally.into_iter().map(|((name, refusal), count)| (name, refusal.to_string(), count))
}

/// A plan of calls of the C interface.
type Calls = fn(&dyn Subject, &mut Tally, u64, usize) -> Result<(), Failure>;

fn by_calls(what: &str, plan: Calls, subject: &dyn Subject, run: &Run) -> Result<(), String> {
    let since = Instant::now();
    let mut tally = Tally::new();
    if let Err(failure) = plan(subject, &mut tally, run.seed, run.size) {
        let (case, what) = shrink(subject, failure.case, failure.what);
        return Err(report::of_calls(&case, &what, &run.name()));
    }
    alike(what, since, replies(tally));
    Ok(())
}

fn by_lines(program: &dyn LineProgram, run: &Run) -> Result<(), String> {
    let since = Instant::now();
    let mut tally = LineTally::new();
    if let Err(found) = plan::lines(program, &mut tally, run.seed, run.size) {
        return Err(report::of_lines(&shorten(program, found), &run.name()));
    }
    alike("lines", since, tally.into_iter().map(|((name, reply), count)| (name, reply, count)));
    Ok(())
}

fn by_sheets(reader: &dyn SheetReader, run: &Run) -> Result<(), String> {
    let since = Instant::now();
    let mut tally = Tally::new();
    if let Err(found) = plan::sheets(reader, &mut tally, run.seed, run.size) {
        return Err(report::of_sheet(&sheet::shorten(reader, found), &run.name()));
    }
    alike("texts", since, replies(tally));
    Ok(())
}

/// All that the run has, up to the first difference.
fn compare(verified: &dyn Verified, program: Option<&dyn LineProgram>, run: &Run) -> Result<(), String> {
    if run.has("calls") {
        by_calls("calls", plan::calls, verified, run)?;
    }
    if run.has("files") {
        by_calls("calls about files", plan::files, verified, run)?;
    }
    if run.has("rights") {
        by_calls("calls about rights", plan::rights, verified, run)?;
    }
    if run.has("sheets") {
        by_sheets(verified, run)?;
    }
    program.map_or(Ok(()), |program| by_lines(program, run))
}

fn stop(status: u8, what: impl Display) -> ExitCode {
    eprintln!("{what}");
    ExitCode::from(status)
}

fn main() -> ExitCode {
    let Some(run) = Run::of_arguments() else {
        return stop(2, format!("usage: differential SEED SIZE [{}]", PARTS.join("|")));
    };
    let verified = match verified() {
        Ok(verified) => verified,
        Err(missing) => return stop(2, missing),
    };
    let program = match run.has("lines").then(Process::of_environment).transpose() {
        Ok(program) => program,
        Err(missing) => return stop(2, missing),
    };
    match compare(&*verified, program.as_ref().map(|it| it as &dyn LineProgram), &run) {
        Ok(()) => ExitCode::SUCCESS,
        Err(failure) => {
            println!("{failure}");
            ExitCode::FAILURE
        }
    }
}
