//! Makes a script on which the book program differs short: written whole, fewer lines, small trees, shorter lines.

use crate::edit::{split, up_to, with_load, without};
use crate::kinds::TEXT;
use crate::pieces::Pieces;
use crate::program::{Difference, LineProgram, compare, due};
use crate::shrink::SMALL;
use std::time::{Duration, Instant};

/// Replays of one shortening, and the time for them.
const PATIENCE: usize = 2_000;
const TIME: Duration = Duration::from_secs(60);

/// A script on which the program differs, and how it is written.
#[derive(Clone, Debug)]
pub struct Found {
    pub script: Vec<u8>,
    pub pieces: Pieces,
    pub what: Difference,
}

struct Shortener<'a> {
    program: &'a dyn LineProgram,
    best: Found,
    replays: usize,
    until: Instant,
}

impl Shortener<'_> {
    fn spent(&self) -> bool {
        self.replays >= PATIENCE || Instant::now() > self.until
    }

    /// Takes the script over if it differs too, without what comes after the difference if that is not needed.
    fn try_script(&mut self, script: Vec<u8>, pieces: Pieces) -> bool {
        let differs = self.try_whole(script, pieces);
        if differs {
            self.try_whole(self.up_to_difference(), pieces);
        }
        differs
    }

    fn try_whole(&mut self, script: Vec<u8>, pieces: Pieces) -> bool {
        if self.spent() || (&script, pieces) == (&self.best.script, self.best.pieces) {
            return false;
        }
        self.replays += 1;
        match compare(self.program, &script, &due(&script), &pieces) {
            Some(what) => {
                self.best = Found { script, pieces, what };
                true
            }
            None => false,
        }
    }

    /// The script without what comes after the difference.
    fn up_to_difference(&self) -> Vec<u8> {
        match self.best.what {
            Difference::Line { line, .. } => up_to(&self.best.script, line),
            Difference::Ended(_) => self.best.script.clone(),
        }
    }

    fn try_lines(&mut self, lines: &[Vec<u8>]) -> bool {
        self.try_script(lines.concat(), self.best.pieces)
    }

    /// Takes over the first of the scripts that differs; one that is already taken is as good as it gets.
    fn prefer(&mut self, scripts: impl IntoIterator<Item = Vec<Vec<u8>>>) {
        for lines in scripts {
            if lines.concat() == self.best.script || self.try_lines(&lines) {
                return;
            }
        }
    }

    /// Small trees in all loads: they split soon, so most faults of the store then show after a few lines.
    fn smaller_trees(&mut self) {
        let lines = split(&self.best.script);
        self.prefer(SMALL.map(|(s, r)| {
            let all = 0..lines.len();
            all.fold(lines.clone(), |lines, index| with_load(lines, index, |_, _, book, kinds| (s, r, book, kinds)))
        }));
    }

    /// Leaves out lines, in runs that get shorter, with and without telling the lines after them.
    fn fewer_lines(&mut self) {
        let mut run = split(&self.best.script).len().div_ceil(2);
        while run > 0 {
            let mut end = split(&self.best.script).len();
            while end > 0 {
                let mut lines = split(&self.best.script);
                end = end.min(lines.len());
                let from = end.saturating_sub(run);
                if !self.spent() && !self.try_lines(&without(&lines, from, end)) {
                    lines.drain(from..end);
                    self.try_lines(&lines);
                }
                end = from;
            }
            run /= 2;
        }
    }

    /// Small s and r, the book number of the papers, and texts for all kinds, load by load.
    fn plainer_loads(&mut self) {
        for index in 0..split(&self.best.script).len() {
            let lines = split(&self.best.script);
            self.prefer(SMALL.map(|(s, r)| with_load(lines.clone(), index, |_, _, book, kinds| (s, r, book, kinds))));
            let lines = split(&self.best.script);
            self.prefer([with_load(lines, index, |s, r, _, kinds| (s, r, 7, kinds))]);
            let lines = split(&self.best.script);
            self.prefer([with_load(lines, index, |s, r, book, kinds| (s, r, book, vec![TEXT; kinds.len()]))]);
        }
    }

    /// Leaves out bytes of the lines, in runs that get shorter; of long lines no short runs.
    fn shorter_lines(&mut self) {
        for index in 0..split(&self.best.script).len() {
            let whole = split(&self.best.script).get(index).map_or(0, Vec::len);
            let mut run = whole / 2;
            while run > whole / 64 {
                let mut at = 0;
                while let Some(line) = split(&self.best.script).get(index).filter(|line| at + run < line.len()) {
                    let mut lines = split(&self.best.script);
                    lines[index] = [&line[..at], &line[at + run..]].concat();
                    if self.spent() {
                        return;
                    }
                    if !self.try_lines(&lines) {
                        at += run;
                    }
                }
                run /= 2;
            }
        }
    }
}

/// A short script on which the program differs too.
pub fn shorten(program: &dyn LineProgram, found: Found) -> Found {
    let mut it = Shortener { program, best: found, replays: 0, until: Instant::now() + TIME };
    if !it.try_script(it.best.script.clone(), Pieces::WHOLE) {
        it.try_script(it.up_to_difference(), it.best.pieces);
    }
    loop {
        let before = it.best.script.clone();
        it.smaller_trees();
        it.fewer_lines();
        it.plainer_loads();
        it.shorter_lines();
        // What one pass made plainer, another may now make shorter.
        if it.best.script == before || it.spent() {
            return it.best;
        }
    }
}
