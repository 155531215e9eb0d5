//! Makes a failing case short: plain words to start from, few grants, small s and r, fewer calls, fewer kinds, single texts,
//! small files.

use crate::call::{Call, Case, Reply};
use crate::case_edit::{forget, held_again, loaded, reference};
use crate::kinds::TEXT;
use crate::session::replay;
use crate::subject::Subject;
use crate::system::System;
use reference::{HEADER, NO_TAG, PROGRAM_TAGS, RECORD, Store, bytes_for};

/// Replays of one shrinking, so that a long case cannot take for ever.
const PATIENCE: usize = 2_000;

/// The kinds of the call, if it is a load or a sheet.
fn kinds_of(case: &mut Case, index: usize) -> Option<&mut Vec<u8>> {
    match case.calls.get_mut(index) {
        Some(Call::Load { kinds, .. } | Call::LoadWithGrants { kinds, .. } | Call::InsertSheet { kinds, .. }) => {
            Some(kinds)
        }
        _ => None,
    }
}

/// The file of a book just loaded.
fn file_of(kinds: &[u8]) -> Vec<u8> {
    let mut store = Store::new(vec![0; HEADER + RECORD * kinds.len()]);
    let mut file = vec![0; bytes_for(kinds.len())];
    let written = store.load(2, 2, 7, kinds).and_then(|_| store.write_file(&mut file));
    written.expect("a small book is loaded and written");
    file
}

/// The smallest trees first.
pub(crate) const SMALL: [(u32, u32); 5] = [(2, 2), (3, 2), (2, 3), (4, 2), (3, 3)];

struct Shrinker<'a> {
    subject: &'a dyn Subject,
    best: Case,
    what: String,
    replays: usize,
}

impl Shrinker<'_> {
    /// Takes the case over if it still fails, or does with pairs that are held again.
    fn try_case(&mut self, case: Case) -> bool {
        let again = || held_again(&case).filter(|again| *again != case);
        self.take(case.clone()) || again().is_some_and(|again| self.take(again))
    }

    /// Takes the case over if it still fails, and cuts off what comes after the failure.
    fn take(&mut self, mut case: Case) -> bool {
        if self.replays >= PATIENCE {
            return false;
        }
        self.replays += 1;
        match replay(self.subject, &case) {
            Some((index, what)) => {
                case.calls.truncate(index + 1);
                self.best = case;
                self.what = what;
                true
            }
            None => false,
        }
    }

    /// Loads with the smallest s and r that still fail. Tag numbers do not depend on s and r, so the calls after the
    /// load still say the same, and small trees split soon: most faults then show after a few calls.
    fn smaller_trees(&mut self) {
        for (small_s, small_r) in SMALL {
            let mut case = self.best.clone();
            for call in &mut case.calls {
                if let Call::Load { s, r, .. } | Call::LoadWithGrants { s, r, .. } = call {
                    (*s, *r) = (small_s, small_r);
                }
            }
            if self.try_case(case) {
                break;
            }
        }
    }

    /// What the reference replies to a call.
    fn reply(&self, index: usize) -> Reply {
        let before = self.best.calls[..index].iter();
        let system = before.fold(self.best.start.clone(), |system, call| reference(call, &system).system);
        reference(&self.best.calls[index], &system).reply
    }

    /// Leaves out one call. Where it was an accepted insertion, the calls after it are told so.
    fn without(&self, index: usize) -> Case {
        let mut case = self.best.clone();
        let (reply, call) = (self.reply(index), case.calls.remove(index));
        if let Some(it) = call.insertion(&reply) {
            forget(&mut case, index, it.first, it.kinds.len() as u32, it.place);
        }
        case
    }

    /// Leaves out single calls as long as that helps.
    fn single_calls(&mut self) {
        let mut index = 0;
        while index < self.best.calls.len() {
            let case = self.without(index);
            if !self.try_case(case) {
                index += 1;
            }
        }
    }

    /// Texts instead of elements, and the first tag or the front instead of other places.
    fn plainer_insertions(&mut self) {
        for index in 0..self.best.calls.len() {
            for (plain, plain_place) in [(TEXT, None), (TEXT, Some(0)), (TEXT, Some(NO_TAG))] {
                let mut case = self.best.clone();
                match case.calls.get_mut(index) {
                    Some(Call::Insert { kind, place }) => (*kind, *place) = (plain, plain_place.unwrap_or(*place)),
                    Some(Call::InsertSheet { place, .. }) => *place = plain_place.unwrap_or(*place),
                    Some(Call::Party { kind, .. }) => *kind = plain,
                    _ => {}
                }
                if case != self.best {
                    self.try_case(case);
                }
            }
        }
    }

    /// Leaves out calls, in runs that get shorter.
    fn fewer_calls(&mut self) {
        let mut run = self.best.calls.len().div_ceil(2);
        while run > 0 {
            let mut from = 0;
            while from < self.best.calls.len() {
                let mut case = self.best.clone();
                case.calls.drain(from..(from + run).min(case.calls.len()));
                if !self.try_case(case) {
                    from += run;
                }
            }
            run /= 2;
        }
    }

    /// Texts one by one in place of a sheet, which lines can say.
    fn single_texts(&mut self) {
        for index in 0..self.best.calls.len() {
            let mut case = self.best.clone();
            let Some(Call::InsertSheet { kinds, place }) = case.calls.get(index).cloned() else { continue };
            let first = self.reply(index)[1];
            let places = [place].into_iter().chain(first..);
            let texts = places.take(kinds.len()).map(|place| Call::Insert { kind: TEXT, place });
            case.calls.splice(index..=index, texts);
            self.try_case(case);
        }
    }

    /// Leaves out kinds of loads and sheets, in runs that get shorter. Long runs matter: a tree of r^j leaves often fails
    /// where one of a few leaves less does not. A run that breaks the nesting fails to load, and so is not taken.
    fn fewer_kinds(&mut self) {
        for index in 0..self.best.calls.len() {
            let left = |it: &mut Self| kinds_of(&mut it.best, index).map_or(0, |kinds| kinds.len());
            let mut run = left(self).div_ceil(2);
            while run > 0 {
                let mut end = left(self);
                while end >= run && run <= left(self) {
                    let case = self.without_kinds(index, end - run, run);
                    self.try_case(case);
                    // Runs of two may be an element anywhere, so they are tried at every place.
                    end -= if run == 2 { 1 } else { run };
                }
                run /= 2;
            }
        }
    }

    fn without_kinds(&self, index: usize, at: usize, many: usize) -> Case {
        let mut case = self.best.clone();
        // A load's tags are numbered from 0; a sheet's from the number that is replied, and they stand behind its place.
        let (first, front) = match case.calls[index] {
            Call::InsertSheet { place, .. } => (self.reply(index)[1], place),
            _ => (0, NO_TAG),
        };
        if let Some(kinds) = kinds_of(&mut case, index) {
            let len = kinds.len();
            kinds.drain(at.min(len)..(at + many).min(len));
        }
        let place = at.checked_sub(1).map_or(front, |before| first + before as u32);
        forget(&mut case, index + 1, first + at as u32, many as u32, place);
        case
    }

    /// Texts for all kinds, and the book number of the papers, where the failure does not need the others.
    fn plainer_loads(&mut self) {
        let mut case = self.best.clone();
        for call in &mut case.calls {
            if let Call::Load { book, .. } | Call::LoadWithGrants { book, .. } = call {
                *book = 7;
            }
        }
        self.try_case(case.clone());
        for index in 0..case.calls.len() {
            if let Some(kinds) = kinds_of(&mut case, index) {
                kinds.fill(TEXT);
            }
        }
        self.try_case(case);
    }

    /// No bytes, and the files of small books, in place of others.
    fn plainer_files(&mut self) {
        let files = [&[][..], &[TEXT], &[TEXT; 4]].map(file_of);
        for index in 0..self.best.calls.len() {
            for file in [&vec![]].into_iter().chain(&files) {
                let mut case = self.best.clone();
                match case.calls.get_mut(index) {
                    Some(Call::Read { file: it, .. } | Call::ReadWithGrants { file: it, .. })
                        if it.len() > file.len() =>
                    {
                        it.clone_from(file)
                    }
                    _ => break,
                }
                if self.try_case(case) {
                    break;
                }
            }
        }
    }

    fn try_words(&mut self, words: Vec<u32>) -> bool {
        let mut case = self.best.clone();
        case.start.words = words;
        self.try_case(case)
    }

    /// Starts from the words of the book program and lends lists as long as it does, where the failure allows it.
    fn plainer_start(&mut self) {
        let program = vec![0; HEADER + RECORD * PROGRAM_TAGS];
        if !self.try_words(program) {
            self.try_words(vec![0; self.best.start.words.len()]);
        }
        let mut case = self.best.clone();
        for call in &mut case.calls {
            if let Call::List { tags, labels, .. } = call {
                (*tags, *labels) = (PROGRAM_TAGS, PROGRAM_TAGS);
            }
        }
        self.try_case(case);
    }

    /// Loads in place of a store that is found in words or in a file.
    fn loads(&mut self) {
        for index in (0..=self.best.calls.len()).rev() {
            if let Some(case) = loaded(&self.best, index) {
                self.try_case(case);
            }
        }
    }

    /// Fewer words behind a store that is found in them. Where they are all 0, as the program's are, their number is as good
    /// as any.
    fn fewer_words(&mut self) {
        let mut run = self.best.start.words.len() / 2;
        while run > 0 && self.best.start.words.iter().any(|word| *word != 0) {
            let left = self.best.start.words.len().saturating_sub(run);
            if !self.try_words(self.best.start.words[..left].to_vec()) {
                run /= 2;
            }
        }
    }

    /// No list of grants, or a shorter one.
    fn fewer_grants(&mut self) {
        let start = System::from(self.best.start.words.clone());
        if self.best.start == start || self.try_case(Case { start, ..self.best.clone() }) {
            return;
        }
        let mut at = 0;
        while at < self.best.start.grants.len() {
            let mut case = self.best.clone();
            let live = case.start.live().len();
            case.start.grants.remove(at);
            case.start.count -= usize::from(at < live);
            if !self.try_case(case) {
                at += 1;
            }
        }
    }
}

/// A short case that fails too, and what is wrong there.
pub fn shrink(subject: &dyn Subject, case: Case, what: String) -> (Case, String) {
    let mut it = Shrinker { subject, best: case.clone(), what, replays: 0 };
    it.try_case(case);
    it.plainer_start();
    it.loads();
    it.fewer_words();
    loop {
        let before = it.best.clone();
        it.smaller_trees();
        it.plainer_loads();
        it.fewer_grants();
        it.fewer_calls();
        it.single_calls();
        it.fewer_kinds();
        it.single_texts();
        it.plainer_insertions();
        it.plainer_files();
        // What one pass made plainer, another may now make shorter.
        if it.best == before || it.replays >= PATIENCE {
            break;
        }
    }
    (it.best, it.what)
}
