//! The figures of each way to label, on the insertions that s and r are chosen by.

use super::{Gaps, Growing, LTree, Labelling, Ranges};
use crate::moved::{INSERTED, LOADED, PATTERNS, Pattern, figure};
use crate::table::{table as markdown, thousands};
use draw::Rng;

/// What came of one way to label under one pattern of insertions.
pub struct Figures {
    pub name: String,
    /// None where no label could be had for some insertion.
    pub counted: Option<Counted>,
}

pub struct Counted {
    /// Tags moved by all insertions, and by the one that moved most.
    pub moved: usize,
    pub most: usize,
    /// Bits of a label on average, and of the longest.
    pub mean_bits: f64,
    pub longest: usize,
}

/// Loads and inserts. Tags are drawn as `moved` draws them, so that every way to label has the same insertions.
fn counted(labelling: &mut dyn Labelling, pattern: Pattern) -> Option<Counted> {
    let rng = &mut Rng::new(1);
    if !labelling.load(LOADED) {
        return None;
    }
    let (mut moved, mut most) = (0, 0);
    for n in LOADED..LOADED + INSERTED {
        let one = labelling.insert(pattern.place(n, rng))?;
        moved += one;
        most = most.max(one);
    }
    let (all, longest) = labelling.bits();
    Some(Counted { moved, most, mean_bits: all as f64 / (LOADED + INSERTED) as f64, longest })
}

/// Thresholds of the tag ranges, in hundredths.
const THRESHOLDS: std::ops::RangeInclusive<u32> = 105..=195;

/// The tag ranges at the threshold that moves fewest.
fn best_ranges(bits: u32, pattern: Pattern) -> Figures {
    let tried = THRESHOLDS.step_by(5).filter_map(|hundredths| {
        let threshold = f64::from(hundredths) / 100.0;
        Some((threshold, counted(&mut Ranges::new(bits, threshold), pattern)?))
    });
    match tried.min_by_key(|(_, counted)| counted.moved) {
        Some((threshold, counted)) => {
            Figures { name: format!("tag ranges, {bits} bits, T = {threshold}"), counted: Some(counted) }
        }
        None => Figures { name: format!("tag ranges, {bits} bits"), counted: None },
    }
}

fn figures(pattern: Pattern) -> Vec<Figures> {
    let plain = |name: String, labelling: &mut dyn Labelling| Figures { name, counted: counted(labelling, pattern) };
    let mut all: Vec<Figures> =
        [(2, 2), (3, 2), (4, 4)].map(|(s, r)| plain(format!("L-Tree, s = {s}, r = {r}"), &mut LTree::new(s, r))).into();
    for bits in [20, 32] {
        all.push(plain(format!("even gaps, {bits} bits"), &mut Gaps::new(bits)));
        all.push(best_ranges(bits, pattern));
    }
    all.push(plain("growing labels".into(), &mut Growing::default()));
    all
}

/// By pattern.
pub fn all() -> Vec<(&'static str, Vec<Figures>)> {
    PATTERNS.map(|(pattern, name)| (name, figures(pattern))).into()
}

pub fn table(all: &[(&str, Vec<Figures>)]) -> String {
    let head = ["insertion", "labels", "moved per insertion", "most by one", "bits of a label", "of the longest"];
    let row = |pattern: &str, it: &Figures| {
        let mut row = vec![pattern.to_string(), it.name.clone()];
        row.extend(match &it.counted {
            Some(it) => [
                figure(it.moved as f64 / INSERTED as f64),
                thousands(it.most),
                thousands(it.mean_bits.round() as usize),
                thousands(it.longest),
            ],
            None => ["–"; 4].map(String::from),
        });
        row
    };
    let rows: Vec<Vec<String>> =
        all.iter().flat_map(|(pattern, figures)| figures.iter().map(move |it| row(pattern, it))).collect();
    markdown(2, &head.map(String::from), &rows)
}

#[cfg(test)]
mod tests {
    use super::*;

    /// So many tags moved, and labels that rise, after every insertion.
    fn rises<L: Labelling, T: PartialOrd>(mut labelling: L, pattern: Pattern, along: impl Fn(&L) -> Vec<T>) {
        let rng = &mut Rng::new(2);
        assert!(labelling.load(20));
        for n in 20..400 {
            assert!(labelling.insert(pattern.place(n, rng)).is_some(), "{n} tags");
            let labels = along(&labelling);
            assert_eq!(labels.len(), n + 1);
            assert!(labels.windows(2).all(|two| two[0] < two[1]), "{n} tags");
        }
    }

    #[test]
    fn labels_rise_along_the_row_after_every_insertion() {
        for (pattern, _) in PATTERNS {
            rises(Gaps::new(12), pattern, Gaps::along);
            rises(Ranges::new(16, 1.2), pattern, Ranges::along);
            rises(Ranges::new(32, 1.5), pattern, Ranges::along);
            rises(Growing::default(), pattern, Growing::along);
        }
    }

    /// The L-Tree's figures here are those of the table by s and r.
    #[test]
    fn insertions_are_those_of_the_other_table() {
        for (pattern, _) in PATTERNS {
            let here = counted(&mut LTree::new(3, 2), pattern).expect("labels suffice");
            let there = crate::moved::moved(pattern, 3, 2, INSERTED).expect("labels suffice");
            assert_eq!(here.moved as f64 / INSERTED as f64, there);
        }
    }

    #[test]
    fn growing_labels_never_move_and_grow_at_one_place() {
        let random = counted(&mut Growing::default(), Pattern::Random).expect("always");
        let same = counted(&mut Growing::default(), Pattern::SamePlace).expect("always");
        assert_eq!((random.moved, same.moved), (0, 0));
        // A tag behind the same one is one symbol longer than the tag behind it.
        assert!(same.longest >= 2 * INSERTED && random.longest < 100);
    }
}
