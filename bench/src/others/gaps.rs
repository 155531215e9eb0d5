//! Even gaps: a label halfway between its neighbours, and where there is none, all labels anew at even distances.

use super::row::Row;
use super::{Labelling, changed};

pub struct Gaps {
    bits: u32,
    row: Row,
    labels: Vec<u64>,
}

impl Gaps {
    /// Labels of so many bits.
    pub fn new(bits: u32) -> Gaps {
        Gaps { bits, row: Row::default(), labels: Vec::new() }
    }

    /// All labels at even distances, with half a distance at both ends; false where there are more tags than labels.
    fn spread(&mut self) -> bool {
        let (space, n) = (1u128 << self.bits, self.row.len() as u128);
        for (i, tag) in self.row.iter().enumerate() {
            self.labels[tag] = ((2 * i as u128 + 1) * space / (2 * n)) as u64;
        }
        n <= space
    }
}

impl Labelling for Gaps {
    fn load(&mut self, n: usize) -> bool {
        (self.row, self.labels) = (Row::new(n), vec![0; n]);
        self.spread()
    }

    fn insert(&mut self, place: Option<usize>) -> Option<usize> {
        let low = place.map_or(0, |tag| self.labels[tag] + 1);
        let high = self.row.behind(place).map_or(1 << self.bits, |tag| self.labels[tag]);
        self.row.insert(place);
        self.labels.push(low + (high - low) / 2);
        if low < high {
            return Some(0);
        }
        let before = self.labels[..self.labels.len() - 1].to_vec();
        self.spread().then(|| changed(&before, &self.labels))
    }

    fn bits(&self) -> (usize, usize) {
        (self.bits as usize * self.row.len(), self.bits as usize)
    }
}

#[cfg(test)]
mod tests {
    use super::*;

    impl Gaps {
        pub fn along(&self) -> Vec<u64> {
            self.row.iter().map(|tag| self.labels[tag]).collect()
        }
    }

    /// Four tags in 16 labels stand at 2, 6, 10, 14; behind the first there is room for two at 4 and 5, then for none.
    #[test]
    fn a_full_gap_renumbers_all() {
        let mut gaps = Gaps::new(4);
        assert!(gaps.load(4));
        assert_eq!(gaps.along(), [2, 6, 10, 14]);
        assert_eq!(gaps.insert(Some(0)), Some(0));
        assert_eq!(gaps.insert(Some(4)), Some(0));
        assert_eq!(gaps.along(), [2, 4, 5, 6, 10, 14]);
        // Seven in 16: at 1, 3, 5, 8, 10, 12, 14. Of the six before, the tags at 2, 4, 5, 6 and 10 have moved.
        assert_eq!(gaps.insert(Some(4)), Some(5));
        assert_eq!(gaps.along(), [1, 3, 5, 8, 10, 12, 14]);
    }

    #[test]
    fn more_tags_than_labels_are_refused() {
        let mut gaps = Gaps::new(2);
        assert!(!gaps.load(5));
        assert!(gaps.load(4));
        assert_eq!(gaps.insert(None), None);
    }
}
