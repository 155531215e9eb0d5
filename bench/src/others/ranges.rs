//! Tag ranges: where a tag finds no room, the labels of the smallest range around it that is not too dense are given out
//! anew. The ranges around a label are those that agree with it but for the last i bits; one is too dense where it has
//! over (2 / T)^i tags. After M. A. Bender, R. Cole, E. D. Demaine, M. Farach-Colton and J. Zito, "Two simplified
//! algorithms for maintaining order in a list" (2002).

use super::Labelling;
use super::row::Row;

pub struct Ranges {
    bits: u32,
    /// T, above 1 and below 2: the greater, the more a range must have thinned out to be enough.
    threshold: f64,
    row: Row,
    labels: Vec<u64>,
}

impl Ranges {
    pub fn new(bits: u32, threshold: f64) -> Ranges {
        Ranges { bits, threshold, row: Row::default(), labels: Vec::new() }
    }

    /// The most tags of a range of 2^i labels.
    fn most(&self, i: u32) -> u64 {
        (2.0 / self.threshold).powi(i as i32) as u64
    }

    /// The first tag of the range, and how many it has, from a tag within it.
    fn within(&self, tag: usize, start: u64, size: u64) -> (usize, u64) {
        let inside = |tag: &usize| (start..start + size).contains(&self.labels[*tag]);
        let back = std::iter::successors(Some(tag), |&tag| self.row.prior(tag)).take_while(inside);
        let first = back.last().expect("the tag itself is within");
        let along = std::iter::successors(Some(first), |&tag| self.row.next(tag)).take_while(inside);
        (first, along.count() as u64)
    }

    /// Makes room behind a place, or in front of all; how many labels changed. The new tag is in no range yet, and counts.
    fn relabel(&mut self, place: Option<usize>) -> Option<usize> {
        let near = place.or(self.row.behind(None)).expect("without room there are tags");
        for i in 1..=self.bits {
            let size = 1u64 << i;
            let start = self.labels[near] & !(size - 1);
            let (first, count) = self.within(near, start, size);
            if count < self.most(i).min(size) {
                return Some(self.spread(first, count, start, size, place));
            }
        }
        None
    }

    /// Labels at even distances from the range's start, one of them left free for the new tag.
    fn spread(&mut self, first: usize, count: u64, start: u64, size: u64, place: Option<usize>) -> usize {
        let label = |i: u64| start + (u128::from(i) * u128::from(size) / u128::from(count + 1)) as u64;
        let mut moved = 0;
        let mut tag = first;
        let mut skip = u64::from(place.is_none());
        for i in 0..count {
            moved += usize::from(self.labels[tag] != label(i + skip));
            self.labels[tag] = label(i + skip);
            skip += u64::from(place == Some(tag));
            tag = self.row.next(tag).unwrap_or(tag);
        }
        moved
    }

    /// The labels that the new tag may have, the last not included.
    fn room(&self, place: Option<usize>) -> (u64, u64) {
        let low = place.map_or(0, |tag| self.labels[tag] + 1);
        (low, self.row.behind(place).map_or(1 << self.bits, |tag| self.labels[tag]))
    }
}

impl Labelling for Ranges {
    fn load(&mut self, n: usize) -> bool {
        let space = 1u128 << self.bits;
        self.row = Row::new(n);
        self.labels = (0..n as u128).map(|i| ((2 * i + 1) * space / (2 * n as u128)) as u64).collect();
        n as u64 <= self.most(self.bits)
    }

    fn insert(&mut self, place: Option<usize>) -> Option<usize> {
        let (low, high) = self.room(place);
        let moved = if low < high { 0 } else { self.relabel(place)? };
        let (low, high) = self.room(place);
        self.row.insert(place);
        self.labels.push(low + (high - low) / 2);
        Some(moved)
    }

    fn bits(&self) -> (usize, usize) {
        (self.bits as usize * self.row.len(), self.bits as usize)
    }
}

#[cfg(test)]
mod tests {
    use super::*;

    impl Ranges {
        pub fn along(&self) -> Vec<u64> {
            self.row.iter().map(|tag| self.labels[tag]).collect()
        }
    }

    /// With T = 1.25 a range of 2, 4, 8 or 16 labels takes 1, 2, 4 or 6 tags.
    #[test]
    fn the_smallest_range_with_room_is_relabelled() {
        let mut ranges = Ranges::new(4, 1.25);
        assert_eq!([1, 2, 3, 4].map(|i| ranges.most(i)), [1, 2, 4, 6]);
        assert!(ranges.load(3));
        assert_eq!(ranges.along(), [2, 8, 13]);
        for moved in [0, 0, 0] {
            assert_eq!(ranges.insert(Some(0)), Some(moved));
        }
        assert_eq!(ranges.along(), [2, 3, 4, 5, 8, 13]);
        // Around 2: two labels have two tags, four have two, eight have four, and sixteen have six, where a seventh is
        // too many.
        assert_eq!(ranges.insert(Some(0)), None);
    }

    #[test]
    fn tags_outside_the_range_stay() {
        let mut ranges = Ranges::new(6, 1.25);
        assert!(ranges.load(2));
        assert_eq!(ranges.along(), [16, 48]);
        for _ in 0..5 {
            assert_eq!(ranges.insert(Some(0)), Some(0));
        }
        assert_eq!(ranges.along(), [16, 17, 18, 20, 24, 32, 48]);
        // Around 16: two labels have two tags, four have three, eight have four, all too many with the new one; sixteen may
        // have six, and 16 to 31 have five. Sixths of 16 from 16 on: 16, 18, 21, 24, 26, 29. The second is left free,
        // and the new tag goes halfway between its neighbours 16 and 21.
        assert_eq!(ranges.insert(Some(0)), Some(4));
        assert_eq!(ranges.along(), [16, 19, 21, 24, 26, 29, 32, 48]);
    }
}
