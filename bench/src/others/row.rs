//! Tags in their order, linked.

pub const NONE: usize = usize::MAX;

#[derive(Default)]
pub struct Row {
    first: usize,
    next: Vec<usize>,
    prior: Vec<usize>,
}

impl Row {
    /// Tags 0 to n − 1 in this order.
    pub fn new(n: usize) -> Row {
        Row {
            first: if n == 0 { NONE } else { 0 },
            next: (0..n).map(|tag| if tag + 1 < n { tag + 1 } else { NONE }).collect(),
            prior: (0..n).map(|tag| if tag > 0 { tag - 1 } else { NONE }).collect(),
        }
    }

    pub fn len(&self) -> usize {
        self.next.len()
    }

    pub fn next(&self, tag: usize) -> Option<usize> {
        Some(self.next[tag]).filter(|&it| it != NONE)
    }

    pub fn prior(&self, tag: usize) -> Option<usize> {
        Some(self.prior[tag]).filter(|&it| it != NONE)
    }

    /// The tag behind a place, the first behind the front.
    pub fn behind(&self, place: Option<usize>) -> Option<usize> {
        place.map_or(Some(self.first).filter(|&it| it != NONE), |tag| self.next(tag))
    }

    /// Links a new tag in; its number.
    pub fn insert(&mut self, place: Option<usize>) -> usize {
        let (new, right) = (self.len(), self.behind(place));
        self.next.push(right.unwrap_or(NONE));
        self.prior.push(place.unwrap_or(NONE));
        match place {
            Some(left) => self.next[left] = new,
            None => self.first = new,
        }
        if let Some(right) = right {
            self.prior[right] = new;
        }
        new
    }

    /// All tags in order.
    pub fn iter(&self) -> impl Iterator<Item = usize> + '_ {
        std::iter::successors(self.behind(None), |&tag| self.next(tag))
    }
}

#[cfg(test)]
mod tests {
    use super::*;

    #[test]
    fn tags_stand_where_they_were_put() {
        let mut row = Row::new(3);
        assert_eq!([row.insert(None), row.insert(Some(1)), row.insert(Some(2)), row.insert(Some(4))], [3, 4, 5, 6]);
        assert_eq!(row.iter().collect::<Vec<_>>(), [3, 0, 1, 4, 6, 2, 5]);
        let back: Vec<usize> = std::iter::successors(Some(5), |&tag| row.prior(tag)).collect();
        assert_eq!(back, [5, 2, 6, 4, 1, 0, 3]);
    }

    #[test]
    fn an_empty_row_takes_a_first_tag() {
        let mut row = Row::new(0);
        row.insert(None);
        assert_eq!(row.iter().collect::<Vec<_>>(), [0]);
    }
}
