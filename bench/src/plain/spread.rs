//! Labels of leaves in order, by document 01's load rule.

use super::shape::{HEIGHTS, Shape, Table};

/// The labels of `count` leaves under nodes of a height, numbered from `base` on: at each height j up to it
/// ⌊count / r^j⌋ nodes, each over r^j leaves, the last over all that remain. s·r^j leaves give s complete trees of
/// height j, so a split is numbered by it too.
pub struct Spread<'a> {
    shape: &'a Shape,
    count: u64,
    /// By height, how much further a node begins than one more leaf of the node before it would.
    gaps: Table,
    /// By height, where the next node begins; `count` where none does.
    begins: Table,
}

impl<'a> Spread<'a> {
    pub fn new(shape: &'a Shape, count: u64, height: usize) -> Spread<'a> {
        let mut spread = Spread { shape, count, gaps: [0; HEIGHTS], begins: [count; HEIGHTS] };
        for h in 1..=height {
            spread.gaps[h] = shape.widths[h] - shape.least[1] * shape.widths[h - 1];
            spread.begins[h] = spread.behind(0, h);
        }
        spread
    }

    /// Where the next node of height h begins, behind one that begins at a place.
    fn behind(&self, place: u64, h: usize) -> u64 {
        let power = self.shape.least[h];
        if self.count - place < 2 * power { self.count } else { place + power }
    }

    /// The label at a place, where `next` is one more than that of the place before it: places come in order. Where no
    /// node of a height begins, none above it does.
    pub fn label(&mut self, place: u64, mut next: u64) -> u64 {
        let mut h = 1;
        while self.begins[h] == place {
            next += self.gaps[h];
            self.begins[h] = self.behind(place, h);
            h += 1;
        }
        next
    }
}
