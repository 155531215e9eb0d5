//! Stores that are sound but for one clause about the tree: a node thin or full by a little, a root thin or full, or a
//! gap between two children. Labels rise, and everything else is as it should be.

use crate::shape;
use draw::Rng;

#[derive(Clone, Copy, PartialEq, Eq, PartialOrd, Ord, Debug)]
pub enum Flaw {
    Thin,
    Full,
    ThinRoot,
    FullRoot,
    Gap,
}

impl Flaw {
    pub const ALL: [Flaw; 5] = [Flaw::Thin, Flaw::Full, Flaw::ThinRoot, Flaw::FullRoot, Flaw::Gap];
}

/// Draws before a flaw is given up that these s and r, or so few tags, may not allow.
const DRAWS: usize = 60;

struct Grower<'a> {
    rng: &'a mut Rng,
    s: u64,
    r: u64,
    flaw: Flaw,
    /// The height of the node that is thin or full, or under which the gap is. The root's own are as high as the root.
    at: u32,
    labels: Vec<u64>,
}

impl Grower<'_> {
    fn base(&self) -> u64 {
        self.s * self.r - 1
    }

    /// Fewest and most leaves of a node of this height below the root.
    fn limits(&self, height: u32) -> (u64, u64) {
        let least = self.r.pow(height);
        (least, self.s * least - 1)
    }

    /// Whether a node of this height can have l leaves at all, its own limits aside.
    fn can_part(&self, height: u32, l: u64) -> bool {
        if height == 1 {
            return l <= self.base();
        }
        let (least, most) = self.limits(height - 1);
        l.div_ceil(most) <= self.base().min(l / least)
    }

    /// A number of leaves just outside a node's limits, or a root's.
    fn odd(&mut self, height: u32) -> u64 {
        let least = self.r.pow(height);
        match self.flaw {
            Flaw::Thin => least - 1 - self.rng.below(2).min(least as usize - 2) as u64,
            Flaw::ThinRoot => 2 * self.r.pow(height - 1) - 1,
            _ => self.s * least + self.rng.below(2) as u64,
        }
    }

    /// The leaves of the children of a node of this height.
    fn shares(&mut self, height: u32, l: u64) -> Option<Vec<u64>> {
        let (least, most) = self.limits(height - 1);
        if !matches!(self.flaw, Flaw::Thin | Flaw::Full) || self.at != height - 1 {
            return self.can_part(height, l).then(|| shape::parts(self.rng, l, self.base(), least, most));
        }
        let odd = self.odd(height - 1);
        let rest = l.checked_sub(odd).filter(|rest| *rest == 0 || self.can_part(height, *rest))?;
        let mut shares = shape::parts(self.rng, rest, self.base() - 1, least, most);
        shares.insert(self.rng.below(shares.len() + 1), odd);
        (shares.len() as u64 <= self.base() && self.can_part(height - 1, odd)).then_some(shares)
    }

    /// The labels below a node; None where the flaw does not fit in. `here`: the flaw is to be below this node.
    fn grow(&mut self, height: u32, l: u64, value: u64, here: bool) -> Option<()> {
        let shares = match height {
            0 => {
                self.labels.push(value);
                return Some(());
            }
            1 => vec![1; l as usize],
            _ if here => self.shares(height, l)?,
            _ => shape::parts(self.rng, l, self.base(), self.limits(height - 1).0, self.limits(height - 1).1),
        };
        let gap = here && self.flaw == Flaw::Gap && self.at == height;
        if gap && shares.len() as u64 >= self.base() {
            return None;
        }
        let (carrier, skipped) = (self.rng.below(shares.len()), self.rng.below(shares.len()));
        for (i, &share) in shares.iter().enumerate() {
            let digit = i as u64 + u64::from(gap && i >= skipped);
            let down = here && i == carrier && self.at < height;
            self.grow(height - 1, share, value + digit * self.base().pow(height - 1), down)?;
        }
        Some(())
    }
}

/// A store with this flaw and at most so many tags, where a few draws find one.
pub fn flawed(rng: &mut Rng, s: u32, r: u32, flaw: Flaw, most: usize) -> Option<Vec<u32>> {
    (0..DRAWS).find_map(|_| {
        let height = rng.between(if flaw == Flaw::Gap { 1 } else { 2 }, u64::from(shape::top(s, r).min(6))) as u32;
        let at = match flaw {
            Flaw::ThinRoot | Flaw::FullRoot => height,
            Flaw::Gap => rng.between(1, u64::from(height)) as u32,
            _ => rng.between(1, u64::from(height) - 1) as u32,
        };
        let mut it = Grower { rng, s: u64::from(s), r: u64::from(r), flaw, at, labels: Vec::new() };
        let (low, high) = shape::leaves(s, r, height);
        let l = match flaw {
            Flaw::ThinRoot | Flaw::FullRoot => it.odd(height),
            _ => it.rng.between(low.max(1) as u64, (high.min(low + most)) as u64),
        };
        if l > most as u64 || !it.can_part(height, l) {
            return None;
        }
        it.grow(height, l, 0, true)?;
        let labels: Vec<u32> = it.labels.iter().map(|label| *label as u32).collect();
        Some(shape::store(rng, s, r, height, &labels))
    })
}
