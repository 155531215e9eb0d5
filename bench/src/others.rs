//! What could be chosen instead of the L-Tree, as plain programs: each labels a row of tags that grows, so that labels
//! rise along it. What is counted is how many tags an insertion gives another label, and how long the labels are.

mod gaps;
mod growing;
mod ltree;
mod ranges;
mod row;
mod table;

pub use gaps::Gaps;
pub use growing::Growing;
pub use ltree::LTree;
pub use ranges::Ranges;
pub use table::{all, table};

/// A way to label. Tags are numbered as they come.
pub trait Labelling {
    /// Tags 0 to n − 1 in this order, in place of all that was there; false where the labels do not suffice.
    fn load(&mut self, n: usize) -> bool;

    /// The next tag goes right behind `place`, or to the front. How many tags that were there before have another label
    /// now; None where no label can be had.
    fn insert(&mut self, place: Option<usize>) -> Option<usize>;

    /// Bits of the tags' labels together and of the longest one, each label stored as this way stores it.
    fn bits(&self) -> (usize, usize);
}

/// How many labels are not what they were. New tags stand behind the old ones.
fn changed<T: PartialEq>(before: &[T], after: &[T]) -> usize {
    before.iter().zip(after).filter(|(before, after)| before != after).count()
}
