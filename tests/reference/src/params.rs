//! s and r, and the numbers that follow from them.

use crate::fault::Fault;

/// Labels are 32-bit words, so b^H may be at most this.
pub const LABELS: u64 = 1 << 32;

/// No store holds more tags than this, marked ones counted.
pub const MAX_TAGS: u64 = 200_000;

#[derive(Clone, Copy, PartialEq, Eq, Debug)]
pub struct Params {
    pub s: u64,
    pub r: u64,
    /// b, the base of the labels: f - 1.
    pub base: u64,
}

impl Params {
    /// None where s or r is outside 2 to 16.
    pub fn new(s: u32, r: u32, fault: Fault) -> Option<Params> {
        let allowed = 2..=16;
        if !allowed.contains(&s) || !allowed.contains(&r) {
            return None;
        }
        let (s, r) = (u64::from(s), u64::from(r));
        let f = s * r;
        let base = if fault == Fault::BaseF { f } else { f - 1 };
        Some(Params { s, r, base })
    }

    /// Whether b^height is at most 2^32. The height may be any word, so the power may be past all numbers.
    pub fn labels_fit(&self, height: u32) -> bool {
        self.base.checked_pow(height).is_some_and(|p| p <= LABELS)
    }

    /// The least number of leaves below a node that is not the root: r^height.
    pub fn least(&self, height: u32) -> u64 {
        self.r.pow(height)
    }

    /// The number of leaves at which a node is full: s·r^height.
    pub fn limit(&self, height: u32) -> u64 {
        self.s * self.r.pow(height)
    }

    /// How far apart two neighbours of this height are numbered: b^height.
    pub fn step(&self, height: u32) -> u64 {
        self.base.pow(height)
    }

    /// The height of a freshly loaded book: the smallest H of at least 1 with n < 2·r^H.
    pub fn load_height(&self, n: u64) -> u32 {
        let mut height = 1;
        while n >= 2 * self.r.pow(height) {
            height += 1;
        }
        height
    }
}
