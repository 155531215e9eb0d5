//! s and r, and the numbers by height that follow from them.

/// b is at least 3, so b^21 is past 2^32 and H is at most 20; a root split asks for one more.
pub const HEIGHTS: usize = 22;

pub type Table = [u64; HEIGHTS];

pub struct Shape {
    pub s: u64,
    /// b^j: how far apart two nodes of height j are numbered.
    pub widths: Table,
    /// r^j: the least leaves under a node below the root.
    pub least: Table,
    /// s·r^j: the leaves at which a node is full.
    pub limits: Table,
}

fn powers(first: u64, base: u64) -> Table {
    let mut table = [first; HEIGHTS];
    for h in 1..HEIGHTS {
        table[h] = table[h - 1].saturating_mul(base);
    }
    table
}

impl Shape {
    /// None where s or r is outside 2 to 16.
    pub fn new(s: u32, r: u32) -> Option<Shape> {
        if !(2..=16).contains(&s) || !(2..=16).contains(&r) {
            return None;
        }
        let (s, r) = (u64::from(s), u64::from(r));
        Some(Shape { s, widths: powers(1, s * r - 1), least: powers(1, r), limits: powers(s, r) })
    }

    /// Whether b^height is at most 2^32.
    pub fn fits(&self, height: usize) -> bool {
        height < HEIGHTS && self.widths[height] <= 1 << 32
    }

    /// The smallest height of at least 1 with n < 2·r^H.
    pub fn load_height(&self, n: usize) -> usize {
        (1..).find(|&height| (n as u64) < 2 * self.least[height]).expect("n is at most 200,000")
    }
}
