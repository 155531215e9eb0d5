//! What a call finds and leaves behind: words, and a list of grants with its count.

/// A record of the list, as it is lent: party, section, rights.
pub type Grant = [u32; 3];

#[derive(Clone, PartialEq, Eq, Debug, Default)]
pub struct System {
    pub words: Vec<u32>,
    pub grants: Vec<Grant>,
    /// How many of the grants are live: the first ones.
    pub count: usize,
}

impl System {
    /// The live grants; all that there are, where the count is above the list.
    pub fn live(&self) -> &[Grant] {
        &self.grants[..self.count.min(self.grants.len())]
    }
}

/// A store on which nobody has rights.
impl From<Vec<u32>> for System {
    fn from(words: Vec<u32>) -> System {
        System { words, ..System::default() }
    }
}
