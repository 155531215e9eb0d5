//! Kinds of tags that nest properly.

pub const BEGIN: u8 = 1;
pub const END: u8 = 2;
pub const TEXT: u8 = 3;

/// n properly nested kinds, chosen one after the other. `choose` is told how many elements are open, and whether one more
/// could still be closed in time; it chooses END only where one is open, and BEGIN only where one more could be closed.
pub fn nested(n: usize, mut choose: impl FnMut(usize, bool) -> u8) -> Vec<u8> {
    let mut open = 0;
    let mut kinds = Vec::with_capacity(n);
    while kinds.len() < n {
        let left = n - kinds.len();
        let kind = if left == open { END } else { choose(open, left >= open + 2) };
        match kind {
            BEGIN => open += 1,
            END => open -= 1,
            _ => {}
        }
        kinds.push(kind);
    }
    kinds
}

#[cfg(test)]
mod tests {
    use super::*;

    /// Whether every end has a begin before it, and every begin an end behind it.
    fn nest(kinds: &[u8]) -> bool {
        let mut open = 0;
        for &kind in kinds {
            match kind {
                BEGIN => open += 1,
                END if open == 0 => return false,
                END => open -= 1,
                _ => {}
            }
        }
        open == 0
    }

    #[test]
    fn begins_where_they_may_stand_are_all_closed() {
        for n in 0..40 {
            let kinds = nested(n, |_, may_begin| if may_begin { BEGIN } else { TEXT });
            assert!(kinds.len() == n && nest(&kinds), "{kinds:?}");
        }
    }

    #[test]
    fn ends_where_they_may_stand_close_something() {
        let mut turn = 0;
        let kinds = nested(31, |open, may_begin| {
            turn += 1;
            match turn % 3 {
                0 if open > 0 => END,
                1 if may_begin => BEGIN,
                _ => TEXT,
            }
        });
        assert!(kinds.len() == 31 && nest(&kinds), "{kinds:?}");
        assert!([BEGIN, END, TEXT].iter().all(|kind| kinds.contains(kind)), "{kinds:?}");
    }
}
