//! Labels that grow and never change: codes of the symbols 1, 2 and 3, compared from the left as words of a dictionary
//! are. Between any two codes there is always another, only longer. After C. Li and T. W. Ling, "QED: a novel quaternary
//! encoding to completely avoid re-labeling in XML updates" (2005).

use super::Labelling;
use super::row::Row;

type Code = Vec<u8>;

#[derive(Default)]
pub struct Growing {
    row: Row,
    codes: Vec<Code>,
}

fn with(mut code: Code, symbol: u8) -> Code {
    code.push(symbol);
    code
}

/// The code with another last symbol.
fn ending(mut code: Code, symbol: u8) -> Code {
    code.pop();
    with(code, symbol)
}

/// A code between two neighbours; the empty one stands for none.
fn between(left: &Code, right: &Code) -> Code {
    if left.len() < right.len() {
        with(ending(right.clone(), 1), 2)
    } else if left.len() > right.len() && left.last() == Some(&2) {
        ending(left.clone(), 3)
    } else {
        with(left.clone(), 2)
    }
}

/// Codes for all places strictly between two that have theirs: a third and two thirds of the way, and so on in each part.
fn encode(codes: &mut [Code], left: usize, right: usize) {
    let third = |k: usize| left + (k * (right - left) + 1) / 3;
    let (one, two) = (third(1), third(2));
    let stem = match codes[left].len() < codes[right].len() {
        true => ending(codes[right].clone(), 1),
        false => codes[left].clone(),
    };
    let (has_one, has_two) = (one != left && one != right, two != one && two != right);
    if has_one {
        codes[one] = with(stem.clone(), 2);
    }
    if has_two {
        codes[two] = with(stem, 3);
    }
    if has_one || has_two {
        encode(codes, left, one);
        encode(codes, one, two);
        encode(codes, two, right);
    }
}

impl Labelling for Growing {
    fn load(&mut self, n: usize) -> bool {
        let mut codes = vec![Code::new(); n + 2];
        encode(&mut codes, 0, n + 1);
        (self.row, self.codes) = (Row::new(n), codes[1..=n].to_vec());
        true
    }

    fn insert(&mut self, place: Option<usize>) -> Option<usize> {
        let code = |tag: Option<usize>| tag.map_or(Code::new(), |tag| self.codes[tag].clone());
        let new = between(&code(place), &code(self.row.behind(place)));
        self.row.insert(place);
        self.codes.push(new);
        Some(0)
    }

    /// Two bits a symbol, and two for the separator behind a code.
    fn bits(&self) -> (usize, usize) {
        let bits = |code: &Code| 2 * (code.len() + 1);
        (self.codes.iter().map(bits).sum(), self.codes.iter().map(bits).max().unwrap_or(0))
    }
}

#[cfg(test)]
mod tests {
    use super::*;

    impl Growing {
        pub fn along(&self) -> Vec<Code> {
            self.row.iter().map(|tag| self.codes[tag].clone()).collect()
        }
    }

    fn code(symbols: &str) -> Code {
        symbols.bytes().map(|it| it - b'0').collect()
    }

    /// Table 1 of the paper.
    #[test]
    fn sixteen_codes_are_the_papers() {
        let mut growing = Growing::default();
        assert!(growing.load(16));
        let table = "112 12 122 13 132 2 212 22 23 232 3 312 32 322 33 332";
        assert_eq!(growing.along(), table.split(' ').map(code).collect::<Vec<_>>());
        // The paper's total is 108 bits with separators.
        assert_eq!(growing.bits(), (108, 8));
    }

    /// Example 4.1 of the paper, and its two other cases.
    #[test]
    fn codes_between_codes_are_the_papers() {
        let between = |left, right| between(&code(left), &code(right));
        assert_eq!(between("112", "12"), code("113"));
        assert_eq!(between("113", "12"), code("1132"));
        assert_eq!(between("12", "122"), code("1212"));
        assert_eq!(between("22", "23"), code("222"));
    }
}
