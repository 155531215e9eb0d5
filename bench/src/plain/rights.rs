//! A party's call: the range of its numbers, the question, the grants, the insertion.

use super::insert::insert;
use super::read::question;
use super::refused;
use crate::store::Asked;

const INSERT: u32 = 4;

pub fn party(asked: &Asked, words: &mut [u32]) -> [u32; 5] {
    let &Asked { party, pair, d, right, kind, grants } = asked;
    if !(1..=65_535).contains(&party) || ![1, 2, INSERT].contains(&right) {
        return refused(17);
    }
    let answer = match question(pair, d, words) {
        [0, answer] => answer,
        [refusal, _] => return refused(refusal),
    };
    let granted = grants.iter().any(|&[of, section, rights]| of == party && section == pair[1] && rights & right != 0);
    match answer {
        2 => [0, 2, 0, 0, 0],
        0 if !granted || right != INSERT || d != pair[1] => refused(18),
        1 if !granted => refused(18),
        _ if right != INSERT => [0, 1, 0, 0, 0],
        _ => match insert(kind, d, words) {
            [0, first, moved, split] => [0, 3, first, moved, split],
            [refusal, ..] => refused(refusal),
        },
    }
}
