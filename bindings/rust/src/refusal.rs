//! Why a call is refused.

use std::error::Error;
use std::fmt;

/// Why a call is refused. A refused call changes nothing.
#[derive(Clone, Copy, PartialEq, Eq, Hash, Debug)]
#[non_exhaustive]
pub enum Refusal {
    /// 1: under 8 words; on load and on reading a file, under 8 + 7n words for n tags.
    TooFewWords,
    /// 2: the words say no sound store (any words may be loaded over, or read over), or the file that is read says none.
    NotSound,
    /// 3: on load, s or r outside 2 to 16.
    Degree,
    /// 4: a kind that is not allowed there. No call of this crate can pass one.
    Kind,
    /// 5: on load and on inserting a sheet, kinds not properly nested.
    Nesting,
    /// 6: over 200,000 tags; on an insertion, also too few words for the new tags.
    TooManyTags,
    /// 7: the tree would need labels of over 32 bits.
    OutOfLabels,
    /// 8: the tag was never issued by this book.
    NoSuchTag,
    /// 9: the tag is marked.
    TagMarked,
    /// 10: an end tag where an element or a text is asked for; on question, list and a grant, also a text.
    NotASection,
    /// 11: a lent list is shorter than the count, of the tags listed or of the kinds of a sheet.
    ListTooShort,
    /// 12: the text is no sheet: something in it cannot be completed, an end tag does not fit, or an element stays open.
    NotASheet,
    /// 13: an element of the sheet would be the 65th that is open.
    TooDeep,
    /// 14: the sheet has a processing instruction or a document type declaration, which are not read.
    NotRead,
    /// 15: the bytes are no file: the lengths, kinds or counts of their records are not one's.
    NotAFile,
    /// 16: under 44 + 34n bytes are lent for the file of n tags.
    TooFewBytes,
    /// 17: a party outside 1 to 65,535, rights outside 1 to 7, or a count above the length of the list of grants.
    OutOfRange,
    /// 18: a party's call that no grant allows, or that goes outside the section.
    NotAllowed,
    /// 19: the list of grants is full.
    GrantsFull,
    /// A number that this crate does not know: the library is newer.
    Other(u32),
}

/// The refusals by their numbers, from 1 on.
const KNOWN: [Refusal; 19] = [
    Refusal::TooFewWords,
    Refusal::NotSound,
    Refusal::Degree,
    Refusal::Kind,
    Refusal::Nesting,
    Refusal::TooManyTags,
    Refusal::OutOfLabels,
    Refusal::NoSuchTag,
    Refusal::TagMarked,
    Refusal::NotASection,
    Refusal::ListTooShort,
    Refusal::NotASheet,
    Refusal::TooDeep,
    Refusal::NotRead,
    Refusal::NotAFile,
    Refusal::TooFewBytes,
    Refusal::OutOfRange,
    Refusal::NotAllowed,
    Refusal::GrantsFull,
];

impl Refusal {
    /// The number that docs/STORE.md and the C interface give it.
    pub fn number(self) -> u32 {
        match self {
            Refusal::Other(number) => number,
            known => KNOWN.iter().position(|&it| it == known).map_or(0, |at| at as u32 + 1),
        }
    }

    /// Of a reply's first word: 0 is no refusal.
    pub(crate) fn check(number: u32) -> Result<(), Refusal> {
        match number {
            0 => Ok(()),
            _ => Err(KNOWN.get(number as usize - 1).copied().unwrap_or(Refusal::Other(number))),
        }
    }
}

impl fmt::Display for Refusal {
    fn fmt(&self, f: &mut fmt::Formatter<'_>) -> fmt::Result {
        f.write_str(match self {
            Refusal::TooFewWords => "too few words are lent: a store of n tags needs words_for(n) of them",
            Refusal::NotSound => {
                "the words, or the file, say no sound store: load a book, or bring back sound words or a whole file"
            }
            Refusal::Degree => "s and r must each be from 2 to 16",
            Refusal::Kind => {
                "a kind is not allowed there: a load and a sheet have begins, ends and texts, insert a begin or a text"
            },
            Refusal::Nesting => "the kinds do not nest: every begin needs its end, and every end its begin",
            Refusal::TooManyTags => {
                "no room for more tags: a book has at most 200,000, and no more than its words have room for"
            }
            Refusal::OutOfLabels => {
                "the labels would need more than 32 bits: load the book again with a smaller s, or with another r"
            }
            Refusal::NoSuchTag => "the book has issued no tag of that number",
            Refusal::TagMarked => "the tag is marked: use one that is not",
            Refusal::NotASection => {
                "the tag begins no section: give the begin of an element (mark and hold also take a text)"
            }
            Refusal::ListTooShort => {
                "a lent list is too short: lend one as long as the number of tags in the book, or as the text of the sheet"
            }
            Refusal::NotASheet => {
                "the text is no sheet: its tags, comments, references and sections must be whole, and its elements closed"
            }
            Refusal::TooDeep => "the sheet is too deep: at most 64 elements may be open at once",
            Refusal::NotRead => "the sheet has a <? or a <!DOCTYPE, which are not read: take it out",
            Refusal::NotAFile => {
                "the bytes are no file: give the whole file and nothing after it, as many bytes as writing replied"
            }
            Refusal::TooFewBytes => "too few bytes are lent: the file of n tags has bytes_for(n) of them",
            Refusal::OutOfRange => {
                "a party is from 1 to 65,535, rights are from 1 to 7, and no more grants are live than the list has records"
            }
            Refusal::NotAllowed => "no grant allows this party's call there: ask for a grant, or for another tag",
            Refusal::GrantsFull => "the list of grants is full: lend a longer one, or revoke a grant",
            Refusal::Other(number) => {
                return write!(
                    f,
                    "the library refuses with {number}, which this crate does not know: update the crate"
                );
            }
        })
    }
}

impl Error for Refusal {}

#[cfg(test)]
mod tests {
    use super::*;

    #[test]
    fn every_number_is_its_refusal_and_back() {
        assert_eq!(Refusal::check(0), Ok(()));
        for number in 1..=40 {
            let refusal = Refusal::check(number).expect_err("it is refused");
            assert_eq!(refusal.number(), number);
            assert_eq!(matches!(refusal, Refusal::Other(_)), number > 19, "{refusal:?}");
        }
        assert_eq!(Refusal::check(9), Err(Refusal::TagMarked));
        assert_eq!(Refusal::check(u32::MAX), Err(Refusal::Other(u32::MAX)));
    }

    #[test]
    fn every_refusal_says_something_else() {
        let mut said: Vec<String> = (1..=20).map(|it| Refusal::check(it).expect_err("refused").to_string()).collect();
        said.sort();
        said.dedup();
        assert_eq!(said.len(), 20);
    }
}
