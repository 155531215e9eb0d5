//! The seven calls over lent words, and the two that keep a book as a file.

use crate::refusal::Refusal;
use crate::types::{Answer, HeldPair, Inserted, Kind, Label, Loaded, Place, Tag, Within};

/// The words before the first tag's.
const HEADER: usize = 8;
/// The words of one tag.
const RECORD: usize = 7;
/// Where the header says how many tags were issued.
const COUNT: usize = 4;
/// Where a tag's depth stands among its words.
const DEPTH: usize = 6;

/// How many words a store of so many tags needs.
pub const fn words_for(tags: usize) -> usize {
    HEADER + RECORD * tags
}

/// How many bytes the file of a book of so many tags has.
pub const fn bytes_for(tags: usize) -> usize {
    44 + 34 * tags
}

/// A store over lent words. It keeps nothing outside them: words that were copied, or written to a file and read again
/// ([`Store::write_to`], [`Store::read_from`]), are the same store. Words that say no sound store are refused by every call
/// but [`Store::load`].
#[derive(Debug)]
pub struct Store<'a> {
    words: &'a mut [u32],
}

impl<'a> Store<'a> {
    /// A store over words of any content, with room for `(words.len() - 8) / 7` tags ([`words_for`]).
    pub fn new(words: &'a mut [u32]) -> Store<'a> {
        Store { words }
    }

    /// The store of a file over lent words, whatever they held before, and how many tags and what height it has. Words
    /// after the book stay; where the file is refused, all stay.
    ///
    /// The bytes are the whole file and nothing after it: of a longer buffer, as many as [`Store::write_to`] replied. The
    /// call takes about 32 KB of stack, and about 0.43 MB for a file in which more than 1,024 begins are open at once.
    ///
    /// ```
    /// use vekhturop::{Kind, Store, bytes_for, words_for};
    ///
    /// # fn main() -> Result<(), vekhturop::Refusal> {
    /// let (mut words, mut file) = ([0; words_for(3)], [0; bytes_for(3)]);
    /// let mut store = Store::new(&mut words);
    /// store.load(2, 2, 7, &[Kind::Begin, Kind::Text, Kind::End])?;
    /// let bytes = store.write_to(&mut file)?;
    ///
    /// let mut others = [0; words_for(100)];
    /// let (again, loaded) = Store::read_from(&file[..bytes], &mut others)?;
    /// assert_eq!(loaded.tags, 3);
    /// assert_eq!(again.words()[..words_for(3)], *store.words());
    /// # Ok(())
    /// # }
    /// ```
    pub fn read_from(bytes: &[u8], words: &'a mut [u32]) -> Result<(Store<'a>, Loaded), Refusal> {
        // SAFETY: both pointers and lengths are those of slices, of which one is lent mutably and one is only read.
        let reply =
            unsafe { vekhturop_sys::vk_read_file(bytes.as_ptr(), bytes.len(), words.as_mut_ptr(), words.len()) };
        let loaded = Loaded::of(reply)?;
        Ok((Store { words }, loaded))
    }

    /// The words as they stand.
    pub fn words(&self) -> &[u32] {
        self.words
    }

    /// The words, for a call that may write them.
    pub(crate) fn words_mut(&mut self) -> &mut [u32] {
        self.words
    }

    /// Makes the words a book of these kinds, whatever they held before; its tags are numbered 0, 1, 2 .. in book order.
    /// `s` and `r`, 2 to 16 each, are the degrees of the tree, `book` is any number of the caller's.
    pub fn load(&mut self, s: u32, r: u32, book: u32, kinds: &[Kind]) -> Result<Loaded, Refusal> {
        // SAFETY: both pointers and lengths are those of slices, of which one is lent mutably. A kind is one byte.
        let reply = unsafe {
            vekhturop_sys::vk_load(
                s,
                r,
                book,
                kinds.as_ptr().cast(),
                kinds.len(),
                self.words.as_mut_ptr(),
                self.words.len(),
            )
        };
        Loaded::of(reply)
    }

    /// Inserts a text.
    pub fn insert_text(&mut self, place: Place) -> Result<Inserted, Refusal> {
        self.insert(Kind::Text, place, 1)
    }

    /// Inserts an element: a begin, and its end right after it.
    pub fn insert_element(&mut self, place: Place) -> Result<Inserted, Refusal> {
        self.insert(Kind::Begin, place, 2)
    }

    /// Inserts a text or an element, which are so many tags.
    fn insert(&mut self, kind: Kind, place: Place, tags: usize) -> Result<Inserted, Refusal> {
        // SAFETY: the pointer and the length are those of a slice that is lent mutably.
        let reply =
            unsafe { vekhturop_sys::vk_insert(kind as u8, place.number(), self.words.as_mut_ptr(), self.words.len()) };
        Inserted::of(reply, tags)
    }

    /// Inserts a whole sheet by one call: the tags of these kinds in their order, which nest as the kinds do. The labels are
    /// those that single insertions give, each tag after the one before, and the whole takes about as long as one of them.
    /// An empty sheet changes nothing.
    ///
    /// ```
    /// use vekhturop::{Kind, Place, Store, Tag, kinds_of_xml, words_for};
    ///
    /// # fn main() -> Result<(), vekhturop::Refusal> {
    /// let mut words = [0; words_for(10)];
    /// let mut store = Store::new(&mut words);
    /// store.load(2, 2, 7, &[Kind::Begin, Kind::End])?;
    ///
    /// let mut bytes = [0; 30];
    /// let count = kinds_of_xml(b"<pass>gap 4</pass>", &mut bytes)?;
    /// let sheet = bytes[..count].iter().map(|byte| Kind::try_from(*byte)).collect::<Result<Vec<_>, _>>()?;
    /// let reply = store.insert_sheet(&sheet, Place::After(Tag::new(0).expect("a tag")))?;
    /// assert_eq!((reply.first.number(), reply.last.number()), (2, 4));
    /// # Ok(())
    /// # }
    /// ```
    pub fn insert_sheet(&mut self, kinds: &[Kind], place: Place) -> Result<Inserted, Refusal> {
        // SAFETY: both pointers and lengths are those of slices, of which one is lent mutably. A kind is one byte.
        let reply = unsafe {
            vekhturop_sys::vk_insert_sheet(
                kinds.as_ptr().cast(),
                kinds.len(),
                place.number(),
                self.words.as_mut_ptr(),
                self.words.len(),
            )
        };
        Inserted::of(reply, kinds.len())
    }

    /// Marks a text, or an element by its begin with all that is inside it; how many tags became marked. Labels stay.
    pub fn mark(&mut self, tag: Tag) -> Result<u32, Refusal> {
        // SAFETY: the pointer and the length are those of a slice that is lent mutably.
        let reply = unsafe { vekhturop_sys::vk_mark(tag.number(), self.words.as_mut_ptr(), self.words.len()) };
        Refusal::check(reply.refusal)?;
        Ok(reply.marked)
    }

    /// The held pair of an element, by its begin, or of a text.
    pub fn hold(&self, tag: Tag) -> Result<HeldPair, Refusal> {
        // SAFETY: the pointer and the length are those of a slice, which the call only reads.
        let reply = unsafe { vekhturop_sys::vk_hold(tag.number(), self.words.as_ptr(), self.words.len()) };
        Refusal::check(reply.refusal)?;
        Ok(HeldPair::new(reply.book, Tag::issued(reply.tag), Label(reply.start), Label(reply.end)))
    }

    /// Whether the element of a held pair encloses a tag; its own two tags are not inside it.
    pub fn question(&self, pair: &HeldPair, tag: Tag) -> Result<Answer, Refusal> {
        // SAFETY: the pointer and the length are those of a slice, which the call only reads.
        let reply = unsafe {
            vekhturop_sys::vk_question(
                pair.book,
                pair.tag.number(),
                pair.start.0,
                pair.end.0,
                tag.number(),
                self.words.as_ptr(),
                self.words.len(),
            )
        };
        Refusal::check(reply.refusal)?;
        Ok(Answer::of(reply.answer))
    }

    /// How many elements are around a tag, the same for a begin and its end: the word as it stands, or none where the tag
    /// is not below the tags issued. Nothing else is checked, so this takes no time; a call before it tells whether the words
    /// are sound.
    ///
    /// ```
    /// use vekhturop::{Kind, Store, Tag, words_for};
    ///
    /// # fn main() -> Result<(), vekhturop::Refusal> {
    /// let mut words = [0; words_for(3)];
    /// let mut store = Store::new(&mut words);
    /// store.load(2, 2, 7, &[Kind::Begin, Kind::Text, Kind::End])?;
    /// let depths = [0, 1, 2, 3].map(|tag| store.depth(Tag::new(tag).expect("a tag")));
    /// assert_eq!(depths, [Some(0), Some(1), Some(0), None]);
    /// # Ok(())
    /// # }
    /// ```
    pub fn depth(&self, tag: Tag) -> Option<u32> {
        let issued = *self.words.get(COUNT)?;
        let below = tag.number() < issued;
        below.then(|| self.words.get(HEADER + RECORD * tag.number() as usize + DEPTH).copied()).flatten()
    }

    /// The unmarked tags there with their labels, in book order.
    pub fn list(&self, within: Within) -> Result<Vec<(Tag, Label)>, Refusal> {
        // A list has no more tags than were issued, and those have records in the words, or they are refused.
        let room = self.words.len().saturating_sub(HEADER) / RECORD;
        let issued = self.words.get(COUNT).map_or(0, |n| room.min(*n as usize));
        let mut tags = vec![Tag::issued(0); issued];
        let mut labels = vec![Label::default(); issued];
        let count = self.list_into(within, &mut tags, &mut labels)?;
        Ok(tags.into_iter().zip(labels).take(count).collect())
    }

    /// The same without allocation: the tags and the labels go into two lent lists, and their number is replied. What
    /// stands after them stays.
    pub fn list_into(&self, within: Within, tags: &mut [Tag], labels: &mut [Label]) -> Result<usize, Refusal> {
        // SAFETY: the pointers and lengths are those of slices, of which two are lent mutably and one is only read. A
        // tag or a label is one word, and the tags written are numbers that the store has issued.
        let reply = unsafe {
            vekhturop_sys::vk_list(
                within.number(),
                self.words.as_ptr(),
                self.words.len(),
                tags.as_mut_ptr().cast(),
                tags.len(),
                labels.as_mut_ptr().cast(),
                labels.len(),
            )
        };
        Refusal::check(reply.refusal)?;
        Ok(reply.count as usize)
    }

    /// Writes the book as a file, and replies how many bytes it has: [`bytes_for`] the tags issued. Bytes after it stay. The
    /// file is the same on every machine, and [`Store::read_from`] makes the same words of it.
    pub fn write_to(&self, bytes: &mut [u8]) -> Result<usize, Refusal> {
        // SAFETY: both pointers and lengths are those of slices, of which one is lent mutably and one is only read.
        let reply = unsafe {
            vekhturop_sys::vk_write_file(self.words.as_ptr(), self.words.len(), bytes.as_mut_ptr(), bytes.len())
        };
        Refusal::check(reply.refusal)?;
        Ok(reply.bytes as usize)
    }
}
