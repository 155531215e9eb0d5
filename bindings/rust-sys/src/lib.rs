//! The C interface of the verified store, as include/vekhturop.h declares it: names, structs and nothing more. The crate
//! `vekhturop` is the safe layer over it.
//!
//! # Safety
//!
//! Of every function: each pointer is aligned and not null, even where its length is 0, and points to as many elements
//! as the length after it says; what a call writes overlaps nothing else that is lent to it.

#![no_std]

/// A reply: a row of words, of which the first is the refusal's number, or 0. Where it is not 0, all others are 0.
macro_rules! reply {
    ($(#[$what:meta])* $name:ident { $($(#[$about:meta])* $field:ident),* } $words:literal) => {
        $(#[$what])*
        #[repr(C)]
        #[derive(Clone, Copy, PartialEq, Eq, Debug)]
        pub struct $name {
            /// The number of the refusal, 0 where the call is accepted.
            pub refusal: u32,
            $($(#[$about])* pub $field: u32,)*
        }

        impl From<$name> for [u32; $words] {
            fn from(reply: $name) -> [u32; $words] {
                [reply.refusal, $(reply.$field),*]
            }
        }
    };
}

reply!(
    /// `vk_loaded`.
    Loaded {
        /// How many tags the book has.
        tags,
        /// The height of its tree.
        height
    } 3
);

reply!(
    /// `vk_inserted`.
    Inserted {
        /// The number of the first new tag; the others have the next ones, an element's end too.
        first,
        /// How many unmarked tags that were there before have another label now.
        moved,
        /// The height of the node that was split, 0 where none was; of more than one, the greatest.
        split
    } 4
);

reply!(
    /// `vk_marked`.
    Marked {
        /// How many tags became marked.
        marked
    } 2
);

reply!(
    /// `vk_held`.
    Held {
        /// The book's number.
        book,
        /// The section's begin tag, or the text.
        tag,
        /// The label of its begin.
        start,
        /// The label of its end; a text's own label.
        end
    } 5
);

reply!(
    /// `vk_answered`.
    Answered {
        /// 0 no, 1 yes, 2 stale.
        answer
    } 2
);

reply!(
    /// `vk_listed`.
    Listed {
        /// How many tags were written.
        count
    } 2
);

reply!(
    /// `vk_written`.
    Written {
        /// How many bytes the file has.
        bytes
    } 2
);

/// `vk_kinds`. Where the refusal is not 0, the count is 0. It stands apart from the other replies: its count is no word.
#[repr(C)]
#[derive(Clone, Copy, PartialEq, Eq, Debug)]
pub struct Kinds {
    /// The number of the refusal, 0 where the call is accepted.
    pub refusal: u32,
    /// How many kinds were written.
    pub count: usize,
}

/// `vk_grant`: a record of the lent list of grants. It may hold any words.
#[repr(C)]
#[derive(Clone, Copy, PartialEq, Eq, Hash, Debug, Default)]
pub struct Grant {
    /// The party, 1 to 65,535.
    pub party: u32,
    /// The number of the section's begin tag.
    pub section: u32,
    /// 1 read, 2 write, 4 insert, added up.
    pub rights: u32,
}

/// `vk_granted`. Where the refusal is not 0, the count is 0.
#[repr(C)]
#[derive(Clone, Copy, PartialEq, Eq, Debug)]
pub struct Granted {
    /// The number of the refusal, 0 where the call is accepted.
    pub refusal: u32,
    /// The new count.
    pub count: usize,
}

/// `vk_revoked`. Where the refusal is not 0, the number is 0.
#[repr(C)]
#[derive(Clone, Copy, PartialEq, Eq, Debug)]
pub struct Revoked {
    /// The number of the refusal, 0 where the call is accepted.
    pub refusal: u32,
    /// How many grants were taken out.
    pub revoked: usize,
}

reply!(
    /// `vk_party`.
    Party {
        /// 1 yes, 2 stale, 3 inserted.
        answer,
        /// These three as in [`Inserted`], 0 where nothing was inserted.
        first,
        /// How many unmarked tags that were there before have another label now.
        moved,
        /// The height of the node that was split, 0 where none was.
        split
    } 5
);

extern "C" {
    pub fn vk_load(
        s: u32,
        r: u32,
        book: u32,
        kinds: *const u8,
        kinds_len: usize,
        words: *mut u32,
        words_len: usize,
    ) -> Loaded;
    pub fn vk_insert(kind: u8, place: u32, words: *mut u32, words_len: usize) -> Inserted;
    pub fn vk_insert_sheet(
        kinds: *const u8,
        kinds_len: usize,
        place: u32,
        words: *mut u32,
        words_len: usize,
    ) -> Inserted;
    pub fn vk_mark(tag: u32, words: *mut u32, words_len: usize) -> Marked;
    pub fn vk_hold(tag: u32, words: *const u32, words_len: usize) -> Held;
    pub fn vk_question(
        book: u32,
        tag: u32,
        start: u32,
        end: u32,
        d: u32,
        words: *const u32,
        words_len: usize,
    ) -> Answered;
    pub fn vk_list(
        begin: u32,
        words: *const u32,
        words_len: usize,
        tags: *mut u32,
        tags_len: usize,
        labels: *mut u32,
        labels_len: usize,
    ) -> Listed;
    pub fn vk_write_file(words: *const u32, words_len: usize, bytes: *mut u8, bytes_len: usize) -> Written;
    pub fn vk_read_file(bytes: *const u8, bytes_len: usize, words: *mut u32, words_len: usize) -> Loaded;
    pub fn vk_load_with_grants(
        s: u32,
        r: u32,
        book: u32,
        kinds: *const u8,
        kinds_len: usize,
        words: *mut u32,
        words_len: usize,
        count: *mut usize,
    ) -> Loaded;
    pub fn vk_read_file_with_grants(
        bytes: *const u8,
        bytes_len: usize,
        words: *mut u32,
        words_len: usize,
        count: *mut usize,
    ) -> Loaded;
    pub fn vk_grant_add(
        party: u32,
        section: u32,
        rights: u32,
        grants: *mut Grant,
        grants_len: usize,
        count: *mut usize,
        words: *const u32,
        words_len: usize,
    ) -> Granted;
    pub fn vk_grant_revoke(
        party: u32,
        section: u32,
        grants: *mut Grant,
        grants_len: usize,
        count: *mut usize,
    ) -> Revoked;
    pub fn vk_party_call(
        party: u32,
        book: u32,
        tag: u32,
        start: u32,
        end: u32,
        d: u32,
        right: u32,
        kind: u8,
        grants: *const Grant,
        grants_len: usize,
        count: usize,
        words: *mut u32,
        words_len: usize,
    ) -> Party;
    pub fn vk_xml_kinds(text: *const u8, text_len: usize, kinds: *mut u8, kinds_len: usize) -> Kinds;
}
