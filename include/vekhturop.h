/* Vekhturop: a verified label store, for C and C++.
 *
 * A book is a row of tags (begins, ends, texts). Each tag has a number for life and a label for now; labels rise along the
 * book. A tag number is an index, a label is only compared: never pass one as the other. Seven calls are on a store; two
 * more, vk_write_file and vk_read_file, keep its book as the bytes of a file; five are for a store that parties have rights
 * on; and vk_xml_kinds reads the kinds that a book is loaded from, or that vk_insert_sheet puts into one, out of a sheet of
 * XML.
 *
 * WORDS. A store lives in words that the caller lends to each call: 8 + 7n of them for n tags, VK_WORDS(n). Nothing else
 * is kept between calls, nothing is allocated, and the words may be copied as they are.
 *   words 0 to 7        1; s; r; height H; tags issued n; first tag or VK_NO_TAG; book number; stamp (changes since load)
 *   seven a tag, from 0 label; next; prior; mate; up; kind (1 begin, 2 end, 3 text; 17, 18, 19 the same when marked);
 *                       depth, the number of elements around the tag, the same for begin and end
 * Every call on a store but vk_load and vk_read_file first checks that the words say a sound one, in one pass over all tags.
 *
 * FILES. The bytes of a book are the same on every machine: records, each a 32-bit length of what follows it, a 16-bit kind,
 * then words, all little-endian. 44 + 34n of them for n tags, VK_FILE_BYTES(n).
 *   kind 1, length 30   s; r; H; n; first tag or VK_NO_TAG; book number; stamp
 *   kind 2, length 30   a tag's number; label; next; prior; mate; up; kind: one record a tag, in book order. Its depth is
 *                       not in the file: vk_read_file works it out
 *   kind 3, length 6    n; this record is the last
 * A book that was written reads back to the same words, and no two files read as the same book.
 *
 * RIGHTS. A grant says what a party, a number from 1 to 65,535, may do on a section: VK_READ, VK_WRITE, VK_INSERT, added up.
 * Grants stand in a list that the caller lends, with a count beside it: the live ones are the first `count` records. Records
 * after them, and what stands in live ones, are the caller's: any words are taken. A grant gives a right where its rights,
 * divided by that right, are odd. vk_grant_add and vk_grant_revoke change the list, vk_party_call acts for a party.
 * A grant names its section by the number of its begin tag, and in a new book that number is another tag's. Whoever keeps
 * grants therefore loads and reads files by vk_load_with_grants and vk_read_file_with_grants, which end all of them.
 *
 * REPLIES. The first field of every reply is the refusal: 0 where the call is accepted. Where it is not 0, every other
 * field is 0 and no lent word or byte is changed. An accepted call changes no word or byte after those it writes.
 *
 * POINTERS. Each pointer is followed by how many elements it points to. It must be aligned and must not be null, even where
 * that number is 0; what a call writes must not overlap anything else that is lent to it. Calls that are lent nothing in
 * common may run at the same time; so may calls that take what they have in common as const.
 *
 * Build:  ./install PREFIX   in the repository, then   cc .. $(pkg-config --cflags --libs vekhturop)
 * The library is for x86-64 Linux and needs the C library alone. docs/STORE.md is the manual.
 */
#ifndef VEKHTUROP_H
#define VEKHTUROP_H

#include <stddef.h>
#include <stdint.h>

#ifdef __cplusplus
extern "C" {
#endif

/* How many words a store of n tags needs. */
#define VK_WORDS(n) ((size_t)8 + (size_t)7 * (size_t)(n))

/* Where the depth of a tag below n stands in the words. */
#define VK_DEPTH_AT(tag) ((size_t)14 + (size_t)7 * (size_t)(tag))

/* How many bytes the file of a book of n tags has. */
#define VK_FILE_BYTES(n) ((size_t)44 + (size_t)34 * (size_t)(n))

/* The most tags of a book, marked ones counted. */
#define VK_MOST_TAGS 200000

/* Stands for no tag; as a place of vk_insert and vk_insert_sheet, and to vk_list, it is the front of the book. */
#define VK_NO_TAG UINT32_C(4294967295)
#define VK_FRONT VK_NO_TAG

/* The greatest number of a party; the least is 1. */
#define VK_MOST_PARTY 65535

/* Rights, which are added up in a grant; a party's call brings one. */
#define VK_READ 1
#define VK_WRITE 2
#define VK_INSERT 4

/* The most elements of a sheet that are open at once. */
#define VK_MOST_DEEP 64

/* Kinds of tags, as vk_load, vk_insert and vk_insert_sheet take them and vk_xml_kinds writes them. */
#define VK_BEGIN 1
#define VK_END 2
#define VK_TEXT 3

/* Refusals. "All" are the seven calls on a store; where insert is named, vk_insert_sheet is meant too, where load and read_file
 * are, those with grants too. A party's call has the question's, and with VK_INSERT the insertion's. */
#define VK_ACCEPTED 0
#define VK_TOO_FEW_WORDS 1   /* all, write_file, grant_add: under 8 words; load, read_file: under 8 + 7n */
#define VK_NOT_SOUND 2       /* all but load, write_file, grant_add: the words say no sound store; read_file: the file says none */
#define VK_DEGREE 3          /* load: s or r outside 2 to 16 */
#define VK_KIND 4            /* load, insert: a kind not allowed there */
#define VK_NESTING 5         /* load, insert_sheet: kinds not properly nested */
#define VK_TOO_MANY_TAGS 6   /* load, insert: over 200,000 tags; insert: also too few words for the new tags */
#define VK_OUT_OF_LABELS 7   /* load: b^H > 2^32, where b = s*r - 1; insert of k tags: n + k >= s*r^H and b^h > 2^32, where h
                                is the least height with n + k < s*r^h, H + 1 for a text or an element */
#define VK_NO_SUCH_TAG 8     /* all but load, grant_add: the tag is not below n (VK_FRONT is allowed on insert and list) */
#define VK_TAG_MARKED 9      /* all but load, grant_add: the tag is marked */
#define VK_NOT_A_SECTION 10  /* mark, hold: an end tag; question, list, grant_add: an end tag or a text */
#define VK_LIST_TOO_SHORT 11 /* list, xml_kinds: a lent list is shorter than the count */
#define VK_NOT_A_SHEET 12    /* xml_kinds: the text is not in the grammar */
#define VK_TOO_DEEP 13       /* xml_kinds: a whole tag would open a 65th element */
#define VK_NOT_READ 14       /* xml_kinds: a construct begins with <? or <!DOCTYPE */
#define VK_NOT_A_FILE 15     /* read_file: the lengths, kinds or counts of the records are not a file's */
#define VK_TOO_FEW_BYTES 16  /* write_file: under 44 + 34n bytes */
#define VK_OUT_OF_RANGE 17   /* grant_add, grant_revoke, party_call: a party outside 1 to 65,535, or a count above the list;
                                grant_add: rights outside 1 to 7; party_call: a right that is not 1, 2 or 4 */
#define VK_NOT_ALLOWED 18    /* party_call: no grant, or not inside the section */
#define VK_GRANTS_FULL 19    /* grant_add: the count is the list's length */

/* Answers of vk_question; of vk_party_call never VK_NO, but VK_INSERTED. */
#define VK_NO 0
#define VK_YES 1
#define VK_STALE 2
#define VK_INSERTED 3

typedef struct vk_loaded {
    uint32_t refusal;
    uint32_t tags;   /* n */
    uint32_t height; /* H */
} vk_loaded;

typedef struct vk_inserted {
    uint32_t refusal;
    uint32_t first; /* the number of the first new tag; the others have the next ones, an element's end too */
    uint32_t moved; /* how many unmarked tags that were there before have another label now */
    uint32_t split; /* the height of the node that was split, 0 where none was; of more than one, the greatest */
} vk_inserted;

typedef struct vk_marked {
    uint32_t refusal;
    uint32_t marked; /* how many tags became marked */
} vk_marked;

typedef struct vk_held {
    uint32_t refusal;
    uint32_t book;  /* the book's number */
    uint32_t tag;   /* the section's begin tag, or the text */
    uint32_t start; /* the label of the section's begin */
    uint32_t end;   /* the label of its end; a text's own label */
} vk_held;

typedef struct vk_answered {
    uint32_t refusal;
    uint32_t answer; /* VK_NO, VK_YES or VK_STALE */
} vk_answered;

typedef struct vk_listed {
    uint32_t refusal;
    uint32_t count; /* how many tags were written */
} vk_listed;

typedef struct vk_written {
    uint32_t refusal;
    uint32_t bytes; /* how many bytes the file has */
} vk_written;

typedef struct vk_kinds {
    uint32_t refusal;
    size_t count; /* how many kinds were written */
} vk_kinds;

/* A record of the lent list of grants. */
typedef struct vk_grant {
    uint32_t party;
    uint32_t section; /* the number of the section's begin tag */
    uint32_t rights;  /* VK_READ, VK_WRITE, VK_INSERT, added up */
} vk_grant;

typedef struct vk_granted {
    uint32_t refusal;
    size_t count; /* the new count */
} vk_granted;

typedef struct vk_revoked {
    uint32_t refusal;
    size_t revoked; /* how many grants were taken out */
} vk_revoked;

typedef struct vk_party {
    uint32_t refusal;
    uint32_t answer; /* VK_YES, VK_STALE or VK_INSERTED */
    uint32_t first;  /* these three as in vk_inserted, 0 where nothing was inserted */
    uint32_t moved;
    uint32_t split;
} vk_party;

/* Makes the words a store over kinds (VK_BEGIN, VK_END, VK_TEXT in book order), whatever the words held before. The tag
 * numbers are 0, 1, 2 .. in that order. s and r (2 to 16 each) are the tree's degrees, book is any number of the caller's.
 * Refusals, in the order in which they are tested: 3, 6, 1, 4, 5, 7. */
vk_loaded vk_load(uint32_t s, uint32_t r, uint32_t book, const uint8_t *kinds, size_t kinds_len, uint32_t *words,
                  size_t words_len);

/* Inserts an element (VK_BEGIN: a begin, and its end after it) or a text (VK_TEXT) right after the tag `place`, or at the
 * front of the book (VK_FRONT). New tags take the next numbers. Refusals: 1, 2, 4, 8, 9, 6, 7. */
vk_inserted vk_insert(uint8_t kind, uint32_t place, uint32_t *words, size_t words_len);

/* Inserts a whole sheet: the tags of kinds (VK_BEGIN, VK_END, VK_TEXT), in their order, right after the tag `place`, or at
 * the front of the book (VK_FRONT). The labels are those that single insertions give, each tag after the one before; mates
 * and ups follow the nesting of the kinds, and the top of the sheet has the up that a text at the place would have. New tags
 * take the next numbers in the order of the kinds. The stamp rises by 1, however many they are. The call walks over the book
 * once, where single insertions walk over it once each. With kinds_len 0 an accepted call changes no word, not the stamp
 * either, and replies the number of tags, 0 and 0.
 * Refusals, in the order in which they are tested: 1, 2, 4, 5, 8, 9, 6, 7. */
vk_inserted vk_insert_sheet(const uint8_t *kinds, size_t kinds_len, uint32_t place, uint32_t *words, size_t words_len);

/* Marks a text, or an element by its begin with all that is inside it. Labels stay. Refusals: 1, 2, 8, 9, 10. */
vk_marked vk_mark(uint32_t tag, uint32_t *words, size_t words_len);

/* The held pair of an element, by its begin, or of a text. Refusals: 1, 2, 8, 9, 10. */
vk_held vk_hold(uint32_t tag, const uint32_t *words, size_t words_len);

/* Whether the element of a held pair (book, tag, start, end as vk_hold replied them) encloses tag d. Its own two tags give
 * VK_NO. VK_STALE: the pair is of another book, a label of it has changed, or its element is marked: hold it again.
 * In order: 1, 2, stale (book), 8 (tag, then d), 10, stale (labels, marked), 9 (d), then yes or no. */
vk_answered vk_question(uint32_t book, uint32_t tag, uint32_t start, uint32_t end, uint32_t d, const uint32_t *words,
                        size_t words_len);

/* The unmarked tags strictly inside the element of a begin, or of the whole book (VK_FRONT), in book order: numbers into
 * tags, labels into labels. Elements after them stay as they are. Refusals: 1, 2, 8, 9, 10, 11. */
vk_listed vk_list(uint32_t begin, const uint32_t *words, size_t words_len, uint32_t *tags, size_t tags_len,
                  uint32_t *labels, size_t labels_len);

/* Writes the book of the words as a file. Bytes after it stay as they are. VK_FILE_BYTES(n) bytes suffice for a book of n
 * tags. It takes no more stack than the calls above, under 10 KB. Refusals: 1, 2, 16. */
vk_written vk_write_file(const uint32_t *words, size_t words_len, uint8_t *bytes, size_t bytes_len);

/* Makes the words the store of a file, whatever they held before, its stamp too; words after it stay as they are. The bytes
 * must be the whole file and nothing after it: where they came out of a longer buffer, lend as many as writing replied.
 * Refusals: 15, by the bytes alone; 1; then 2, which is everything else: also tags out of order, doubled or unknown, and
 * over VK_MOST_TAGS of them. A file is judged before a word is written. For that the call takes about 32 KB of stack, and
 * about 0.43 MB for a file in which more than 1,024 begins are open at once. */
vk_loaded vk_read_file(const uint8_t *bytes, size_t bytes_len, uint32_t *words, size_t words_len);

/* vk_load, and vk_read_file, for whoever keeps grants: an accepted call sets the count to 0, whatever it was, also above the
 * list's length; a refused one leaves it. */
vk_loaded vk_load_with_grants(uint32_t s, uint32_t r, uint32_t book, const uint8_t *kinds, size_t kinds_len, uint32_t *words,
                              size_t words_len, size_t *count);
vk_loaded vk_read_file_with_grants(const uint8_t *bytes, size_t bytes_len, uint32_t *words, size_t words_len, size_t *count);

/* Grants a party rights on the section of an unmarked begin: the record goes to place *count of the list, and the new count is
 * replied and written. The same grant may stand there twice. No word of the store is written.
 * Refusals, in the order in which they are tested: 17, 1, 2, 8, 9, 10, 19. */
vk_granted vk_grant_add(uint32_t party, uint32_t section, uint32_t rights, vk_grant *grants, size_t grants_len, size_t *count,
                        const uint32_t *words, size_t words_len);

/* Takes out every live grant of a party on a section, and replies how many, 0 too. The others move up in order, the count is
 * lowered, and records from the new count on stay as they were. It looks at no store: any section number may be named.
 * Refusal: 17. */
vk_revoked vk_grant_revoke(uint32_t party, uint32_t section, vk_grant *grants, size_t grants_len, size_t *count);

/* A call of a party, which shows a held pair (book, tag, start, end as vk_hold replied them), a tag d and one right; kind is
 * looked at with VK_INSERT alone. It is allowed where some live grant of the party on the pair's section gives the right, and
 * vk_question would reply VK_YES for d; with VK_INSERT also where d is the section's own begin, so that something goes right
 * after it. With VK_INSERT the text (VK_TEXT) or element (VK_BEGIN) is then inserted after d, as vk_insert does it; with any
 * other right nothing is written, and VK_YES is replied. An insertion may make the pair stale, also the party's own.
 * In order: 17; 1, 2, stale, 8, 10, stale, 9 as in vk_question; 18 where it is not allowed; with VK_INSERT 4, 6, 7. */
vk_party vk_party_call(uint32_t party, uint32_t book, uint32_t tag, uint32_t start, uint32_t end, uint32_t d, uint32_t right,
                       uint8_t kind, const vk_grant *grants, size_t grants_len, size_t count, uint32_t *words,
                       size_t words_len);

/* Reads a sheet and writes its kinds (VK_BEGIN, VK_END, VK_TEXT) in book order; bytes after them stay as they are. A list
 * of text_len bytes suffices for every sheet. There is no limit of VK_MOST_TAGS here: vk_load and vk_insert_sheet have it.
 * A sheet is XML 1.0 (fifth edition) cut down to its content: data, the references &lt; &gt; &amp; &apos; &quot;, CDATA
 * sections, comments and elements, in any number, of the bytes 9, 10, 13 and 32 to 127. A text is a longest run of data,
 * references and CDATA sections, blank ones too; tags and comments end it. The empty sheet has no kinds.
 * Refusals: 12, 13 and 14, by the first construct that cannot be completed or does not fit, and nothing after it counts;
 * 12 at the end of the text, where an element is still open; then 11.
 * The call takes about 18 KB of stack, and 47 KB where 64 elements are open. Its time goes by the length of the text, but for a
 * tag of n attributes, which may take n * n / 1024 searches for repeated names: a sheet of 1 MB that is one tag takes as long as
 * some 40 usual ones of 1 MB, whatever the names and values are. */
vk_kinds vk_xml_kinds(const uint8_t *text, size_t text_len, uint8_t *kinds, size_t kinds_len);

#ifdef __cplusplus
}
#endif

#endif
