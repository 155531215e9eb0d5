//! Files: the specimens of document 02, CR 3, worked out by hand.

use reference::{Fault, HEADER, Lapse, Loaded, RECORD, Refusal, Store, bytes_for};

const NONE: u32 = u32::MAX;

/// Bytes from their hexadecimal digits; spaces part what belongs together.
fn hex(digits: &str) -> Vec<u8> {
    let digits: Vec<u8> = digits.chars().filter_map(|it| it.to_digit(16)).map(|it| it as u8).collect();
    digits.chunks(2).map(|two| 16 * two[0] + two[1]).collect()
}

/// A record laid out by hand.
fn record(length: u32, kind: u16, words: &[u32]) -> Vec<u8> {
    let words = words.iter().flat_map(|word| word.to_le_bytes());
    length.to_le_bytes().into_iter().chain(kind.to_le_bytes()).chain(words).collect()
}

/// A file of these rows: s, r, H, n, first, book, stamp, and of each tag its number, label, next, prior, mate, up, kind.
fn file(header: [u32; 7], tags: &[[u32; 7]]) -> Vec<u8> {
    let tags: Vec<Vec<u8>> = tags.iter().map(|tag| record(30, 2, tag)).collect();
    [record(30, 1, &header), tags.concat(), record(6, 3, &[header[3]])].concat()
}

const EMPTY: &str = "1e000000 0100 02000000 02000000 01000000 00000000 ffffffff 07000000 00000000
    06000000 0300 00000000";

const PRINTED_HEADER: [u32; 7] = [2, 2, 2, 6, 0, 7, 0];
const PRINTED: [[u32; 7]; 6] = [
    [0, 0, 1, NONE, 5, NONE, 1],
    [1, 1, 2, 0, 2, 0, 1],
    [2, 3, 3, 1, 1, 0, 2],
    [3, 4, 4, 2, 4, 0, 1],
    [4, 6, 5, 3, 3, 0, 2],
    [5, 7, NONE, 4, 0, NONE, 2],
];

/// The printed book behind its two insertions.
const GROWN_HEADER: [u32; 7] = [2, 2, 3, 8, 0, 7, 2];
const GROWN: [[u32; 7]; 8] = [
    [0, 0, 1, NONE, 5, NONE, 1],
    [1, 1, 2, 0, 2, 0, 1],
    [2, 3, 7, 1, 1, 0, 2],
    [7, 4, 6, 2, 7, 0, 3],
    [6, 9, 3, 7, 6, 0, 3],
    [3, 10, 4, 6, 4, 0, 1],
    [4, 12, 5, 3, 3, 0, 2],
    [5, 13, NONE, 4, 0, NONE, 2],
];

fn printed_file() -> Vec<u8> {
    file(PRINTED_HEADER, &PRINTED)
}

fn printed() -> Store {
    let mut store = Store::new(vec![0; HEADER + RECORD * 6]);
    store.load(2, 2, 7, &[1, 1, 2, 1, 2, 2]).unwrap();
    store
}

fn grown(fault: Fault) -> Store {
    let mut store = Store::faulty(vec![0; HEADER + RECORD * 8], fault);
    store.load(2, 2, 7, &[1, 1, 2, 1, 2, 2]).unwrap();
    store.insert(3, 2).unwrap();
    store.insert(3, 2).unwrap();
    store
}

/// What writing into so many bytes replies, and the bytes, which were all 9.
fn written(store: &Store, lent: usize) -> (Result<u32, Refusal>, Vec<u8>) {
    let mut bytes = vec![9; lent];
    let reply = store.write_file(&mut bytes);
    (reply, bytes)
}

/// What reading into so many words replies, and the words, which were all 5.
fn read_into(lent: usize, file: &[u8], fault: Fault) -> (Result<(u32, u32), Refusal>, Vec<u32>) {
    let mut store = Store::faulty(vec![5; lent], fault);
    let reply = store.read_file(file).map(|Loaded { tags, height }| (tags, height));
    (reply, store.words)
}

fn refused(lent: usize, file: &[u8], refusal: Refusal) {
    assert_eq!(read_into(lent, file, Fault::None), (Err(refusal), vec![5; lent]), "{file:?}");
}

#[test]
fn the_empty_book() {
    let mut store = Store::new(vec![0; 8]);
    store.load(2, 2, 7, &[]).unwrap();
    assert_eq!(written(&store, 44), (Ok(44), hex(EMPTY)));
    assert_eq!(written(&store, 43), (Err(Refusal::ShortBytes), vec![9; 43]));
    assert_eq!(read_into(8, &hex(EMPTY), Fault::None), (Ok((0, 1)), store.words));
    refused(7, &hex(EMPTY), Refusal::FewWords);
    refused(7, &[], Refusal::NotAFile);
}

/// The printed load, byte by byte at its ends; what is lent past the file or the book stays.
#[test]
fn the_printed_load() {
    let (store, file) = (printed(), printed_file());
    assert_eq!(file.len(), bytes_for(6));
    assert_eq!(
        file[..68],
        hex("1e000000 0100 02000000 02000000 02000000 06000000 00000000 07000000 00000000
            1e000000 0200 00000000 00000000 01000000 ffffffff 05000000 ffffffff 01000000")
    );
    assert_eq!(file[238..], hex("06000000 0300 06000000"));
    assert_eq!(written(&store, 248), (Ok(248), file.clone()));
    assert_eq!(written(&store, 250), (Ok(248), [&file[..], &[9, 9]].concat()));
    assert_eq!(written(&store, 247), (Err(Refusal::ShortBytes), vec![9; 247]));
    assert_eq!(read_into(50, &file, Fault::None), (Ok((6, 2)), store.words.clone()));
    assert_eq!(read_into(51, &file, Fault::None), (Ok((6, 2)), [&store.words[..], &[5]].concat()));
    refused(49, &file, Refusal::FewWords);
}

/// In book order, and back by number; a store that was read goes on as the one that was written.
#[test]
fn the_printed_insertions() {
    let mut store = grown(Fault::None);
    let file = file(GROWN_HEADER, &GROWN);
    assert_eq!(written(&store, 316), (Ok(316), file.clone()));
    let (reply, words) = read_into(64, &file, Fault::None);
    assert_eq!((reply, &words), (Ok((8, 3)), &store.words));
    let mut again = Store::new(words);
    assert_eq!(again.mark(3), store.mark(3));
    assert_eq!(again, store);
}

#[test]
fn outside_the_form() {
    let file = printed_file();
    // A kind, with its high byte too, a length, and the two counts; of the header, of a tag and of the last record.
    for (at, byte) in [(4, 3), (5, 1), (0, 31), (3, 1), (18, 7), (38, 3), (34, 6), (242, 2), (238, 10), (244, 7)] {
        let mut damaged = file.clone();
        damaged[at] = byte;
        refused(50, &damaged, Refusal::NotAFile);
        // 15 comes before 1.
        refused(7, &damaged, Refusal::NotAFile);
    }
    (0..248).for_each(|len| refused(50, &file[..len], Refusal::NotAFile));
    (0..=255).for_each(|byte| refused(50, &[&file[..], &[byte]].concat(), Refusal::NotAFile));
    refused(50, &[&file[..], &file].concat(), Refusal::NotAFile);
    let no_tags = [&file[..34], &file[238..]].concat();
    refused(50, &no_tags, Refusal::NotAFile);
    // Both counts say 7, of six records; a record of no words at all.
    let mut seven = PRINTED_HEADER;
    seven[3] = 7;
    refused(99, &crate::file(seven, &PRINTED), Refusal::NotAFile);
    refused(50, &[&file[..238], &record(2, 3, &[])].concat(), Refusal::NotAFile);
}

#[test]
fn of_the_form_and_no_book() {
    let with = |change: fn(&mut [u32; 7], &mut [[u32; 7]; 6])| {
        let (mut header, mut tags) = (PRINTED_HEADER, PRINTED);
        change(&mut header, &mut tags);
        file(header, &tags)
    };
    for damaged in [
        with(|_, tags| tags.swap(3, 4)),
        with(|_, tags| tags[4] = tags[3]),
        with(|_, tags| tags[4][0] = 6),
        with(|_, tags| tags[4][0] = NONE),
        with(|_, tags| tags[5][1] = 8),
        with(|header, _| header[6] = 7),
        with(|header, _| header[4] = 1),
        with(|header, _| header[0] = 17),
        with(|header, _| header[2] = 3),
    ] {
        refused(50, &damaged, Refusal::NotSound);
        // 1 comes before 2.
        refused(49, &damaged, Refusal::FewWords);
    }
    let (reply, words) = read_into(50, &with(|header, _| header[6] = 6), Fault::None);
    assert_eq!((reply, words[7]), (Ok((6, 2)), 6));
}

/// A number twice, with links and mates that all agree: no tag has the number 2.
#[test]
fn a_number_that_comes_twice() {
    let tags = [[0, 0, 1, NONE, 0, NONE, 3], [1, 1, 1, 0, 1, NONE, 3], [1, 2, NONE, 1, 1, NONE, 3]];
    refused(29, &file([2, 2, 1, 3, 0, 7, 0], &tags), Refusal::NotSound);
    let tags = [[0, 0, 1, NONE, 0, NONE, 3], [1, 1, 2, 0, 1, NONE, 3], [2, 2, NONE, 1, 2, NONE, 3]];
    assert_eq!(read_into(29, &file([2, 2, 1, 3, 0, 7, 0], &tags), Fault::None).0, Ok((3, 1)));
}

/// A book of 200,001 texts that would be sound but for that: it has no number of its own.
#[test]
fn over_200_000_tags() {
    let most = 200_000;
    let mut store = Store::new(vec![0; HEADER + RECORD * most]);
    store.load(2, 2, 7, &vec![3; most]).unwrap();
    let mut bytes = written(&store, bytes_for(most)).1;
    assert_eq!(read_into(HEADER + RECORD * most, &bytes, Fault::None), (Ok((200_000, 17)), store.words.clone()));
    let (end, label) = (bytes.len() - 10, store.words[HEADER + RECORD * (most - 1)]);
    bytes[end - 34 + 14..][..4].copy_from_slice(&200_000u32.to_le_bytes());
    bytes.truncate(end);
    bytes[18..22].copy_from_slice(&200_001u32.to_le_bytes());
    bytes.extend(record(30, 2, &[200_000, label + 1, NONE, 199_999, 200_000, NONE, 3]));
    bytes.extend(record(6, 3, &[200_001]));
    let enough = HEADER + RECORD * (most + 1);
    assert_eq!(read_into(enough - 1, &bytes, Fault::None).0, Err(Refusal::FewWords));
    assert_eq!(read_into(enough, &bytes, Fault::None).0, Err(Refusal::NotSound));
}

#[test]
fn writing_in_the_order_1_2_16() {
    assert_eq!(written(&Store::new(vec![0; 7]), 0), (Err(Refusal::FewWords), vec![]));
    assert_eq!(written(&Store::new(vec![0; 8]), 0), (Err(Refusal::NotSound), vec![]));
    assert_eq!(written(&Store::new(vec![0; 8]), 44), (Err(Refusal::NotSound), vec![9; 44]));
    assert_eq!(written(&printed(), 0), (Err(Refusal::ShortBytes), vec![]));
}

/// Under each lapse something comes out otherwise: what is written, or what is read of a file that shows it.
#[test]
fn each_seeded_lapse_shows() {
    let empty = hex(EMPTY);
    let with = |at: usize, byte: u8| {
        let mut bytes = printed_file();
        bytes[at] = byte;
        bytes
    };
    let swapped = file(PRINTED_HEADER, &[3, 1, 2, 0, 4, 5].map(|i: usize| PRINTED[i]));
    let reads = |lapse, lent, bytes: &[u8]| {
        assert_ne!(read_into(lent, bytes, Fault::Misfiles(lapse)), read_into(lent, bytes, Fault::None), "{lapse:?}");
    };
    reads(Lapse::KindsTurned, 8, &empty);
    reads(Lapse::LengthOfWords, 8, &empty);
    reads(Lapse::MoreBehind, 8, &[&empty[..], &[0]].concat());
    reads(Lapse::HeaderCount, 50, &with(18, 5));
    reads(Lapse::LastCount, 50, &with(244, 5));
    reads(Lapse::AnyOrder, 50, &swapped);
    reads(Lapse::FirstWordStays, 8, &empty);
    reads(Lapse::WordsFirst, 7, &[]);
    reads(Lapse::SoundFirst, 49, &with(30, 7));
    reads(Lapse::DepthKept, 50, &printed_file());
    reads(Lapse::HeaderEarly, 50, &with(30, 7));
    let writes = |lapse, words: usize, lent| {
        let [wrong, right] = [Fault::Misfiles(lapse), Fault::None].map(|fault| {
            let store = grown(fault);
            written(&Store::faulty(store.words[..words].to_vec(), fault), lent)
        });
        assert_ne!(wrong, right, "{lapse:?}");
    };
    writes(Lapse::KindsTurned, 64, 316);
    writes(Lapse::LengthOfWords, 64, 316);
    writes(Lapse::ByNumber, 64, 316);
    writes(Lapse::StampLost, 64, 316);
    writes(Lapse::ByteLate, 64, 315);
    writes(Lapse::DepthKept, 64, 400);
    writes(Lapse::RoomFirst, 7, 43);
}
