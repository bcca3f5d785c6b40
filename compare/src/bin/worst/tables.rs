//! Tables made to be slow, each against one way to be so.

use crate::cases::List;
use crate::spread::{KEY_BUCKETS, STRING_BUCKETS, picked};
use crate::table::{KEYS, MOST, Part, Table};
use second::rules::BYTE_LIMIT;

/// The row of the first key of a Struct in a Response, by which its keys' buckets
/// are chosen.
pub const FIRST_KEY: u64 = 2;

/// Strings, most of them long parts of the same text bytes.
pub const OF_STRINGS: List<Table> = &[
    ("Strings of 57 KB from every other byte on, é", || {
        long("é", 2)
    }),
    ("Strings of 61 KB from every byte on, equal", || {
        long("a", 1)
    }),
    ("equal Strings of 57,000 bytes, in one message", || {
        Table::strings(&[b'a'; BYTE_LIMIT], (0..MOST).map(|i| (i, 57_000)))
    }),
    ("Strings from each of 4,094 places to the end", to_the_end),
    ("Strings from the start to each of 4,094 places", || {
        let any = Characters::new();
        Table::strings(&any.text, (0..MOST).map(|i| (0, any.nth_last(i))))
    }),
    ("Strings that grow to both sides", growing),
    ("Strings before and behind a bad byte, by turns", || {
        parted(2)
    }),
    ("Strings between seven bad bytes, by turns", || parted(8)),
    ("long Strings, the last with a bad byte", spoilt),
    ("Strings of up to 511 bytes", || up_to(511)),
    ("Strings of 512 bytes or little more", || up_to(516)),
    ("125 Strings of 64 KB, each checked", || {
        let any = Characters::new();
        Table::strings(&any.text, (0..125).map(|i| any.from(i)))
    }),
    ("Strings of 61 KB that differ in one byte", || {
        Table::strings(&one_other(b'a', b"b", BYTE_LIMIT / 2), parts(1, MOST))
    }),
    ("Strings of 80 bytes that differ in their middle", middles),
    ("4,094 Strings of 10 bytes picked for one bucket", || {
        let texts = picked(MOST, 10, 0, STRING_BUCKETS);
        Table::strings(&texts.concat(), (0..MOST).map(|i| (10 * i, 10)))
    }),
    ("2,500 Strings of 20 bytes picked, the first again", || {
        let texts = picked(2_500, 20, 0, STRING_BUCKETS);
        let again = std::iter::repeat_n((0, 20), MOST - 2_500);
        let strings = (0..2_500).map(|i| (20 * i, 20)).chain(again);
        Table::strings(&texts.concat(), strings)
    }),
    ("4,094 Doubles of 255 bytes", || {
        Table::doubles(&b"1".repeat(253), MOST)
    }),
];

/// Keys.
pub const OF_KEYS: List<Table> = &[
    ("keys of 57 KB in A with one RRRR", || four_apart(KEYS)),
    ("256 keys of 57 KB in A with one RRRR", || four_apart(256)),
    ("keys of 63 KB that differ in one byte", || {
        Table::keys(&one_other(b'a', b"b", BYTE_LIMIT / 2), parts(1, KEYS))
    }),
    ("keys of 63 KB that differ at their ends", at_their_ends),
    ("keys of 63 KB that differ at their ends, shuffled", || {
        let text = one_other(b'a', b"b", BYTE_LIMIT - KEYS - 1);
        Table::keys(&text, shuffled(parts(1, KEYS)))
    }),
    ("keys of 32 KB, another byte each sixteen further", || {
        Table::keys(&one_other(b'a', b"b", BYTE_LIMIT / 2 - 1), parts(16, KEYS))
    }),
    ("keys of 61 KB, each a beginning of the one before", || {
        Table::keys(&[b'a'; BYTE_LIMIT], beginnings(1))
    }),
    ("keys of 61 KB, beginnings, shuffled", || {
        Table::keys(&[b'a'; BYTE_LIMIT], shuffled(beginnings(1)))
    }),
    ("keys of 61 KB, beginnings in abcabc, shuffled", || {
        let text: Vec<u8> = b"abc".iter().copied().cycle().take(BYTE_LIMIT).collect();
        Table::keys(&text, shuffled(beginnings(3)))
    }),
    ("keys of 43 KB, beginnings ten apart, shuffled", || {
        Table::keys(&[b'a'; BYTE_LIMIT], shuffled(beginnings(10)))
    }),
    ("keys of 63 KB from one place, shuffled", || {
        let lengths = (0..KEYS).map(|i| (0, BYTE_LIMIT - i));
        Table::keys(&[b'a'; BYTE_LIMIT], shuffled(lengths))
    }),
    ("keys in Fibonacci's word, shuffled", || {
        Table::keys(&fibonacci(), shuffled(beginnings(1)))
    }),
    ("keys of 8 bytes, not picked", || {
        let text: String = (0..KEYS).map(|i| format!("key {i:04}")).collect();
        Table::keys(text.as_bytes(), (0..KEYS).map(|i| (8 * i, 8)))
    }),
    ("keys of 8 bytes picked for one bucket", || picked_keys(8)),
    ("keys of 20 bytes picked for one bucket", || picked_keys(20)),
    ("keys of 26 bytes picked for one bucket", || picked_keys(26)),
    ("keys and texts of 11 bytes picked for one bucket", || {
        let texts = picked(2 * KEYS, 11, FIRST_KEY, KEY_BUCKETS);
        Table::keys_and_texts(&texts.concat(), (0..2 * KEYS).map(|i| (11 * i, 11)))
    }),
    ("240 Structs of 8 keys of 8 KB, backwards", || {
        Table::structs(&[b'a'; BYTE_LIMIT], 240, 8, |i| (i, 8_100 - i % 8))
    }),
    ("1,904 Structs, each with its key of 63 KB", || {
        let text = one_other(b'a', b"b", BYTE_LIMIT / 2);
        Table::chains(&text, 7, |i| (i, BYTE_LIMIT - KEYS))
    }),
    ("1,904 Structs with equal keys of 61 KB", || {
        Table::chains(&[b'a'; BYTE_LIMIT], 7, |i| (i, 61_000))
    }),
];

/// Parts of equal length, each so many bytes behind the one before.
fn parts(apart: usize, count: usize) -> impl Iterator<Item = Part> {
    (0..count).map(move |i| (apart * i, BYTE_LIMIT - apart * count))
}

/// Parts of text bytes that repeat after so many: each is a beginning of the one before.
fn beginnings(period: usize) -> impl Iterator<Item = Part> {
    (0..KEYS).map(move |i| (period * i, BYTE_LIMIT - KEYS * period - i))
}

/// In another order, the same in every run.
fn shuffled(parts: impl Iterator<Item = Part>) -> impl Iterator<Item = Part> {
    let mut parts: Vec<Part> = parts.collect();
    let mut state = 2_463_534_242;
    for last in (1..parts.len()).rev() {
        parts.swap(last, random(&mut state) as usize % (last + 1));
    }
    parts.into_iter()
}

/// All one letter but for a word at a place.
fn one_other(letter: u8, word: &[u8], at: usize) -> Vec<u8> {
    let mut text = vec![letter; BYTE_LIMIT];
    text[at..at + word.len()].copy_from_slice(word);
    text
}

/// Keys four bytes apart; the word is the last of the first key. With a sum
/// modulo 2^32 - 1 and a factor that is a multiple of 15 all had one bucket.
fn four_apart(count: usize) -> Table {
    let length = BYTE_LIMIT - 8_192;
    let text = one_other(b'A', b"RRRR", length - 4);
    Table::keys(&text, (0..count).map(|i| (4 * i, length)))
}

fn at_their_ends() -> Table {
    let text = one_other(b'a', b"b", BYTE_LIMIT - KEYS - 1);
    Table::keys(&text, parts(1, KEYS))
}

fn picked_keys(length: usize) -> Table {
    let keys = picked(KEYS, length, FIRST_KEY, KEY_BUCKETS);
    Table::keys(&keys.concat(), (0..KEYS).map(|i| (length * i, length)))
}

/// Texts whose first 64 and last 16 bytes are the same, as far as there is room
/// for them in a message, and again.
fn middles() -> Table {
    let count = 720;
    let text: String = (0..count)
        .map(|i| format!("{:a<65}{i:03}{:b<17}", "", ""))
        .collect();
    Table::strings(text.as_bytes(), (0..MOST).map(|i| (85 * (i % count), 85)))
}

/// abaababaabaab..: parts of it have long beginnings in common, of all lengths.
fn fibonacci() -> Vec<u8> {
    let (mut shorter, mut longer) = (b"a".to_vec(), b"ab".to_vec());
    while longer.len() < BYTE_LIMIT {
        let next = [&longer[..], &shorter].concat();
        (shorter, longer) = (longer, next);
    }
    longer.truncate(BYTE_LIMIT);
    longer
}

/// Strings of equal length in one character again and again.
fn long(character: &str, width: usize) -> Table {
    let text = character.repeat(BYTE_LIMIT / width);
    Table::strings(text.as_bytes(), parts(width, MOST))
}

fn to_the_end() -> Table {
    let any = Characters::new();
    Table::strings(&any.text, (0..MOST).map(|i| any.from(i)))
}

/// Strings of at most so many bytes.
fn up_to(most: usize) -> Table {
    let any = Characters::new();
    let strings = (0..MOST).map(|i| {
        let (from, _) = any.from(7 * i % any.starts.len());
        (from, any.length_up_to(from, most))
    });
    Table::strings(&any.text, strings)
}

/// Strings around the middle, each with one character more on each side.
fn growing() -> Table {
    let any = Characters::new();
    let middle = any.starts.len() / 2;
    let strings = (0..MOST).map(|i| {
        let more = i + middle - 2 - MOST;
        let from = any.starts[middle - 1 - more];
        (from, any.starts[middle + 1 + more] - from)
    });
    Table::strings(&any.text, strings)
}

/// Strings in so many parts of the text by turns, with a bad byte between two.
fn parted(parts: usize) -> Table {
    let Characters { mut text, starts } = Characters::new();
    let each = starts.len() / parts;
    let bad: Vec<usize> = (1..=parts).map(|part| starts[part * each - 1]).collect();
    for &at in &bad {
        text[at] = 0xff;
    }
    let strings = (0..MOST).map(|i| {
        let from = starts[i % parts * each + i / parts % (each / 2)];
        (from, bad[i % parts] - from)
    });
    Table::strings(&text, strings)
}

/// Long Strings, the last of which has a bad byte at its end.
fn spoilt() -> Table {
    let Characters { mut text, starts } = Characters::new();
    let end = starts[starts.len() - 2];
    text[end] = 0xff;
    let strings = (0..MOST).map(|i| {
        let from = starts[i];
        (from, end - from + usize::from(i == MOST - 1))
    });
    Table::strings(&text, strings)
}

/// Text bytes of characters of any width, and where these begin; the last is
/// where they end.
struct Characters {
    text: Vec<u8>,
    starts: Vec<usize>,
}

impl Characters {
    fn new() -> Self {
        let text = random_text(BYTE_LIMIT);
        let starts = text.char_indices().map(|(at, _)| at);
        Characters {
            starts: starts.chain([text.len()]).collect(),
            text: text.into_bytes(),
        }
    }

    /// From a character to the end.
    fn from(&self, character: usize) -> Part {
        let from = self.starts[character];
        (from, self.text.len() - from)
    }

    fn nth_last(&self, character: usize) -> usize {
        self.starts[self.starts.len() - 1 - character]
    }

    /// The length of the longest text from a place on that has so many bytes at most.
    fn length_up_to(&self, from: usize, most: usize) -> usize {
        let behind = self.starts.partition_point(|&at| at <= from + most);
        self.starts[behind - 1] - from
    }
}

/// Characters of one to four bytes, at random, but the same in every run.
pub fn random_text(bytes: usize) -> String {
    let mut state = 2_463_534_242;
    let mut text = String::new();
    loop {
        let character = ['n', 'é', '€', '😀'][(random(&mut state) >> 11) as usize % 4];
        if text.len() + character.len_utf8() > bytes {
            return text;
        }
        text.push(character);
    }
}

fn random(state: &mut u32) -> u32 {
    *state ^= *state << 13;
    *state ^= *state >> 17;
    *state ^= *state << 5;
    *state
}
