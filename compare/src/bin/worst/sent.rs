//! Messages made to be slow, as a stranger may send them.

use crate::cases::List;
use crate::messages::{array, boolean, card, day, decimal, small_array, text};
use crate::spread::{KEY_BUCKETS, of_one_sum, picked};
use crate::tables::{FIRST_KEY, random_text};
use second::rules::{BYTE_LIMIT, PREFIX};

/// Messages of Binmode.
pub const MESSAGES: List<Vec<u8>> = &[
    ("card of 300 members", || card(300)),
    ("1,904 Structs recall a key of 51,909 bytes", || {
        chains(7, 272, &"a".repeat(51_909))
    }),
    ("1,984 Structs, 31 deep, recall a key of 51,500", || {
        chains(31, 64, &"a".repeat(51_500))
    }),
    ("1,904 Structs recall a key of any characters", || {
        chains(7, 272, &random_text(51_909))
    }),
    ("818 Structs of 2 keys of one sum, 28 KB", || {
        structs(818, 2, 28_240)
    }),
    ("124 Structs of 16 keys of one sum, 3.6 KB", || {
        structs(124, 16, 3_664)
    }),
    ("15 Structs of 128 keys of one sum, 448 bytes", || {
        structs(15, 128, 448)
    }),
    ("2,047 keys of 8 bytes picked, with Doubles", || {
        picked_with_doubles(2_047)
    }),
    ("a text of 54 KB, 1,362 Structs with a short key", || {
        after_text(1_362, 54_000, |index| {
            [&b"S\x01\0\0\0"[..], &short_key(index), b"t"].concat()
        })
    }),
    ("a text of 61 KB and 4,000 Booleans", || {
        after_text(4_000, 61_000, boolean)
    }),
    ("a text of 45 KB and 4,000 Doubles", || {
        after_text(4_000, 45_000, |_| b"D\x031.5".to_vec())
    }),
    ("4,000 Doubles", || array(4_000, decimal)),
    ("3,000 DateTimes", || array(3_000, day)),
    ("2,000 small Arrays", || array(2_000, small_array)),
    ("a text of 65,000 bytes of any characters", || {
        text(&random_text(65_000))
    }),
];

/// Messages of hyperglyph 1.0; those without nodes are glyph 0.5 too.
pub const GLYPHS: List<Vec<u8>> = &[
    ("an integer of 65,533 zeros", || {
        wrapped("i", "0", 65_533, ";")
    }),
    ("a list of 65,534 blanks", || {
        wrapped("L", " ", BYTE_LIMIT - 2, ";")
    }),
    ("2,000 integers of 30 zeros", || {
        wrapped("L", "i000000000000000000000000000000;", 2_000, ";")
    }),
    ("2,000 texts, 24 zeros in their lengths", || {
        wrapped("L", "u0000000000000000000000003:abc;", 2_000, ";")
    }),
    ("4,000 T with 13 blanks each", || {
        wrapped("L", "T;             ", 4_000, ";")
    }),
    ("1,000 extensions of empty dicts", || {
        wrapped("L", "Xu4:link;D;N;;", 1_000, ";")
    }),
];

fn wrapped(front: &str, middle: &str, times: usize, end: &str) -> Vec<u8> {
    [front, &middle.repeat(times), end].concat().into_bytes()
}

fn field(tag: u8, value: usize) -> Vec<u8> {
    [&[tag][..], &(value as u32).to_le_bytes()].concat()
}

/// A text that is also kept at a position.
fn kept(position: u8, text: &[u8]) -> Vec<u8> {
    let length = (text.len() as u32).to_le_bytes();
    [&[b'>', position][..], &length, text].concat()
}

/// A Response with an Array of so many items.
fn response(count: usize, items: &[u8]) -> Vec<u8> {
    [PREFIX, &b"R"[..], &field(b'A', count), items].concat()
}

/// So many chains, each of some Structs in one another: all have the one key,
/// which is sent once.
fn chains(deep: usize, count: usize, key: &str) -> Vec<u8> {
    let link = [field(b'S', 1), b"<\0".to_vec()].concat();
    let mut items = [field(b'S', 1), kept(0, key.as_bytes())].concat();
    items.extend(link.repeat(deep - 1));
    items.push(b't');
    for _ in 1..count {
        items.extend(link.repeat(deep));
        items.push(b't');
    }
    response(count, &items)
}

/// So many Structs that all have the same keys: these have one sum, and differ
/// at their ends alone.
fn structs(count: usize, keys: usize, length: usize) -> Vec<u8> {
    let mut items = field(b'S', keys);
    for (position, key) in of_one_sum(keys, length).iter().enumerate() {
        items.extend([kept(position as u8, key), b"t".to_vec()].concat());
    }
    for _ in 1..count {
        items.extend(field(b'S', keys));
        items.extend((0..keys).flat_map(|position| [b'<', position as u8, b't']));
    }
    response(count, &items)
}

/// A Struct whose keys have one bucket. A Double is read again for its tag, its
/// size and its content, if each comes by itself.
fn picked_with_doubles(count: usize) -> Vec<u8> {
    let mut value = field(b'S', count);
    for key in picked(count, 8, FIRST_KEY, KEY_BUCKETS) {
        value.extend(field(b'U', key.len()));
        value.extend([&key[..], b"D\x031.5"].concat());
    }
    [PREFIX, &b"R"[..], &value].concat()
}

/// A long text of any characters, and so many items behind it.
fn after_text(count: usize, bytes: usize, item: fn(usize) -> Vec<u8>) -> Vec<u8> {
    let text = random_text(bytes);
    let mut items = [field(b'U', text.len()), text.into_bytes()].concat();
    (0..count).for_each(|index| items.extend(item(index)));
    response(count + 1, &items)
}

/// A key of five bytes: sent once, and recalled from then on.
fn short_key(index: usize) -> Vec<u8> {
    match index {
        0 => kept(0, b"agent"),
        _ => b"<\0".to_vec(),
    }
}
