//! The messages of documents 01 and 002, and of document 02's faults, Doubles
//! and dates, and keys, as byte strings with names.

use crate::rules::{POSITIONS, PREFIX};

/// The bytes of a line written as 002 writes them: octal as in C strings, and
/// a blank with a trailing `\` where the next line is joined on.
pub fn bytes_of(line: &str) -> Vec<u8> {
    let joined = line.replace(" \\\n", "");
    let mut rest = joined.as_bytes();
    let mut bytes = Vec::new();
    while let Some((&first, after)) = rest.split_first() {
        rest = after;
        if first != b'\\' {
            bytes.push(first);
            continue;
        }
        let is_octal = |digit: &&u8| (b'0'..=b'7').contains(*digit);
        let digits = rest.iter().take(3).take_while(is_octal).count();
        let value = rest[..digits]
            .iter()
            .fold(0, |value: u8, digit| value << 3 | (digit - b'0'));
        bytes.push(value);
        rest = &rest[digits..];
    }
    bytes
}

pub const ADD: &str = r"binmode-rpc:CU\003\0\0\0addA\002\0\0\0I\002\0\0\0I\002\0\0\0";

pub const FOUR: &str = r"binmode-rpc:RI\004\0\0\0";

pub const FAULT: &str = r"binmode-rpc:RFS\002\0\0\0 \
U\011\0\0\0faultCodeI\001\0\0\0 \
U\013\0\0\0faultStringU\021\0\0\0An error occurred";

/// Its members in the other order, the code's key recalled.
pub const FAULT_TURNED: &str = r"binmode-rpc:RFS\002\0\0\0 \
U\013\0\0\0faultString>\007\011\0\0\0faultCode \
<\007I\001\0\0\0";

pub const FOO_BAR_BAZ: &str = r"binmode-rpc:RA\006\0\0\0 \
>\000\003\0\0\0foo \
>\001\003\0\0\0bar \
<\000 \
>\000\003\0\0\0baz \
<\000 \
<\001";

pub const COPYRIGHT: &str = r"binmode-rpc:RU\042\0\0\0Copyright \302\251 1995 J. Random Hacker";

pub const MIXED: &str = r"binmode-rpc:RA\010\0\0\0 \
I\006\0\0\0 \
tf \
D\0042.75 \
8\02119980717T14:08:55 \
U\003\0\0\0foo \
B\003\0\0\0abc \
S\002\0\0\0U\003\0\0\0runt";

/// As it would be with the count that its pairs have.
pub const MIXED_WITH_ONE_PAIR: &str = r"binmode-rpc:RA\010\0\0\0 \
I\006\0\0\0 \
tf \
D\0042.75 \
8\02119980717T14:08:55 \
U\003\0\0\0foo \
B\003\0\0\0abc \
S\001\0\0\0U\003\0\0\0runt";

pub const OTHER_PREFIX: &str = r"binmode-rpc2:RI\004\0\0\0";

pub const STANDARD_NAME: &str = r"binmode-rpc:ROU\006\0\0\0stringB\003\0\0\0xyz";

pub const UNSET_RECALL: &str = r"binmode-rpc:R<\002";

pub const LATIN_ONE: &str = r"binmode-rpc:RU\041\0\0\0Copyright \251 1995 J. Random Hacker";

pub const OVERLONG: &str = r"binmode-rpc:RU\041\0\0\0Bad linefeed: \300\212 (too many bytes)";

pub const EMPTY_RECORDED: &str = r"binmode-rpc:RA\002\0\0\0>\0\0\0\0\0<\0";

pub const HUGE_COUNT: &str = r"binmode-rpc:RA\377\377\377\377";

pub const HUGE_COUNT_WITH_ITEM: &str = r"binmode-rpc:RA\377\377\377\377t";

/// Document 01's sender who uses a position again: an Array of so many texts,
/// each recorded and recalled at once, at positions 0 to 255 and from 0 again.
pub fn positions_used_again(texts: usize, length: usize) -> Vec<u8> {
    let strings = (2 * texts as u32).to_le_bytes();
    let mut message = [PREFIX, &b"RA"[..], &strings].concat();
    for number in 0..texts {
        let text = format!("{number:0length$}");
        let position = (number % POSITIONS) as u8;
        message.extend([b'>', position]);
        message.extend((text.len() as u32).to_le_bytes());
        message.extend(text.bytes());
        message.extend([b'<', position]);
    }
    message
}

/// How many texts, and of how many bytes: as many as there are positions; more,
/// with a written form that fits; and more, with one that is too long.
pub const USED_AGAIN: [(usize, usize); 3] = [(256, 200), (300, 100), (300, 200)];

/// All of them, in the papers' order, each with a table's number of words.
pub const ALL: [(&str, usize); 17] = [
    ("", 40),
    (OTHER_PREFIX, 40),
    (FOUR, 8),
    (ADD, 20),
    (FOO_BAR_BAZ, 40),
    (EMPTY_RECORDED, 16),
    (UNSET_RECALL, 40),
    (STANDARD_NAME, 40),
    (LATIN_ONE, 40),
    (OVERLONG, 40),
    (HUGE_COUNT, 8),
    (HUGE_COUNT_WITH_ITEM, 8),
    (FAULT, 24),
    (FAULT_TURNED, 24),
    (COPYRIGHT, 8),
    (MIXED, 16_384),
    (MIXED_WITH_ONE_PAIR, 48),
];

/// What a message goes on with after the prefix, a table's number of words,
/// the refusal and its place.
#[rustfmt::skip]
pub const EDGES: [(&[u8], usize, u8, usize); 110] = [
    // With no row left, 1 for no byte and 3 come first, then 9.
    (b"", 3, 1, 12),
    (b"x", 3, 3, 12),
    (b"R", 3, 9, 12),
    (b"Cx", 0, 9, 12),
    (b"R", 4, 1, 13),
    (b"Rx", 4, 3, 13),
    (b"RI", 4, 9, 13),
    (b"RF", 7, 1, 14),
    (b"RFA", 7, 3, 14),
    (b"RFS", 7, 9, 14),
    (b"RFS", 8, 1, 14),
    // Fields cut.
    (b"RI\0\0\0", 16_384, 1, 13),
    (b"RD", 16_384, 1, 13),
    (b"R8", 16_384, 1, 13),
    (b"RB\0\0\0", 16_384, 1, 13),
    (b"RA\0\0\0", 16_384, 1, 13),
    (b"RS\0\0\0", 16_384, 1, 13),
    (b"RU\0\0\0", 16_384, 1, 13),
    (b"R>", 16_384, 1, 13),
    (b"R>\0", 16_384, 1, 13),
    (b"R>\0\0\0\0", 16_384, 1, 13),
    (b"R<", 16_384, 1, 13),
    // Content is there before it is judged.
    (b"RU\x02\0\0\0\xff", 16_384, 1, 13),
    (b"RU\x01\0\0\0\xff", 16_384, 5, 13),
    (b"R>\0\x01\0\0\0\xff", 16_384, 5, 13),
    (b"RD\x02\xff", 16_384, 1, 13),
    (b"RD\x01\x80", 16_384, 5, 13),
    (b"R8\x01\x80", 16_384, 5, 13),
    (b"RB\xff\xff\xff\xff\0", 16_384, 1, 13),
    // Doubles and dates: their bytes are there, then ASCII, then right.
    (b"RD\0", 16_384, 17, 13),
    (b"RD\0", 4, 9, 13),
    (b"RD\x012", 16_384, 17, 13),
    (b"RD\x022.", 16_384, 17, 13),
    (b"RD\x02.5", 16_384, 17, 13),
    (b"RD\x03+.5", 16_384, 17, 13),
    (b"RD\x03--2", 16_384, 17, 13),
    (b"RD\x042.75", 4, 9, 13),
    (b"RD\x052.7.5", 16_384, 17, 13),
    (b"RD\x042,75", 16_384, 17, 13),
    (b"RD\x042.7\x80", 16_384, 5, 13),
    (b"RD\x05.7\x805", 16_384, 1, 13),
    (b"R8\0", 16_384, 17, 13),
    (b"R8\x1119980230T14:08:55", 16_384, 17, 13),
    (b"R8\x1119980717T24:00:00", 16_384, 17, 13),
    (b"R8\x1019980717T14:08:5", 16_384, 17, 13),
    (b"R8\x1119980230T14:08:\xff5", 16_384, 5, 13),
    (b"RA\x02\0\0\0D\x031.5D\x011", 16_384, 17, 23),
    // The parts of a Call and of a fault.
    (b"C", 16_384, 1, 13),
    (b"CI", 16_384, 3, 13),
    (b"CU\0\0\0\0", 16_384, 1, 18),
    (b"CU\0\0\0\0S", 16_384, 3, 18),
    (b"CU\0\0\0\0A", 16_384, 1, 18),
    (b"RR", 16_384, 3, 13),
    (b"RFF", 16_384, 3, 14),
    (b"RFS\x01\0\0\0I", 16_384, 3, 19),
    (b"RFS\x01\0\0\0U\0\0\0\0", 16_384, 1, 24),
    // A fault's members: none, one, three, other keys, other kinds.
    (b"RFS\0\0\0\0", 8, 14, 14),
    (b"RFS\x01\0\0\0U\x09\0\0\0faultCodeI\x01\0\0\0", 16, 14, 14),
    (b"RFS\x01\0\0\0U\x0b\0\0\0faultStringU\0\0\0\0", 16, 14, 14),
    (b"RFS\x03\0\0\0U\x09\0\0\0faultCodeI\x01\0\0\0U\x0b\0\0\0faultStringU\0\0\0\0U\0\0\0\0t", 32, 14, 14),
    (b"RFS\x03\0\0\0U\0\0\0\0tU\x09\0\0\0faultCodeI\x01\0\0\0U\x0b\0\0\0faultStringU\0\0\0\0", 32, 14, 14),
    (b"RFS\x02\0\0\0U\x09\0\0\0faultcodeI\x01\0\0\0U\x0b\0\0\0faultStringU\0\0\0\0", 24, 14, 14),
    (b"RFS\x02\0\0\0U\x09\0\0\0faultCodeI\x01\0\0\0U\x0c\0\0\0faultString U\0\0\0\0", 24, 14, 14),
    (b"RFS\x02\0\0\0U\x09\0\0\0faultCodetU\x0b\0\0\0faultStringU\0\0\0\0", 24, 14, 14),
    (b"RFS\x02\0\0\0U\x09\0\0\0faultCodeU\0\0\0\0U\x0b\0\0\0faultStringI\x01\0\0\0", 24, 14, 14),
    (b"RFS\x02\0\0\0U\x09\0\0\0faultCodeI\x01\0\0\0U\x0b\0\0\0faultStringA\0\0\0\0", 24, 14, 14),
    (b"RFS\x01\0\0\0U\x09\0\0\0faultCodeA\x02\0\0\0U\x0b\0\0\0faultStringU\0\0\0\0", 24, 14, 14),
    // What fails inside the Struct comes first.
    (b"RFS\x03\0\0\0U\x09\0\0\0faultCodeI\x01\0\0\0U\x0b\0\0\0faultStringU\0\0\0\0", 24, 1, 59),
    (b"RFS\x01\0\0\0U\x09\0\0\0faultCode<\0", 24, 6, 33),
    (b"RFS\x01\0\0\0U\x09\0\0\0faultCodeI\x01\0\0\0", 12, 9, 33),
    // The same key twice, in full, recorded or recalled: 20 at the second, and
    // before what comes behind it.
    (b"RS\x02\0\0\0U\x03\0\0\0pantU\x03\0\0\0pant", 16_384, 20, 27),
    (b"RS\x02\0\0\0>\0\x03\0\0\0pant<\0t", 16_384, 20, 28),
    (b"RS\x02\0\0\0>\0\x03\0\0\0pant>\0\x03\0\0\0pant", 16_384, 20, 28),
    (b"RS\x02\0\0\0U\x03\0\0\0pan>\0\x03\0\0\0pan<\0t", 16_384, 20, 35),
    (b"RS\x03\0\0\0U\x03\0\0\0pantU\x03\0\0\0pentU\x03\0\0\0pant", 16_384, 20, 36),
    (b"RS\x03\0\0\0U\x03\0\0\0pantU\x03\0\0\0pentU\x03\0\0\0pent", 16_384, 20, 36),
    (b"RS\x02\0\0\0U\0\0\0\0tU\0\0\0\0t", 16_384, 20, 24),
    (b"RS\x02\0\0\0>\0\0\0\0\0t<\0t", 16_384, 20, 25),
    (b"RS\xff\xff\xff\xffU\0\0\0\0tU\0\0\0\0", 16_384, 20, 24),
    (b"RS\x02\0\0\0U\x01\0\0\0atU\x01\0\0\0a", 16_384, 20, 25),
    (b"RS\x02\0\0\0U\x01\0\0\0atU\x01\0\0\0aX", 16_384, 20, 25),
    (b"RS\x02\0\0\0U\x01\0\0\0atU\x01\0\0\0a<\0", 16_384, 20, 25),
    (b"RS\x02\0\0\0U\x01\0\0\0atU\x01\0\0\0at", 20, 20, 25),
    (b"CU\x01\0\0\0aA\x01\0\0\0S\x02\0\0\0U\x01\0\0\0atU\x01\0\0\0at", 16_384, 20, 36),
    // What the second key itself gives comes first.
    (b"RS\x02\0\0\0U\x01\0\0\0at", 16_384, 1, 25),
    (b"RS\x02\0\0\0U\x01\0\0\0atU\x01\0\0\0", 16_384, 1, 25),
    (b"RS\x02\0\0\0U\x01\0\0\0atI\x01\0\0\0a", 16_384, 3, 25),
    (b"RS\x02\0\0\0U\x01\0\0\0atU\x01\0\0\0at", 16, 9, 25),
    (b"RS\x02\0\0\0U\x01\0\0\0atU\x01\0\0\0\xff", 16_384, 5, 25),
    (b"RS\x02\0\0\0U\x01\0\0\0at<\0t", 16_384, 6, 25),
    // A Struct in a Struct: the inner one's keys, and after it the outer one's.
    (b"RS\x01\0\0\0U\x01\0\0\0aS\x02\0\0\0U\x01\0\0\0btU\x01\0\0\0bt", 16_384, 20, 36),
    (b"RS\x02\0\0\0U\x01\0\0\0aS\x01\0\0\0U\x01\0\0\0btU\x01\0\0\0at", 16_384, 20, 36),
    (b"RS\x02\0\0\0U\x01\0\0\0aS\x02\0\0\0U\x01\0\0\0atU\x01\0\0\0btU\x01\0\0\0at", 16_384, 20, 43),
    // A fault with a key twice: before 14.
    (b"RFS\x02\0\0\0U\x09\0\0\0faultCodeI\x01\0\0\0U\x09\0\0\0faultCodeI\x01\0\0\0", 24, 20, 38),
    (b"RFS\x02\0\0\0>\0\x0b\0\0\0faultString<\0<\0<\0", 24, 20, 38),
    (b"RFS\x03\0\0\0>\0\x09\0\0\0faultCodeI\x01\0\0\0U\x0b\0\0\0faultStringU\0\0\0\0<\0I\x01\0\0\0", 32, 20, 60),
    (b"RFS\x03\0\0\0U\0\0\0\0tU\x01\0\0\0atU\0\0\0\0t", 32, 20, 32),
    // Others.
    (b"RO", 16_384, 1, 14),
    (b"ROB", 16_384, 3, 14),
    (b"ROU\x02\0\0\0i4", 8, 9, 14),
    (b"ROU\x02\0\0\0i\xff", 16_384, 5, 14),
    (b"RO<\0", 16_384, 6, 14),
    (b"ROU\x02\0\0\0i4", 12, 7, 13),
    (b"ROU\x02\0\0\0i8", 16_384, 1, 21),
    (b"ROU\x02\0\0\0i8U", 16_384, 3, 21),
    (b"ROU\x02\0\0\0i8B", 12, 9, 21),
    (b"RA\x02\0\0\0>\x07\x03\0\0\0intO<\x07", 16_384, 7, 27),
    // Positions.
    (b"RA\x02\0\0\0>\0\0\0\0\0<\x01", 16_384, 6, 24),
    (b"RA\x02\0\0\0U\x01\0\0\0a<\0", 16_384, 6, 24),
    (b"R<\xff", 16_384, 6, 13),
];
