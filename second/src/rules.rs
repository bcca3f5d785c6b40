//! The fixed numbers and names of the format: limits, row kinds, refusals; and
//! what the rules say of names, of a fault's members, of Doubles and of dates.

use crate::layout::Rows;

/// Most bytes in a message, and in the bytes a writer's texts lie in.
pub const BYTE_LIMIT: usize = 65_536;
/// Most rows in a table.
pub const ROW_LIMIT: usize = 4_096;
/// The highest limit of nesting that may be stated: on the Arrays and Structs
/// that an Array or Struct stands in, itself counted.
pub const NESTING_LIMIT: usize = 32;
/// The limit of a call that states none.
pub const USUAL_LIMIT: usize = 8;
/// Positions in the codebook.
pub const POSITIONS: usize = 256;
/// Most bytes in a Double or DateTime.
pub const SIZE_LIMIT: u32 = 255;
/// Words in a row.
pub const ROW_WORDS: usize = 4;

/// What every message begins with.
pub const PREFIX: &[u8; 12] = b"binmode-rpc:";

/// The names an Other may not have.
pub const STANDARD_NAMES: [&[u8]; 9] = [
    b"i4",
    b"int",
    b"boolean",
    b"string",
    b"double",
    b"dateTime.iso8601",
    b"base64",
    b"struct",
    b"array",
];

/// Whether an Other may not have this name.
pub fn is_standard_name(name: &[u8]) -> bool {
    STANDARD_NAMES.contains(&name)
}

/// The members of a fault's Struct, by their keys and the kinds of their
/// values.
pub const FAULT_MEMBERS: [(&[u8], u32); 2] = [
    (b"faultCode", kind::INTEGER),
    (b"faultString", kind::STRING),
];

/// Whether the Struct in row 1 has the members of a fault and no other. Its
/// rows are sound, and the texts of its keys lie in `text`.
pub fn has_fault_members(rows: impl Rows, text: &[u8]) -> bool {
    let [_, _, pairs, _] = rows.at(1);
    let mut members = Vec::new();
    let mut key = 2;
    for _ in 0..pairs {
        let [_, offset, length, _] = rows.at(key);
        let [kind, _, _, end] = rows.at(key + 1);
        members.push((&text[offset as usize..][..length as usize], kind));
        key = end as usize;
    }
    members.sort();
    members == FAULT_MEMBERS
}

/// Whether ASCII bytes are a Double's: an optional sign, one digit or more, a
/// point, one digit or more.
pub fn is_double(text: &[u8]) -> bool {
    let unsigned = match text {
        [b'+' | b'-', rest @ ..] => rest,
        _ => text,
    };
    let is_number = |part: &[u8]| !part.is_empty() && part.iter().all(u8::is_ascii_digit);
    let mut parts = unsigned.split(|&byte| byte == b'.');
    match (parts.next(), parts.next(), parts.next()) {
        (Some(whole), Some(fraction), None) => is_number(whole) && is_number(fraction),
        _ => false,
    }
}

/// How a DateTime's bytes stand, with `0` for any digit.
const DATE_TIME: &[u8; 17] = b"00000000T00:00:00";

/// Whether ASCII bytes are a DateTime's, as `19980717T14:08:55` is: a day that
/// the calendar has, and a time of that day.
pub fn is_date_time(text: &[u8]) -> bool {
    let stands = |(&byte, &form): (&u8, &u8)| match form {
        b'0' => byte.is_ascii_digit(),
        _ => byte == form,
    };
    if text.len() != DATE_TIME.len() || !text.iter().zip(DATE_TIME).all(stands) {
        return false;
    }
    let number = |digits: &[u8]| {
        let add = |number, digit: &u8| 10 * number + u32::from(digit - b'0');
        digits.iter().fold(0, add)
    };
    let (year, month, day) = (number(&text[..4]), number(&text[4..6]), number(&text[6..8]));
    let [hour, minute, second] = [9, 12, 15].map(|place| number(&text[place..place + 2]));
    (1..=12).contains(&month)
        && (1..=days_of(year, month)).contains(&day)
        && hour <= 23
        && minute <= 59
        && second <= 59
}

/// How many days a month has, 1 to 12, of any year: from its first day to that
/// of the next month.
pub fn days_of(year: u32, month: u32) -> u32 {
    let next = if month == 12 {
        (year + 1, 1)
    } else {
        (year, month + 1)
    };
    first_day(next.0, next.1) - first_day(year, month)
}

/// The number of a month's first day in the Gregorian calendar, counted from a
/// day 400 years before year 0. The count's years begin with March, so that a
/// leap day is the last of its year, and their months take 153 days in five.
fn first_day(year: u32, month: u32) -> u32 {
    let year = year + 400 - u32::from(month < 3);
    let month = (month + 9) % 12;
    365 * year + year / 4 - year / 100 + year / 400 + (153 * month + 2) / 5
}

/// Whether a limit of nesting may be stated.
pub fn is_limit(limit: usize) -> bool {
    (1..=NESTING_LIMIT).contains(&limit)
}

/// The first word of a row.
pub mod kind {
    pub const CALL: u32 = 1;
    pub const RESPONSE: u32 = 2;
    pub const FAULT: u32 = 3;
    pub const INTEGER: u32 = 4;
    pub const BOOLEAN: u32 = 5;
    pub const DOUBLE: u32 = 6;
    pub const DATE_TIME: u32 = 7;
    pub const BINARY: u32 = 8;
    pub const ARRAY: u32 = 9;
    pub const STRUCT: u32 = 10;
    pub const STRING: u32 = 11;
    pub const OTHER: u32 = 12;
    // Of hyperglyph and glyph (request E14), beside 4, 5, 8, 9, 10 and 11.
    pub const NIL: u32 = 13;
    pub const ORDERED_DICT: u32 = 14;
    pub const EXTENSION: u32 = 15;
    pub const NODE: u32 = 16;
}

/// Why a message or a table is refused.
pub mod refusal {
    /// The bytes end inside or before a needed item.
    pub const CUT: u8 = 1;
    /// The first bytes differ from the prefix.
    pub const PREFIX: u8 = 2;
    /// A byte that begins nothing allowed there.
    pub const TAG: u8 = 3;
    /// The room for pieces is too short.
    pub const ROOM: u8 = 4;
    /// Bad UTF-8, or a byte of 128 or more in a Double or DateTime.
    pub const TEXT: u8 = 5;
    /// Recall of a position never set.
    pub const RECALL: u8 = 6;
    /// An Other with a standard name.
    pub const NAME: u8 = 7;
    /// Nesting over the limit.
    pub const NESTING: u8 = 8;
    /// No row left.
    pub const ROWS: u8 = 9;
    /// Message or text bytes over the limit.
    pub const BYTES: u8 = 10;
    /// The table is not writable.
    pub const TABLE: u8 = 11;
    /// The written form is over the limit.
    pub const FORM: u8 = 12;
    /// The output is shorter than the written form.
    pub const OUTPUT: u8 = 13;
    /// A fault whose Struct has other members than a fault's.
    pub const FAULT: u8 = 14;
    /// A Double or DateTime that is not written as one, or no day or time.
    pub const DOUBLE_OR_DATE: u8 = 17;
    /// A key that stands in its Struct already.
    pub const KEY: u8 = 20;
    /// A limit of nesting that is not 1 to 32.
    pub const LIMIT: u8 = 23;
    /// A plan that is not taken.
    pub const PLAN: u8 = 24;
    /// An integer of hyperglyph or glyph that 32 bits don't hold.
    pub const RANGE: u8 = 25;
}
