//! Messages of hyperglyph and glyph: good ones, noisy with blanks and leading
//! zeros, and damaged ones; and tables for their writer.

use super::messages::near_or_huge;
use super::tables::Table;
use super::{BAD_TEXTS, Random};
use crate::glyph::{Edition, read_within};
use crate::layout::ByRows;
use crate::reader::Read;
use crate::rules::*;

const BLANKS: &[u8] = b" \t\x0b\r\n";

/// Bytes that stand in messages or nearly do.
const ALPHABET: &[u8] = b"iubTFNLDOXHLDOXHuuu;;;;;;::0012349+- \t\x0b\r\n\x0c\0SfdpBcnx\xff";

/// Any message: good, over a limit, with a key twice, damaged, or no message
/// at all.
pub fn glyph_message(random: &mut Random, edition: Edition) -> Vec<u8> {
    match random.below(20) {
        0..8 => glyph_valid(random, edition),
        8 => beyond(random, edition),
        9 | 10 => key_twice(random, edition),
        11 | 12 => soup(random),
        _ => {
            let mut message = glyph_valid(random, edition);
            for _ in 0..random.between(1, 2) {
                damage(random, &mut message);
            }
            message
        }
    }
}

/// A message that is just over a limit, or just not.
fn beyond(random: &mut Random, edition: Edition) -> Vec<u8> {
    match random.below(8) {
        0 => {
            let members = random.between(2_040, 2_060);
            many(random, edition, members)
        }
        1 => long(random, edition, BYTE_LIMIT - 2, BYTE_LIMIT + 2),
        _ => glyph_deep(random, edition, NESTING_LIMIT + 1),
    }
}

/// A message that is accepted at the highest limit, if the table has room for
/// 4,096 rows.
pub fn glyph_valid(random: &mut Random, edition: Edition) -> Vec<u8> {
    match random.below(60) {
        0 => long(random, edition, 60_000, BYTE_LIMIT),
        1 => {
            let members = random.between(300, 2_040);
            many(random, edition, members)
        }
        2..8 => {
            let levels = random.between(1, NESTING_LIMIT);
            glyph_deep(random, edition, levels)
        }
        _ => {
            let mut maker = Maker::new(random, edition);
            maker.left = maker.random.between(1, 40);
            let levels = maker.random.between(0, 6);
            maker.root(|maker| maker.object(levels))
        }
    }
}

/// A message that is nested just so deep, and all else in it less deep.
pub fn glyph_deep(random: &mut Random, edition: Edition, levels: usize) -> Vec<u8> {
    let mut maker = Maker::new(random, edition);
    maker.left = 3 * levels;
    maker.root(|maker| maker.nested(levels))
}

/// A dict or a list of so many members or pairs.
fn many(random: &mut Random, edition: Edition, count: usize) -> Vec<u8> {
    let maker = Maker::new(random, edition);
    let letter = *maker.random.pick(b"LDO");
    maker.root(|maker| {
        maker.open(letter);
        for number in 0..count {
            if letter != b'L' || maker.random.one_in(2) {
                let key = format!("k{}", number * 7919 % count);
                maker.text(b'u', key.as_bytes());
                maker.blanks();
            }
            maker.leaf();
            maker.blanks();
        }
        maker.bytes.push(b';');
    })
}

/// A list of texts that takes about so many bytes, blanks at its ends aside.
fn long(random: &mut Random, edition: Edition, least: usize, most: usize) -> Vec<u8> {
    let goal = random.between(least, most);
    let mut maker = Maker::new(random, edition);
    maker.is_noisy = false;
    maker.root(|maker| {
        maker.open(b'L');
        while maker.bytes.len() + 200 < goal {
            let length = (goal - 100 - maker.bytes.len()).min(maker.random.between(100, 30_000));
            let letter = *maker.random.pick(b"ub");
            maker.text(letter, &vec![b'x'; length]);
        }
        let rest = (goal - maker.bytes.len()).saturating_sub(6);
        maker.text(b'b', &vec![b';'; rest]);
        maker.bytes.push(b';');
    })
}

/// A message with a key that stands in its dict already.
fn key_twice(random: &mut Random, edition: Edition) -> Vec<u8> {
    let maker = Maker::new(random, edition);
    let before = maker.random.between(0, 12);
    let between = maker.random.between(0, 3);
    let letter = *maker.random.pick(b"DO");
    let wrapped = maker.random.one_in(2);
    maker.root(|maker| {
        if wrapped {
            maker.open(b'L');
        }
        maker.open(letter);
        let mut keys = Vec::new();
        for _ in 0..before {
            maker.pair(&mut keys, 1);
        }
        let again = maker.fresh(&mut keys);
        maker.text(b'u', &again);
        maker.blanks();
        maker.object(1);
        maker.blanks();
        for _ in 0..between {
            maker.pair(&mut keys, 1);
        }
        maker.text(b'u', &again);
        maker.blanks();
        maker.leaf();
        maker.blanks();
        maker.bytes.push(b';');
        if wrapped {
            maker.bytes.push(b';');
        }
    })
}

/// A few letters as they come.
fn soup(random: &mut Random) -> Vec<u8> {
    let count = random.between(0, 14);
    (0..count).map(|_| *random.pick(ALPHABET)).collect()
}

struct Maker<'r> {
    random: &'r mut Random,
    edition: Edition,
    /// With blanks, signs and leading zeros that the writer leaves out.
    is_noisy: bool,
    bytes: Vec<u8>,
    /// About how many objects may still come.
    left: usize,
}

impl<'r> Maker<'r> {
    fn new(random: &'r mut Random, edition: Edition) -> Self {
        let is_noisy = random.one_in(2);
        Maker {
            random,
            edition,
            is_noisy,
            bytes: Vec::new(),
            left: 20,
        }
    }

    fn root(mut self, object: impl FnOnce(&mut Self)) -> Vec<u8> {
        self.blanks();
        object(&mut self);
        self.blanks();
        self.bytes
    }

    fn blanks(&mut self) {
        if self.is_noisy && self.random.one_in(3) {
            for _ in 0..self.random.between(1, 3) {
                self.bytes.push(*self.random.pick(BLANKS));
            }
        }
    }

    /// An object that is nested at most so deep.
    fn object(&mut self, levels: usize) {
        if levels == 0 || self.left == 0 || self.random.one_in(3) {
            self.leaf();
        } else {
            self.parent(levels, false);
        }
    }

    /// An object that is nested just so deep.
    fn nested(&mut self, levels: usize) {
        match levels {
            0 => self.leaf(),
            _ => self.parent(levels, true),
        }
    }

    /// One with children; if it is to be just so deep, its last child is.
    fn parent(&mut self, levels: usize, is_exact: bool) {
        let letters: &[u8] = match self.edition {
            // An extension's attributes take a level too.
            _ if levels < 2 => b"LLDO",
            Edition::Hyperglyph => b"LDOX",
            Edition::Glyph => b"LDOXH",
        };
        let letter = *self.random.pick(letters);
        let last = |maker: &mut Self| match is_exact {
            true => maker.nested(levels - 1),
            false => maker.object(levels - 1),
        };
        self.open(letter);
        match letter {
            b'L' => {
                for _ in 0..self.random.below(4) {
                    self.object(levels - 1);
                    self.blanks();
                }
                if is_exact && levels > 1 {
                    last(self);
                }
            }
            b'D' | b'O' => {
                let mut keys = Vec::new();
                for _ in 0..self.random.below(4) {
                    self.pair(&mut keys, levels - 1);
                }
                if is_exact && levels > 1 {
                    let key = self.fresh(&mut keys);
                    self.text(b'u', &key);
                    self.blanks();
                    last(self);
                }
            }
            b'X' if self.edition == Edition::Glyph => {
                for _ in 0..2 {
                    self.object(levels - 1);
                    self.blanks();
                }
                last(self);
            }
            _ => {
                let name = self.random.text(4);
                self.text(b'u', &name);
                self.blanks();
                let letter = *self.random.pick(b"DO");
                self.open(letter);
                let mut keys = Vec::new();
                for _ in 0..self.random.below(3) {
                    self.pair(&mut keys, levels - 2);
                }
                self.bytes.push(b';');
                self.blanks();
                last(self);
            }
        }
        self.blanks();
        self.bytes.push(b';');
    }

    fn open(&mut self, letter: u8) {
        self.left = self.left.saturating_sub(1);
        self.bytes.push(letter);
        self.blanks();
    }

    /// A key that is none of these, and a value.
    fn pair(&mut self, keys: &mut Vec<Vec<u8>>, levels: usize) {
        let key = self.fresh(keys);
        self.text(b'u', &key);
        self.blanks();
        self.object(levels);
        self.blanks();
    }

    /// A key that is none of these, nor is from then on.
    fn fresh(&mut self, keys: &mut Vec<Vec<u8>>) -> Vec<u8> {
        let mut key = match self.random.below(4) {
            0 => self.random.text(3),
            1 => self.random.text(20),
            _ => {
                let count = self.random.between(0, 3);
                (0..count).map(|_| *self.random.pick(b"ab")).collect()
            }
        };
        while keys.contains(&key) {
            key.push(b'a' + self.random.below(3) as u8);
        }
        keys.push(key.clone());
        key
    }

    fn leaf(&mut self) {
        self.left = self.left.saturating_sub(1);
        match self.random.below(10) {
            0..3 => self.integer(),
            3..6 => {
                let text = self.random.text(12);
                self.text(b'u', &text);
            }
            6 | 7 => {
                let count = self.random.between(0, 12);
                let content = self.random.bytes(count);
                self.text(b'b', &content);
            }
            _ => {
                let letter = *self.random.pick(b"TFN");
                self.bytes.extend([letter, b';']);
            }
        }
    }

    fn integer(&mut self) {
        let number = match self.random.below(4) {
            0 => *self
                .random
                .pick(&[0, 1, -1, 9, 10, -10, i32::MAX, i32::MIN]),
            1 => self.random.between(0, 1_000) as i32,
            _ => (self.random.word() as i32) >> self.random.below(31),
        };
        self.bytes.push(b'i');
        let is_zero_below = self.is_noisy && number == 0 && self.random.one_in(2);
        if number < 0 || is_zero_below {
            self.bytes.push(b'-');
        } else if self.is_noisy && self.random.one_in(3) {
            self.bytes.push(b'+');
        }
        self.number(number.unsigned_abs() as usize);
        self.bytes.push(b';');
    }

    fn number(&mut self, number: usize) {
        if self.is_noisy && self.random.one_in(3) {
            let zeros = *self.random.pick(&[1, 1, 2, 3, 12, 25]);
            self.bytes.extend(vec![b'0'; zeros]);
        }
        self.bytes.extend(number.to_string().into_bytes());
    }

    fn text(&mut self, letter: u8, content: &[u8]) {
        self.bytes.push(letter);
        if !content.is_empty() || self.is_noisy && self.random.one_in(2) {
            self.number(content.len());
            self.bytes.push(b':');
            self.bytes.extend(content);
        }
        self.bytes.push(b';');
    }
}

/// Changes one thing in a message.
fn damage(random: &mut Random, message: &mut Vec<u8>) {
    let place = match random.below(3) {
        0 => random.below(message.len().min(20) + 1),
        _ => random.below(message.len() + 1),
    };
    let end = (place + random.between(1, 12)).min(message.len());
    match random.below(12) {
        0 | 1 => message.truncate(place),
        2 | 3 => message.insert(place, *random.pick(ALPHABET)),
        4 => {
            let end = (place + random.between(1, 3)).min(message.len());
            message.drain(place..end);
        }
        5 => {
            // A part of it again, somewhere else.
            let part = message[place..end].to_vec();
            let to = random.below(message.len() + 1);
            message.splice(to..to, part);
        }
        6 => {
            let count = *random.pick(&[1, 2, 8, 9, 10, 11, 20, 40]);
            let digits = (0..count).map(|_| b'0' + random.below(10) as u8);
            let digits: Vec<u8> = digits.collect();
            let to = first_digit(message, place);
            message.splice(to..to, digits);
        }
        7 => {
            let at = first_digit(message, place);
            if let Some(byte) = message.get_mut(at) {
                *byte = b'0' + random.below(10) as u8;
            }
        }
        8 => {
            let text = *random.pick(&BAD_TEXTS);
            for (byte, &bad) in message[place..].iter_mut().zip(text) {
                *byte = bad;
            }
        }
        9 => {
            let count = random.between(1, 4);
            message.extend((0..count).map(|_| *random.pick(ALPHABET)));
        }
        _ => {
            if let Some(byte) = message.get_mut(place) {
                *byte = *random.pick(ALPHABET);
            }
        }
    }
}

/// The first digit from here on, or this place if there is none.
fn first_digit(message: &[u8], place: usize) -> usize {
    let digit = message[place..].iter().position(u8::is_ascii_digit);
    place + digit.unwrap_or(0)
}

/// A table for the writer of an edition: read from a message of either, with
/// spare words, and as often as not damaged.
pub fn glyph_table(random: &mut Random, edition: Edition) -> Table {
    let of = if random.one_in(6) {
        *random.pick(&Edition::BOTH)
    } else {
        edition
    };
    let text = glyph_valid(random, of);
    let mut words = vec![0; ROW_LIMIT * ROW_WORDS];
    let answer = read_within::<ByRows>(&text, &mut words, of, NESTING_LIMIT);
    let rows = match answer {
        Read::Accepted { rows, .. } => rows,
        Read::Refused { .. } => 0,
    };
    words.truncate(rows * ROW_WORDS);
    let mut table = Table { words, rows, text };
    for _ in 0..random.below(9) {
        table.words.push(random.word() as u32);
    }
    if random.one_in(2) {
        damage_table(random, &mut table);
    }
    table
}

fn damage_table(random: &mut Random, table: &mut Table) {
    match random.below(10) {
        0 => table.rows = table.rows.saturating_add(random.below(3)).saturating_sub(1),
        1 => table.words.truncate(random.below(table.words.len() + 1)),
        2 => table.text.truncate(random.below(table.text.len() + 1)),
        3 => {
            let length = random.between(BYTE_LIMIT - 1, BYTE_LIMIT + 2);
            table.text.resize(length, b'z');
        }
        4 => {
            // The content of one row for another.
            let rows = table.words.len() / ROW_WORDS;
            if rows > 0 {
                let [from, to] = [0, 1].map(|_| random.below(rows) * ROW_WORDS);
                let words = [table.words[from + 1], table.words[from + 2]];
                table.words[to + 1..to + 3].copy_from_slice(&words);
            }
        }
        5 => lengthen(random, table),
        _ if table.words.is_empty() => {}
        _ => {
            let place = random.below(table.words.len());
            let value = table.words[place];
            table.words[place] = match random.below(3) {
                0 if place.is_multiple_of(ROW_WORDS) => random.between(0, 18) as u32,
                _ => near_or_huge(random, value),
            };
        }
    }
}

/// Gives a few contents that a table has, if it has any, others that take
/// about as much as a message may.
fn lengthen(random: &mut Random, table: &mut Table) {
    let room = BYTE_LIMIT.saturating_sub(table.text.len());
    let length = room.saturating_sub(random.below(80));
    table.text.resize(BYTE_LIMIT, b'z');
    let (rows, _) = table.words.as_chunks_mut::<ROW_WORDS>();
    let contents = rows
        .iter_mut()
        .filter(|row| [kind::BINARY, kind::STRING].contains(&row[0]));
    for (less, row) in contents.enumerate().take(random.between(1, 2)) {
        let length = length.saturating_sub(less);
        row[1] = (BYTE_LIMIT - length) as u32;
        row[2] = length as u32;
    }
}
