//! Tables of Structs to look into, with rows and keys to ask for.

use super::Random;
use super::ascii::{decimal, good};
use super::tables::{Rows, Table};
use crate::meaning::content;
use crate::rules::*;

/// What the laser asks for.
const POSITION: [&[u8]; 3] = [b"x", b"y", b"turn"];

/// Keys that come again in other Structs, or begin alike.
const KEYS: [&[u8]; 12] = [
    b"x",
    b"y",
    b"turn",
    b"",
    b"xx",
    b"X",
    b"tur",
    b"turns",
    b"turn\0",
    b"\xc3\xa9",
    b"pan",
    b"pen",
];

/// A writable table of Structs, with positions among them.
pub fn structs(random: &mut Random) -> Table {
    let mut maker = Maker {
        random,
        rows: Rows(Vec::new()),
        text: b"xyturnpanpen".to_vec(),
        left: 40,
    };
    let root = match maker.random.below(4) {
        0 => {
            let root = maker.rows.open(kind::CALL, 2);
            maker.string(b"pan");
            let count = maker.random.below(4);
            let array = maker.rows.open(kind::ARRAY, count);
            (0..count).for_each(|_| maker.structure(1));
            maker.rows.close(array);
            root
        }
        1 if maker.random.one_in(4) => {
            let root = maker.rows.open(kind::FAULT, 1);
            maker.fault();
            root
        }
        _ => {
            let root = maker.rows.open(kind::RESPONSE, 1);
            maker.structure(0);
            root
        }
    };
    maker.rows.close(root);
    maker.rows.finish(maker.text)
}

struct Maker<'r> {
    random: &'r mut Random,
    rows: Rows,
    text: Vec<u8>,
    /// Members after which no more Structs are begun.
    left: usize,
}

impl Maker<'_> {
    /// A row with this content, which lies behind the others or where it stands
    /// already.
    fn leaf(&mut self, kind: u32, content: &[u8]) {
        let mut windows = self.text.windows(content.len().max(1));
        let stands = match content {
            [] => Some(self.random.below(self.text.len() + 1)),
            _ => windows.position(|window| window == content),
        };
        let offset = match stands {
            Some(offset) if self.random.one_in(2) => offset,
            _ => {
                self.text.extend(content);
                self.text.len() - content.len()
            }
        };
        self.rows.leaf(kind, offset, content.len());
    }

    fn string(&mut self, text: &[u8]) {
        self.leaf(kind::STRING, text);
    }

    fn fault(&mut self) {
        let members = self.rows.open(kind::STRUCT, 2);
        let code_first = self.random.one_in(2);
        for turn in [true, false] {
            let (key, kind) = FAULT_MEMBERS[usize::from(turn != code_first)];
            self.string(key);
            match kind {
                kind::INTEGER => self.rows.leaf(kind, self.random.byte().into(), 0),
                _ => self.string(b"turn"),
            }
        }
        self.rows.close(members);
    }

    /// A Struct that stands in so many others; mostly a position.
    fn structure(&mut self, nesting: usize) {
        let mut keys: Vec<&[u8]> = Vec::new();
        if !self.random.one_in(4) {
            keys.extend(POSITION);
            if self.random.one_in(5) {
                keys.remove(self.random.below(3));
            }
        }
        for _ in 0..self.random.below(6) {
            let key = *self.random.pick(&KEYS);
            if !keys.contains(&key) {
                keys.push(key);
            }
        }
        for last in (1..keys.len()).rev() {
            keys.swap(last, self.random.between(0, last));
        }
        // All decimals right, one with too many digits, or any.
        let wild = match self.random.below(4) {
            0 | 1 => usize::MAX,
            2 => self.random.below(keys.len().max(1)),
            _ => keys.len(),
        };
        let row = self.rows.open(kind::STRUCT, keys.len());
        for (index, key) in keys.iter().enumerate() {
            self.string(key);
            self.left = self.left.saturating_sub(1);
            if POSITION.contains(key) && !self.random.one_in(12) {
                let is_wild = wild == index || wild == keys.len();
                self.double(is_wild);
            } else {
                self.value(nesting + 1);
            }
        }
        self.rows.close(row);
    }

    fn double(&mut self, is_wild: bool) {
        let text = match self.random.below(4) {
            0 if is_wild => good(self.random, b'D'),
            _ if is_wild => decimal(self.random),
            0 => b"0.0".to_vec(),
            1 => b"-0.0".to_vec(),
            _ => {
                let number = self.random.below(1 << 24) as f64 / 64.0 - 100_000.0;
                format!("{number:.6}").into_bytes()
            }
        };
        self.leaf(kind::DOUBLE, &text);
    }

    fn value(&mut self, nesting: usize) {
        let inner = self.left > 0 && nesting < NESTING_LIMIT;
        match self.random.below(if inner { 12 } else { 8 }) {
            0 => {
                let bits = match self.random.below(2) {
                    0 => *self.random.pick(&[0, 1, 1 << 31, (1 << 31) - 1, u32::MAX]),
                    _ => self.random.word() as u32,
                };
                self.rows.leaf(kind::INTEGER, bits as usize, 0);
            }
            1 => self.rows.leaf(kind::BOOLEAN, self.random.below(2), 0),
            2 | 3 => self.double(true),
            4 => {
                let date = good(self.random, b'8');
                self.leaf(kind::DATE_TIME, &date);
            }
            5 => self.leaf(kind::BINARY, b"\xff\0x"),
            6 => {
                let text = *self.random.pick(&KEYS);
                self.string(text);
            }
            7 => {
                let other = self.rows.open(kind::OTHER, 2);
                self.string(b"pan");
                self.leaf(kind::BINARY, b"y");
                self.rows.close(other);
            }
            8 => {
                let count = self.random.below(3);
                let array = self.rows.open(kind::ARRAY, count);
                (0..count).for_each(|_| self.value(nesting + 1));
                self.rows.close(array);
            }
            _ => self.structure(nesting),
        }
    }
}

/// A row to ask for: mostly of a Struct, or any, or past the stated ones.
pub fn row(random: &mut Random, table: &Table) -> usize {
    let (rows, _) = table.words.as_chunks::<ROW_WORDS>();
    let is_struct = |row: &usize| rows[*row][0] == kind::STRUCT;
    let structs: Vec<usize> = (0..rows.len()).filter(is_struct).collect();
    match random.below(10) {
        0 => random.below(rows.len() + 3),
        1 => {
            let rows = table.rows;
            *random.pick(&[
                rows,
                rows.wrapping_add(1),
                ROW_LIMIT,
                usize::MAX,
                1 << 32,
                1 << 62,
            ])
        }
        _ if structs.is_empty() => 1,
        _ => *random.pick(&structs),
    }
}

/// A key to ask for: one of the table's, a part of one, one and more, or any.
pub fn key(random: &mut Random, table: &Table, row: usize) -> Vec<u8> {
    let (rows, _) = table.words.as_chunks::<ROW_WORDS>();
    // Mostly from behind the row, where its members are.
    let from = match random.below(4) {
        0 => 0,
        _ => row.saturating_add(1).min(rows.len()),
    };
    let strings: Vec<&[u8]> = rows[from..]
        .iter()
        .filter(|row| row[0] == kind::STRING)
        .filter_map(|&[_, a, b, _]| content(&table.text, a, b))
        .take(8)
        .collect();
    let mut key = match random.below(8) {
        0 => random.pick(&KEYS).to_vec(),
        1 => random.text(3),
        _ if strings.is_empty() => Vec::new(),
        _ => random.pick(&strings).to_vec(),
    };
    match random.below(8) {
        0 => drop(key.pop()),
        1 => key.push(*random.pick(b"xs\0\xff")),
        2 if !key.is_empty() => {
            let place = random.below(key.len());
            key[place] ^= 1 << random.below(8);
        }
        _ => {}
    }
    key
}
