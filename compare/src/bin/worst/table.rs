//! A table with its text bytes.

use crate::library;
use second::ByColumns;
use second::glyph::Edition;
use second::layout::{Layout, Rows, RowsMut};
use second::rules::{NESTING_LIMIT, ROW_LIMIT, ROW_WORDS};
use std::collections::{HashMap, HashSet};

/// The kinds of rows that are made here.
const RESPONSE: u32 = 2;
const BOOLEAN: u32 = 5;
const DOUBLE: u32 = 6;
const ARRAY: u32 = 9;
const STRUCT: u32 = 10;
const STRING: u32 = 11;

/// The rows of a table that can hold Strings, behind the Response and the Array.
pub const MOST: usize = ROW_LIMIT - 2;
/// The keys that a Struct can have there, each with one row for its value.
pub const KEYS: usize = MOST / 2;

/// Where a text lies: its offset and length.
pub type Part = (usize, usize);

pub struct Table {
    pub words: Vec<u32>,
    pub rows: usize,
    pub text: Vec<u8>,
}

fn no_words() -> Vec<u32> {
    vec![0; ROW_LIMIT * ROW_WORDS]
}

impl Table {
    /// A message read by the library, at the highest limit.
    pub fn of_message(message: &[u8]) -> Option<Self> {
        let mut words = no_words();
        let answer = library::read(message, &mut words, Some(NESTING_LIMIT));
        (answer.number == 0).then(|| Table {
            words,
            rows: answer.rows,
            text: message.into(),
        })
    }

    pub fn of_glyphs(message: &[u8], edition: Edition) -> Option<Self> {
        let mut words = no_words();
        let answer = library::read_glyph(message, &mut words, edition, NESTING_LIMIT);
        (answer.number == 0).then(|| Table {
            words,
            rows: answer.rows,
            text: message.into(),
        })
    }

    fn of_rows(rows: &[[u32; 4]], text: &[u8]) -> Self {
        let mut words = no_words();
        let mut put = ByColumns::rows_mut(&mut words);
        for (index, &row) in rows.iter().enumerate() {
            put.put(index, row);
        }
        Table {
            words,
            rows: rows.len(),
            text: text.into(),
        }
    }

    /// A Response with an Array or Struct of items that hold no others.
    fn flat(holder: u32, count: usize, items: &[[u32; 3]], text: &[u8]) -> Self {
        let end = items.len() as u32 + 2;
        let mut rows = vec![[RESPONSE, 0, 1, end], [holder, 0, count as u32, end]];
        for &[kind, a, b] in items {
            rows.push([kind, a, b, rows.len() as u32 + 1]);
        }
        Table::of_rows(&rows, text)
    }

    /// An Array of Strings.
    pub fn strings(text: &[u8], strings: impl Iterator<Item = Part>) -> Self {
        let items: Vec<[u32; 3]> = strings.map(string).collect();
        Table::flat(ARRAY, items.len(), &items, text)
    }

    /// An Array of so many Doubles that all have these digits and end with `.5`.
    pub fn doubles(digits: &[u8], count: usize) -> Self {
        let item = [DOUBLE, 0, digits.len() as u32 + 2];
        Table::flat(ARRAY, count, &vec![item; count], &[digits, b".5"].concat())
    }

    /// A Struct with these keys, each of a Boolean.
    pub fn keys(text: &[u8], keys: impl Iterator<Item = Part>) -> Self {
        let items: Vec<[u32; 3]> = keys
            .flat_map(|key| [string(key), [BOOLEAN, 0, 0]])
            .collect();
        Table::flat(STRUCT, items.len() / 2, &items, text)
    }

    /// A Struct whose keys and values, by turns, are these Strings.
    pub fn keys_and_texts(text: &[u8], strings: impl Iterator<Item = Part>) -> Self {
        let items: Vec<[u32; 3]> = strings.map(string).collect();
        Table::flat(STRUCT, items.len() / 2, &items, text)
    }

    /// An Array of so many Structs, each with so many of the keys.
    pub fn structs(text: &[u8], count: usize, keys: usize, key: fn(usize) -> Part) -> Self {
        let each = 2 * keys + 1;
        let end = (2 + count * each) as u32;
        let mut rows = vec![[RESPONSE, 0, 1, end], [ARRAY, 0, count as u32, end]];
        for number in 0..count {
            rows.push([STRUCT, 0, keys as u32, (rows.len() + each) as u32]);
            for place in 0..keys {
                let [kind, a, b] = string(key(number * keys + place));
                let at = rows.len() as u32;
                rows.push([kind, a, b, at + 1]);
                rows.push([BOOLEAN, 0, 0, at + 2]);
            }
        }
        Table::of_rows(&rows, text)
    }

    /// An Array of chains: each is so many Structs in one another, of one key each.
    pub fn chains(text: &[u8], deep: usize, mut key: impl FnMut(usize) -> Part) -> Self {
        let each = 2 * deep + 1;
        let chains = MOST / each;
        let end = (2 + chains * each) as u32;
        let mut rows = vec![[RESPONSE, 0, 1, end], [ARRAY, 0, chains as u32, end]];
        for chain in 0..chains {
            let end = (rows.len() + each) as u32;
            for level in 0..deep {
                let (offset, length) = key(chain * deep + level);
                let at = rows.len() as u32;
                rows.push([STRUCT, 0, 1, end]);
                rows.push([STRING, offset as u32, length as u32, at + 2]);
            }
            rows.push([BOOLEAN, 0, 0, end]);
        }
        Table::of_rows(&rows, text)
    }

    /// What a Response holds, as a table of glyphs.
    pub fn inner(&self) -> Self {
        let rows = ByColumns::rows(&self.words);
        let inner: Vec<[u32; 4]> = (1..self.rows)
            .map(|row| {
                let [kind, a, b, end] = rows.at(row);
                [kind, a, b, end - 1]
            })
            .collect();
        Table::of_rows(&inner, &self.text)
    }

    /// The first Struct's row; that of the Response's item, if there is none.
    pub fn asked_row(&self) -> usize {
        let rows = ByColumns::rows(&self.words);
        (0..self.rows)
            .find(|&row| rows.at(row)[0] == STRUCT)
            .unwrap_or(1)
    }

    /// The keys of the first Struct.
    pub fn asked_keys(&self) -> Vec<&[u8]> {
        let rows = ByColumns::rows(&self.words);
        let [kind, _, count, _] = rows.at(self.asked_row());
        if kind != STRUCT {
            return Vec::new();
        }
        let mut keys = Vec::new();
        let mut row = self.asked_row() + 1;
        for _ in 0..count {
            keys.extend(self.part(rows.at(row)));
            row = rows.at(row + 1)[3] as usize;
        }
        keys
    }

    /// A key that the first Struct has not: its last with another last byte, so
    /// that those which are alike are compared to their ends.
    pub fn asked_key(&self) -> Vec<u8> {
        match self.asked_keys().last() {
            Some([key @ .., _]) => [key, b"~"].concat(),
            _ => b"x".into(),
        }
    }

    fn part(&self, [kind, offset, length, _]: [u32; 4]) -> Option<&[u8]> {
        let from = offset as usize;
        let part = self.text.get(from..from + length as usize);
        part.filter(|_| kind == STRING)
    }

    fn texts(&self) -> impl Iterator<Item = &[u8]> {
        let rows = ByColumns::rows(&self.words);
        (0..self.rows).filter_map(move |row| self.part(rows.at(row)))
    }

    /// A plan that records the first 256 texts and recalls them.
    pub fn plan(&self) -> Vec<u8> {
        let mut positions: HashMap<&[u8], u8> = HashMap::new();
        let mut plan = Vec::new();
        for text in self.texts() {
            let next = positions.len();
            plan.extend(match positions.get(text) {
                Some(&position) => [2, position],
                None if next > 255 => [0, 0],
                None => {
                    positions.insert(text, next as u8);
                    [1, next as u8]
                }
            });
        }
        plan
    }

    /// Whether its texts may go into a message.
    pub fn fits(&self) -> bool {
        let mut seen = HashSet::new();
        let mut left = second::rules::BYTE_LIMIT;
        self.texts().all(|text| {
            if !seen.insert(text) {
                return true;
            }
            let fits = text.len() <= left;
            left = left.saturating_sub(text.len());
            fits
        })
    }
}

fn string((offset, length): Part) -> [u32; 3] {
    [STRING, offset as u32, length as u32]
}
