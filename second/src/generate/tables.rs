//! Tables for the writer: read from messages, made up, and damaged.

use super::Random;
use super::ascii::{doubtful, good};
use super::messages::{near_or_huge, valid};
use crate::layout::ByRows;
use crate::meaning::content;
use crate::reader::{Read, read_within};
use crate::rules::*;
use std::ops::Range;

/// What a writer is given, but for the output.
#[derive(Clone, Debug)]
pub struct Table {
    pub words: Vec<u32>,
    pub rows: usize,
    pub text: Vec<u8>,
}

/// Any table: writable, nested too deep, a fault with other members, a Struct
/// with a key again, or damaged.
pub fn table(random: &mut Random) -> Table {
    if random.one_in(20) {
        return deep(random, NESTING_LIMIT + 1, NESTING_LIMIT + 2);
    }
    if random.one_in(12) {
        let pairs = *random.pick(&[0, 1, 2, 2, 2, 2, 2, 3, 3, 4]);
        return fault(random, pairs, false);
    }
    let mut table = writable(random);
    if random.one_in(12) {
        key_again(random, &mut table);
        return table;
    }
    if random.one_in(2) {
        for _ in 0..random.between(1, 2) {
            damage(random, &mut table);
        }
    }
    table
}

/// A writable table; its written form may still be too long.
pub fn writable(random: &mut Random) -> Table {
    let mut table = match random.below(20) {
        0 => near_the_limit(random),
        1 => many_repeated(random),
        2 => deep(random, 30, NESTING_LIMIT),
        3..9 => {
            let strings = random.between(0, 12);
            few_strings(random, strings)
        }
        _ => from_message(random),
    };
    // Spare words, which the writer doesn't look at.
    for _ in 0..random.below(9) {
        table.words.push(random.word() as u32);
    }
    table
}

/// An output's length: around the need, none, or plenty.
pub fn output_length(random: &mut Random, need: usize) -> usize {
    match random.below(8) {
        0 => random.below(need + 1),
        1 => BYTE_LIMIT,
        2 => 70_000,
        3 => 0,
        _ => (need + random.between(0, 4)).saturating_sub(2),
    }
}

fn from_message(random: &mut Random) -> Table {
    let text = valid(random);
    let mut words = vec![0; ROW_LIMIT * ROW_WORDS];
    let rows = match read_within::<ByRows>(&text, &mut words, NESTING_LIMIT) {
        Read::Accepted { rows, .. } => rows,
        Read::Refused { .. } => 0,
    };
    words.truncate(rows * ROW_WORDS);
    Table { words, rows, text }
}

/// Rows put one after the other, with their ends set when they close.
pub(super) struct Rows(pub(super) Vec<[u32; ROW_WORDS]>);

impl Rows {
    pub(super) fn leaf(&mut self, kind: u32, a: usize, b: usize) {
        let end = self.0.len() as u32 + 1;
        self.0.push([kind, a as u32, b as u32, end]);
    }

    pub(super) fn open(&mut self, kind: u32, b: usize) -> usize {
        self.leaf(kind, 0, b);
        self.0.len() - 1
    }

    pub(super) fn close(&mut self, row: usize) {
        self.0[row][3] = self.0.len() as u32;
    }

    pub(super) fn finish(self, text: Vec<u8>) -> Table {
        Table {
            rows: self.0.len(),
            words: self.0.into_iter().flatten().collect(),
            text,
        }
    }
}

/// Up to so many strings from a few texts, which overlap or stand at several
/// offsets, in all places where strings can be.
pub fn few_strings(random: &mut Random, most: usize) -> Table {
    if most >= 3 && random.one_in(4) {
        return fault(random, 2, true);
    }
    let strings = "aaaa\u{e9}aab2.75ab\u{e9}\u{1f600}aa";
    let mut edges: Vec<usize> = strings.char_indices().map(|(at, _)| at).collect();
    edges.push(strings.len());
    let text = [strings.as_bytes(), &good(random, b'8')].concat();
    let longest = random.between(0, 3);
    let mut rows = Rows(Vec::new());
    let mut left = most;
    let span = |random: &mut Random| {
        let first = random.below(edges.len());
        let last = (first + random.between(0, longest)).min(edges.len() - 1);
        edges[first]..edges[last]
    };
    let string = |random: &mut Random, rows: &mut Rows| {
        let span = span(random);
        rows.leaf(kind::STRING, span.start, span.len());
    };
    let values = random.between(0, 6);
    let root = match random.below(3) {
        0 if left > 0 => {
            left -= 1;
            let root = rows.open(kind::CALL, 2);
            string(random, &mut rows);
            root
        }
        _ => rows.open(kind::RESPONSE, 1),
    };
    let keyed = rows.0[0][0] != kind::CALL && random.one_in(2);
    let mut keys: Vec<Range<usize>> = Vec::new();
    if keyed {
        for _ in 0..values.min(left) {
            let key = span(random);
            if keys
                .iter()
                .all(|known| text[known.clone()] != text[key.clone()])
            {
                keys.push(key);
            }
        }
    }
    let count = if keyed { keys.len() } else { values };
    let outer = rows.open(if keyed { kind::STRUCT } else { kind::ARRAY }, count);
    left -= keys.len();
    for value in 0..count {
        if let Some(key) = keys.get(value) {
            rows.leaf(kind::STRING, key.start, key.len());
        }
        match random.below(if left > 0 { 9 } else { 5 }) {
            0 => rows.leaf(kind::INTEGER, random.word() as u32 as usize, 0),
            1 => rows.leaf(kind::BOOLEAN, random.below(2), 0),
            2 => rows.leaf(kind::DOUBLE, 9, random.between(3, 4)),
            3 => rows.leaf(kind::DATE_TIME, strings.len(), 17),
            4 => {
                let start = random.between(0, text.len());
                rows.leaf(kind::BINARY, start, random.between(0, text.len() - start));
            }
            5 => {
                left -= 1;
                let other = rows.open(kind::OTHER, 2);
                string(random, &mut rows);
                rows.leaf(kind::BINARY, 0, 2);
                rows.close(other);
            }
            6 => {
                let inside = random.between(0, left);
                left -= inside;
                let array = rows.open(kind::ARRAY, inside);
                (0..inside).for_each(|_| string(random, &mut rows));
                rows.close(array);
            }
            _ => {
                left -= 1;
                string(random, &mut rows);
            }
        }
    }
    rows.close(outer);
    rows.close(root);
    rows.finish(text)
}

/// A fault with so many members: the right ones in either order, or with keys
/// and kinds like them. Its texts stand at several offsets.
fn fault(random: &mut Random, pairs: usize, right: bool) -> Table {
    let text = b"faultCodefaultStringfaultCode faultStrings".to_vec();
    let (code, message) = ([(0, 9), (20, 9)], [(9, 11), (30, 11)]);
    let near = [(0, 8), (0, 10), (20, 10), (9, 10), (30, 12), (0, 0), (1, 9)];
    let mut rows = Rows(Vec::new());
    let root = rows.open(kind::FAULT, 1);
    let outer = rows.open(kind::STRUCT, pairs);
    let code_first = random.one_in(2);
    for pair in 0..pairs {
        let is_code = pair.is_multiple_of(2) == code_first;
        let keys = if is_code { &code } else { &message };
        let (mut offset, mut length) = *random.pick(keys);
        let mut is_integer = is_code;
        if !right {
            match random.below(6) {
                _ if pair >= 2 => (offset, length) = *random.pick(&near),
                0 => (offset, length) = *random.pick(&near),
                1 => is_integer = !is_integer,
                _ => {}
            }
        }
        rows.leaf(kind::STRING, offset, length);
        let other_kind = !right && random.one_in(8);
        match (other_kind, is_integer) {
            (true, _) => match random.below(3) {
                0 => rows.leaf(kind::BOOLEAN, random.below(2), 0),
                1 => rows.leaf(kind::BINARY, 0, 9),
                _ => {
                    let array = rows.open(kind::ARRAY, 2);
                    rows.leaf(kind::STRING, 9, 11);
                    rows.leaf(kind::STRING, 0, 9);
                    rows.close(array);
                }
            },
            (_, true) => rows.leaf(kind::INTEGER, random.word() as u32 as usize, 0),
            _ => {
                let (offset, length) = *random.pick(&[(0, 9), (9, 11), (29, 1), (0, 0)]);
                rows.leaf(kind::STRING, offset, length);
            }
        }
    }
    rows.close(outer);
    rows.close(root);
    rows.finish(text)
}

/// Around 256 texts that stand twice or more, in mixed order.
fn many_repeated(random: &mut Random) -> Table {
    let texts = *random.pick(&[250, 255, 256, 257, 258, 300, 500]);
    let mut text = Vec::new();
    let mut spans: Vec<(usize, usize)> = Vec::new();
    for number in 0..texts {
        let start = text.len();
        text.extend(format!("{number:x}{}", "-".repeat(random.below(3))).into_bytes());
        spans.push((start, text.len() - start));
    }
    let mut order: Vec<(usize, usize)> = spans.clone();
    for &span in &spans {
        let again = if random.one_in(30) {
            0
        } else {
            random.between(1, 2)
        };
        order.extend(vec![span; again]);
    }
    for last in (1..order.len()).rev() {
        order.swap(last, random.between(0, last));
    }
    let mut rows = Rows(Vec::new());
    let root = rows.open(kind::RESPONSE, 1);
    let array = rows.open(kind::ARRAY, order.len());
    for (start, length) in order {
        rows.leaf(kind::STRING, start, length);
    }
    rows.close(array);
    rows.close(root);
    rows.finish(text)
}

/// Nested between these depths, in Arrays and Structs of one item each.
pub fn deep(random: &mut Random, least: usize, most: usize) -> Table {
    let levels = random.between(least, most);
    let mut rows = Rows(Vec::new());
    let root = *random.pick(&[kind::CALL, kind::RESPONSE]);
    let mut open = vec![rows.open(root, if root == kind::CALL { 2 } else { 1 })];
    if root == kind::CALL {
        rows.leaf(kind::STRING, 0, 1);
    }
    for level in 0..levels {
        let kind = match root {
            kind::CALL if level == 0 => kind::ARRAY,
            _ => *random.pick(&[kind::ARRAY, kind::STRUCT]),
        };
        open.push(rows.open(kind, 1));
        if kind == kind::STRUCT {
            rows.leaf(kind::STRING, random.below(4), 1);
        }
    }
    rows.leaf(kind::BOOLEAN, 1, 0);
    open.into_iter().for_each(|row| rows.close(row));
    rows.finish(b"abca".to_vec())
}

/// A written form of 65,536 bytes, give or take a few, most of it Binaries
/// that lie in the same bytes.
fn near_the_limit(random: &mut Random) -> Table {
    let mut text = random.text(40);
    let length = text.len();
    let size = match random.below(2) {
        0 => random.between(600, 3_000),
        _ => random.between(60_000, BYTE_LIMIT),
    };
    text.resize(size, b'y');
    let target = random.between(BYTE_LIMIT - 3, BYTE_LIMIT + 3);
    let mut rows = Rows(Vec::new());
    let root = rows.open(kind::RESPONSE, 1);
    let array = rows.open(kind::ARRAY, 0);
    rows.leaf(kind::STRING, 0, length);
    // Without the prefix, `R`, `A` and its count, the text recorded and recalled.
    let mut left = target - 12 - 1 - 5 - (6 + length) - 2;
    while left > 0 {
        let most = text.len().min(left - 5);
        let mut size = most;
        if most > 100 && random.one_in(3) {
            size = random.between(most / 2, most);
        }
        // What is left is none, or enough for one more.
        let after = left - 5 - size;
        if (1..5).contains(&after) {
            size -= 5 - after;
        }
        rows.leaf(kind::BINARY, random.between(0, text.len() - size), size);
        left -= 5 + size;
    }
    rows.leaf(kind::STRING, 0, length);
    rows.0[array][2] = (rows.0.len() - 2) as u32;
    rows.close(array);
    rows.close(root);
    rows.finish(text)
}

/// Damages one word, the number of rows, the words or the text bytes, the text
/// of a Double or DateTime, or a key.
pub fn damage(random: &mut Random, table: &mut Table) {
    match random.below(27) {
        0 => {
            const FAR: [usize; 5] = [0, ROW_LIMIT, ROW_LIMIT + 1, usize::MAX, usize::MAX / 4 + 1];
            table.rows = match random.below(3) {
                0 => table.rows.saturating_sub(1),
                1 => table.rows.saturating_add(1),
                _ => *random.pick(&FAR),
            };
        }
        1 => table.words.truncate(random.below(table.words.len() + 1)),
        2 => table.text.truncate(random.below(table.text.len() + 1)),
        3 => {
            if !table.text.is_empty() {
                let place = random.below(table.text.len());
                table.text[place] = random.byte();
            }
        }
        4 => table
            .text
            .resize(random.between(BYTE_LIMIT - 1, BYTE_LIMIT + 2), b'z'),
        5 => {
            // A whole row gone.
            if (2..=table.words.len() / ROW_WORDS).contains(&table.rows) {
                let row = random.below(table.rows) * ROW_WORDS;
                table.words.drain(row..row + ROW_WORDS);
                table.rows -= 1;
            }
        }
        6..10 => damage_double_or_date(random, table),
        10..13 => key_again(random, table),
        _ => {
            if table.words.is_empty() {
                return;
            }
            let place = random.below(table.words.len());
            let value = table.words[place];
            table.words[place] = match random.below(3) {
                0 if place.is_multiple_of(ROW_WORDS) => random.between(0, 14) as u32,
                _ => near_or_huge(random, value),
            };
        }
    }
}

/// Gives a Double or DateTime, if there is one, another text behind the others.
fn damage_double_or_date(random: &mut Random, table: &mut Table) {
    let (rows, _) = table.words.as_chunks_mut::<ROW_WORDS>();
    let mut found: Vec<&mut [u32; ROW_WORDS]> = rows
        .iter_mut()
        .filter(|row| [kind::DOUBLE, kind::DATE_TIME].contains(&row[0]))
        .collect();
    if found.is_empty() {
        return;
    }
    let chosen = random.below(found.len());
    let [kind, offset, length, _] = &mut *found[chosen];
    let tag = if *kind == kind::DOUBLE { b'D' } else { b'8' };
    let text = match random.below(4) {
        0 => good(random, tag),
        _ => doubtful(random, tag),
    };
    (*offset, *length) = (table.text.len() as u32, text.len() as u32);
    table.text.extend(text);
}

/// Gives a key of a Struct, if one has two, the text of another key of it: the
/// same bytes, or equal ones behind the others.
pub fn key_again(random: &mut Random, table: &mut Table) {
    let (rows, _) = table.words.as_chunks_mut::<ROW_WORDS>();
    let structs: Vec<Vec<usize>> = (0..rows.len())
        .map(|row| keys_of(rows, row))
        .filter(|keys| keys.len() > 1)
        .collect();
    if structs.is_empty() {
        return;
    }
    let keys = random.pick(&structs);
    let known = match random.below(2) {
        0 => 0,
        _ => random.below(keys.len()),
    };
    let again = match random.below(2) {
        0 if known != keys.len() - 1 => keys.len() - 1,
        _ => (known + random.between(1, keys.len() - 1)) % keys.len(),
    };
    let [_, mut offset, length, _] = rows[keys[known]];
    if let Some(text) = content(&table.text, offset, length)
        && table.text.len() + text.len() <= BYTE_LIMIT
        && random.one_in(2)
    {
        let text = text.to_vec();
        offset = table.text.len() as u32;
        table.text.extend(text);
    }
    let [_, a, b, _] = &mut rows[keys[again]];
    (*a, *b) = (offset, length);
}

/// The rows of the keys of a Struct, or of either dict, as far as they go.
fn keys_of(rows: &[[u32; ROW_WORDS]], row: usize) -> Vec<usize> {
    let mut keys = Vec::new();
    let [kind, _, pairs, _] = rows[row];
    let mut key = row + 1;
    let has_keys = [kind::STRUCT, kind::ORDERED_DICT].contains(&kind);
    while has_keys && keys.len() < pairs as usize {
        let Some([_, _, _, end]) = rows.get(key + 1) else {
            break;
        };
        keys.push(key);
        key = (*end as usize).max(key + 2);
    }
    keys
}
