//! The writer: a table and the bytes its texts lie in, into a lent output.

use crate::keys::{Keys, TextHashing};
use crate::layout::{Layout, Row, Rows};
use crate::meaning::content;
use crate::rules::*;
use std::collections::HashMap;
use std::collections::hash_map::Entry;

/// The writer's answer.
#[derive(Clone, Copy, Debug, PartialEq, Eq)]
pub enum Write {
    Accepted { length: usize },
    Refused { number: u8 },
}

/// Writes the first `rows` rows of a table, at the limit of nesting of a call
/// that states none.
pub fn write<L: Layout>(table: &[u32], rows: usize, text: &[u8], output: &mut [u8]) -> Write {
    write_within::<L>(table, rows, text, USUAL_LIMIT, output)
}

/// Writes the first `rows` rows of a table in the one written form, at this
/// limit of nesting. Every byte of the output is settled: the message, zeros
/// after it, and all zeros on a refusal.
pub fn write_within<L: Layout>(
    table: &[u32],
    rows: usize,
    text: &[u8],
    limit: usize,
    output: &mut [u8],
) -> Write {
    match plan::<L>(table, rows, text, limit, output.len()) {
        Ok(plan) => {
            let (message, rest) = output.split_at_mut(plan.length);
            rest.fill(0);
            plan.put(message);
            Write::Accepted {
                length: plan.length,
            }
        }
        Err(number) => {
            output.fill(0);
            Write::Refused { number }
        }
    }
}

/// Everything the written form needs.
struct Plan<'t, R> {
    rows: R,
    text: &'t [u8],
    strings: Strings<'t>,
    length: usize,
}

fn plan<'t, L: Layout>(
    table: &'t [u32],
    rows: usize,
    text: &'t [u8],
    limit: usize,
    room: usize,
) -> Result<Plan<'t, L::Rows<'t>>, u8> {
    if !is_limit(limit) {
        return Err(refusal::LIMIT);
    }
    if text.len() > BYTE_LIMIT {
        return Err(refusal::BYTES);
    }
    let mut strings = Strings::default();
    let note = |text| strings.note(text);
    let rows = writable_within::<L>(table, rows, text, limit, note).ok_or(refusal::TABLE)?;
    strings.give_positions();
    let others: usize = rows.all().map(size_without_text).sum();
    let length = PREFIX.len() + others + strings.size();
    if length > BYTE_LIMIT {
        return Err(refusal::FORM);
    }
    if length > room {
        return Err(refusal::OUTPUT);
    }
    Ok(Plan {
        rows,
        text,
        strings,
        length,
    })
}

/// The texts that stand as strings.
#[derive(Default)]
struct Strings<'t> {
    /// Each different text once, in order of first occurrence.
    texts: Vec<Text>,
    /// For each string in row order, its place in `texts`.
    order: Vec<u32>,
    seen: HashMap<&'t [u8], u32, TextHashing>,
}

struct Text {
    length: usize,
    count: usize,
    position: Option<u8>,
}

impl<'t> Strings<'t> {
    fn note(&mut self, text: &'t [u8]) {
        let index = match self.seen.entry(text) {
            Entry::Occupied(known) => *known.get(),
            Entry::Vacant(new) => {
                let index = self.texts.len() as u32;
                self.texts.push(Text {
                    length: text.len(),
                    count: 0,
                    position: None,
                });
                *new.insert(index)
            }
        };
        self.texts[index as usize].count += 1;
        self.order.push(index);
    }

    /// Positions 0, 1, 2 .. go to the texts that repeat, while there are any.
    fn give_positions(&mut self) {
        let repeated = self.texts.iter_mut().filter(|text| text.count > 1);
        for (text, position) in repeated.zip(0..=u8::MAX) {
            text.position = Some(position);
        }
    }

    /// Bytes that all strings take together.
    fn size(&self) -> usize {
        let sizes = self.texts.iter().map(|text| match text.position {
            Some(_) => 6 + text.length + 2 * (text.count - 1),
            None => text.count * (5 + text.length),
        });
        sizes.sum()
    }
}

/// Bytes that an item's own row takes, its children and strings left out.
fn size_without_text([kind, _, b, _]: Row) -> usize {
    match kind {
        kind::CALL | kind::RESPONSE | kind::BOOLEAN | kind::OTHER => 1,
        kind::FAULT => 2,
        kind::INTEGER | kind::ARRAY | kind::STRUCT => 5,
        kind::DOUBLE | kind::DATE_TIME => 2 + b as usize,
        kind::BINARY => 5 + b as usize,
        _ => 0,
    }
}

/// The stated rows, if the table is writable at the highest limit of nesting.
pub fn writable<'t, L: Layout>(
    table: &'t [u32],
    rows: usize,
    text: &'t [u8],
) -> Option<L::Rows<'t>> {
    writable_within::<L>(table, rows, text, NESTING_LIMIT, |_| ())
}

/// The stated rows, if the table is writable at this limit of nesting; notes
/// the text of each string, as far as it goes.
pub fn writable_within<'t, L: Layout>(
    table: &'t [u32],
    rows: usize,
    text: &'t [u8],
    limit: usize,
    note: impl FnMut(&'t [u8]),
) -> Option<L::Rows<'t>> {
    if !(1..=ROW_LIMIT).contains(&rows) || text.len() > BYTE_LIMIT {
        return None;
    }
    let rows = L::rows(table).first(rows)?;
    let mut checker = Checker {
        rows,
        text,
        limit,
        note,
    };
    let end = match rows.at(0) {
        [kind::CALL, 0, 2, _] => {
            let next = checker.item_of(kind::STRING, 1, 0)?;
            checker.item_of(kind::ARRAY, next, 0)?
        }
        [kind::RESPONSE, 0, 1, _] => checker.value(1, 0)?,
        [kind::FAULT, 0, 1, _] => {
            let end = checker.item_of(kind::STRUCT, 1, 0)?;
            has_fault_members(rows, text).then_some(end)?
        }
        _ => return None,
    };
    let whole = end == rows.len() && rows.at(0)[3] as usize == end;
    whole.then_some(rows)
}

struct Checker<'t, R, N> {
    rows: R,
    text: &'t [u8],
    /// Of nesting.
    limit: usize,
    note: N,
}

impl<'t, R: Rows, N: FnMut(&'t [u8])> Checker<'t, R, N> {
    /// Checks the Value at row `at`, which stands in `nesting` Arrays and
    /// Structs; gives the row after it.
    fn value(&mut self, at: usize, nesting: usize) -> Option<usize> {
        let [kind, a, b, end] = self.rows.get(at)?;
        let next = match kind {
            kind::INTEGER if b == 0 => at + 1,
            kind::BOOLEAN if a <= 1 && b == 0 => at + 1,
            kind::DOUBLE if b <= SIZE_LIMIT => {
                is_double(content(self.text, a, b)?).then_some(at + 1)?
            }
            kind::DATE_TIME if b <= SIZE_LIMIT => {
                is_date_time(content(self.text, a, b)?).then_some(at + 1)?
            }
            kind::BINARY => {
                content(self.text, a, b)?;
                at + 1
            }
            kind::ARRAY if a == 0 && nesting < self.limit => {
                let mut next = at + 1;
                for _ in 0..b {
                    next = self.value(next, nesting + 1)?;
                }
                next
            }
            kind::STRUCT if a == 0 && nesting < self.limit => {
                let mut next = at + 1;
                let mut keys = Keys::new(b, self.rows.len());
                for _ in 0..b {
                    let key = next;
                    next = self.item_of(kind::STRING, key, nesting)?;
                    let [_, a, length, _] = self.rows.at(key);
                    keys.add(content(self.text, a, length)?).then_some(())?;
                    next = self.value(next, nesting + 1)?;
                }
                next
            }
            kind::STRING => {
                let text = content(self.text, a, b)?;
                std::str::from_utf8(text).ok()?;
                (self.note)(text);
                at + 1
            }
            kind::OTHER if a == 0 && b == 2 => {
                let next = self.item_of(kind::STRING, at + 1, nesting)?;
                let [_, a, b, _] = self.rows.at(at + 1);
                if is_standard_name(content(self.text, a, b)?) {
                    return None;
                }
                self.item_of(kind::BINARY, next, nesting)?
            }
            _ => return None,
        };
        (end as usize == next).then_some(next)
    }

    /// Like `value`, where only this kind is allowed.
    fn item_of(&mut self, kind: u32, at: usize, nesting: usize) -> Option<usize> {
        if self.rows.get(at)?[0] != kind {
            return None;
        }
        self.value(at, nesting)
    }
}

impl<R: Rows> Plan<'_, R> {
    /// Puts the message into an output of just its length.
    fn put(&self, message: &mut [u8]) {
        let mut output = Output { rest: message };
        output.put(PREFIX);
        let mut sent = [false; POSITIONS];
        let mut strings = self.strings.order.iter();
        for [kind, a, b, _] in self.rows.all() {
            let content = || &self.text[a as usize..][..b as usize];
            match kind {
                kind::CALL => output.put(b"C"),
                kind::RESPONSE => output.put(b"R"),
                kind::FAULT => output.put(b"RF"),
                kind::INTEGER => output.put_field(b'I', a),
                kind::BOOLEAN => output.put(if a == 1 { b"t" } else { b"f" }),
                kind::DOUBLE => output.put_sized(b'D', content()),
                kind::DATE_TIME => output.put_sized(b'8', content()),
                kind::BINARY => {
                    output.put_field(b'B', b);
                    output.put(content());
                }
                kind::ARRAY => output.put_field(b'A', b),
                kind::STRUCT => output.put_field(b'S', b),
                kind::OTHER => output.put(b"O"),
                _ => {
                    let text = strings.next().map(|&index| index as usize);
                    match text.and_then(|index| self.strings.texts[index].position) {
                        None => {
                            output.put_field(b'U', b);
                            output.put(content());
                        }
                        Some(position) if sent[position as usize] => output.put(&[b'<', position]),
                        Some(position) => {
                            sent[position as usize] = true;
                            output.put_field_at(position, b);
                            output.put(content());
                        }
                    }
                }
            }
        }
    }
}

/// The part of the output after the items already there.
struct Output<'o> {
    rest: &'o mut [u8],
}

impl Output<'_> {
    fn put(&mut self, bytes: &[u8]) {
        let (here, rest) = std::mem::take(&mut self.rest).split_at_mut(bytes.len());
        here.copy_from_slice(bytes);
        self.rest = rest;
    }

    fn put_field(&mut self, tag: u8, field: u32) {
        let [a, b, c, d] = field.to_le_bytes();
        self.put(&[tag, a, b, c, d]);
    }

    /// The head of a recorded string.
    fn put_field_at(&mut self, position: u8, length: u32) {
        let [a, b, c, d] = length.to_le_bytes();
        self.put(&[b'>', position, a, b, c, d]);
    }

    /// A Double or DateTime.
    fn put_sized(&mut self, tag: u8, content: &[u8]) {
        self.put(&[tag, content.len() as u8]);
        self.put(content);
    }
}
