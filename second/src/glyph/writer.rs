//! The writer of both editions: a table and the bytes its texts lie in, into a
//! lent output.

use super::Edition;
use crate::keys::Keys;
use crate::layout::{Layout, Row, Rows};
use crate::meaning::content;
use crate::rules::*;
use crate::writer::Write;

/// Writes the first `rows` rows of a table, at the limit of nesting of a call
/// that states none.
pub fn write<L: Layout>(
    table: &[u32],
    rows: usize,
    text: &[u8],
    edition: Edition,
    output: &mut [u8],
) -> Write {
    write_within::<L>(table, rows, text, edition, USUAL_LIMIT, output)
}

/// Writes the first `rows` rows of a table in the one written form, at this
/// limit of nesting. Every byte of the output is settled: the message, zeros
/// after it, and all zeros on a refusal.
pub fn write_within<L: Layout>(
    table: &[u32],
    rows: usize,
    text: &[u8],
    edition: Edition,
    limit: usize,
    output: &mut [u8],
) -> Write {
    match form::<L>(table, rows, text, edition, limit, output.len()) {
        Ok((mut form, length)) => {
            let (message, rest) = output.split_at_mut(length);
            rest.fill(0);
            form.rest = message;
            form.object(0);
            Write::Accepted { length }
        }
        Err(number) => {
            output.fill(0);
            Write::Refused { number }
        }
    }
}

/// What is written, and its length.
fn form<'t, L: Layout>(
    table: &'t [u32],
    rows: usize,
    text: &'t [u8],
    edition: Edition,
    limit: usize,
    room: usize,
) -> Result<(Form<'t, 't, L::Rows<'t>>, usize), u8> {
    if !is_limit(limit) {
        return Err(refusal::LIMIT);
    }
    if text.len() > BYTE_LIMIT {
        return Err(refusal::BYTES);
    }
    let rows = writable_within::<L>(table, rows, text, edition, limit).ok_or(refusal::TABLE)?;
    let length = rows.all().map(size).sum();
    if length > BYTE_LIMIT {
        return Err(refusal::FORM);
    }
    if length > room {
        return Err(refusal::OUTPUT);
    }
    let form = Form {
        rows,
        text,
        edition,
        rest: &mut [],
    };
    Ok((form, length))
}

/// The stated rows of a table, if it is writable at this limit of nesting.
pub fn writable_within<'t, L: Layout>(
    table: &'t [u32],
    rows: usize,
    text: &[u8],
    edition: Edition,
    limit: usize,
) -> Option<L::Rows<'t>> {
    let rows = L::rows(table).first(rows)?;
    let check = Check {
        rows,
        text,
        edition,
        limit,
    };
    (check.object(0, 0)? == rows.len() && text.len() <= BYTE_LIMIT).then_some(rows)
}

struct Check<'t, R> {
    rows: R,
    text: &'t [u8],
    edition: Edition,
    limit: usize,
}

impl<R: Rows> Check<'_, R> {
    /// The row after an object that stands in `nesting` of those with
    /// children, if its rows are right.
    fn object(&self, at: usize, nesting: usize) -> Option<usize> {
        let [kind, a, b, end] = self.rows.get(at)?;
        let next = match kind {
            kind::INTEGER if b == 0 => at + 1,
            kind::BOOLEAN if a <= 1 && b == 0 => at + 1,
            kind::NIL if a == 0 && b == 0 => at + 1,
            kind::BINARY => {
                content(self.text, a, b)?;
                at + 1
            }
            kind::STRING => {
                self.unicode(at)?;
                at + 1
            }
            _ if a != 0 || nesting >= self.limit => return None,
            kind::ARRAY => self.objects(at + 1, b, nesting + 1)?,
            kind::STRUCT | kind::ORDERED_DICT => self.pairs(at + 1, b, nesting + 1)?,
            kind::EXTENSION if b == 3 => self.extension(at, nesting)?,
            kind::NODE if b == 3 && self.edition == Edition::Glyph => {
                self.objects(at + 1, 3, nesting + 1)?
            }
            _ => return None,
        };
        (end as usize == next).then_some(next)
    }

    fn objects(&self, first: usize, count: u32, nesting: usize) -> Option<usize> {
        let mut next = first;
        for _ in 0..count {
            next = self.object(next, nesting)?;
        }
        Some(next)
    }

    fn pairs(&self, first: usize, pairs: u32, nesting: usize) -> Option<usize> {
        let mut keys = Keys::new(pairs, self.rows.len());
        let mut next = first;
        for _ in 0..pairs {
            keys.add(self.unicode(next)?).then_some(())?;
            next = self.object(next + 1, nesting)?;
        }
        Some(next)
    }

    fn extension(&self, at: usize, nesting: usize) -> Option<usize> {
        self.unicode(at + 1)?;
        let [kind, ..] = self.rows.get(at + 2)?;
        if !matches!(kind, kind::STRUCT | kind::ORDERED_DICT) {
            return None;
        }
        self.objects(at + 2, 2, nesting + 1)
    }

    /// The text of a row that is a unicode's, if the row is right.
    fn unicode(&self, at: usize) -> Option<&[u8]> {
        let [kind, a, b, end] = self.rows.get(at)?;
        if kind != kind::STRING || end as usize != at + 1 {
            return None;
        }
        let text = content(self.text, a, b)?;
        std::str::from_utf8(text).ok()?;
        Some(text)
    }
}

/// Bytes that an object's own row takes, its children left out.
fn size([kind, a, b, _]: Row) -> usize {
    match kind {
        kind::INTEGER => {
            let number = a as i32;
            2 + usize::from(number < 0) + digits(number.unsigned_abs())
        }
        kind::STRING | kind::BINARY if b > 0 => 3 + digits(b) + b as usize,
        _ => 2,
    }
}

/// How many digits a number has.
fn digits(number: u32) -> usize {
    number.checked_ilog10().unwrap_or(0) as usize + 1
}

/// What is written, and the part of the output after what is there already.
struct Form<'t, 'o, R> {
    rows: R,
    text: &'t [u8],
    edition: Edition,
    rest: &'o mut [u8],
}

impl<R: Rows> Form<'_, '_, R> {
    /// Puts the object of a row, and gives the row after it.
    fn object(&mut self, row: usize) -> usize {
        let [kind, a, b, end] = self.rows.at(row);
        match (kind, self.edition) {
            (kind::INTEGER, _) => self.integer(a as i32),
            (kind::BOOLEAN, _) => self.put(if a == 1 { b"T;" } else { b"F;" }),
            (kind::NIL, _) => self.put(b"N;"),
            (kind::STRING, _) => self.text(b"u", a, b),
            (kind::BINARY, _) => self.text(b"b", a, b),
            (kind::STRUCT, _) => self.dict(row, b, end),
            (kind::ARRAY, _) => self.with_children(b"L", row, end),
            (kind::ORDERED_DICT, _) => self.with_children(b"O", row, end),
            (kind::EXTENSION, Edition::Glyph) => self.with_children(b"H", row, end),
            _ => self.with_children(b"X", row, end),
        }
        end as usize
    }

    /// Its children in row order.
    fn with_children(&mut self, letter: &[u8], row: usize, end: u32) {
        self.put(letter);
        let mut next = row + 1;
        while next < end as usize {
            next = self.object(next);
        }
        self.put(b";");
    }

    /// A plain dict, by the byte order of its keys.
    fn dict(&mut self, row: usize, pairs: u32, end: u32) {
        let mut keys = Vec::with_capacity(pairs as usize);
        let mut key = row + 1;
        while key < end as usize {
            let [_, a, b, _] = self.rows.at(key);
            keys.push((&self.text[a as usize..][..b as usize], key));
            let [.., end] = self.rows.at(key + 1);
            key = end as usize;
        }
        keys.sort_unstable();
        self.put(b"D");
        for (_, key) in keys {
            self.object(key);
            self.object(key + 1);
        }
        self.put(b";");
    }

    fn integer(&mut self, number: i32) {
        self.put(if number < 0 { b"i-" } else { b"i" });
        self.number(number.unsigned_abs());
        self.put(b";");
    }

    fn text(&mut self, letter: &[u8], offset: u32, length: u32) {
        self.put(letter);
        if length > 0 {
            self.number(length);
            self.put(b":");
            let text = self.text;
            self.put(&text[offset as usize..][..length as usize]);
        }
        self.put(b";");
    }

    fn number(&mut self, number: u32) {
        let mut bytes = [0; 10];
        let bytes = &mut bytes[..digits(number)];
        let mut left = number;
        for byte in bytes.iter_mut().rev() {
            *byte = b'0' + (left % 10) as u8;
            left /= 10;
        }
        self.put(bytes);
    }

    fn put(&mut self, bytes: &[u8]) {
        let (here, rest) = std::mem::take(&mut self.rest).split_at_mut(bytes.len());
        here.copy_from_slice(bytes);
        self.rest = rest;
    }
}
