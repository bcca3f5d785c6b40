//! The reader of both editions: message bytes into a lent table of rows.

use super::Edition;
use crate::keys::Keys;
use crate::layout::{Layout, RowsMut};
use crate::reader::Read;
use crate::rules::*;

/// Reads a message into a table, at the limit of nesting of a call that states
/// none.
pub fn read<L: Layout>(message: &[u8], table: &mut [u32], edition: Edition) -> Read {
    read_within::<L>(message, table, edition, USUAL_LIMIT)
}

/// Reads a message into a table, at this limit of nesting. Every word of the
/// table is settled: the words of the rows, zeros in all others, and all zeros
/// on a refusal.
pub fn read_within<L: Layout>(
    message: &[u8],
    table: &mut [u32],
    edition: Edition,
    limit: usize,
) -> Read {
    match read_rows(message, L::rows_mut(table), edition, limit) {
        Ok((rows, used)) => {
            L::clear_behind(table, rows);
            Read::Accepted { rows, used }
        }
        Err(Refusal { number, place }) => {
            table.fill(0);
            let place = place as usize;
            Read::Refused { number, place }
        }
    }
}

/// Kept small, since every part of the reader hands it on.
struct Refusal {
    number: u8,
    place: u32,
}

type Answer<T> = Result<T, Refusal>;

fn refuse<T>(number: u8, place: usize) -> Answer<T> {
    let place = place as u32;
    Err(Refusal { number, place })
}

/// Gives the number of rows and of bytes used; leaves the other rows as they
/// happen to be.
fn read_rows(
    message: &[u8],
    rows: impl RowsMut,
    edition: Edition,
    limit: usize,
) -> Answer<(usize, usize)> {
    if !is_limit(limit) {
        return refuse(refusal::LIMIT, 0);
    }
    if message.len() > BYTE_LIMIT {
        return refuse(refusal::BYTES, 0);
    }
    let mut reader = Reader {
        message,
        at: 0,
        rows,
        filled: 0,
        edition,
        limit,
    };
    let used = reader.root()?;
    Ok((reader.filled, used))
}

struct Reader<'m, R> {
    message: &'m [u8],
    /// The first byte not read yet.
    at: usize,
    rows: R,
    filled: usize,
    edition: Edition,
    /// Of nesting.
    limit: usize,
}

impl<'m, R: RowsMut> Reader<'m, R> {
    /// Blanks, an object, blanks, and nothing more: gives where the object
    /// ends.
    fn root(&mut self) -> Answer<usize> {
        self.blanks();
        self.object(0)?;
        let used = self.at;
        self.blanks();
        match self.at == self.message.len() {
            true => Ok(used),
            false => refuse(refusal::TAG, self.at),
        }
    }

    /// Space, tab, vertical tab, carriage return and line feed.
    fn blanks(&mut self) {
        while let Some(b' ' | b'\t' | 0x0b | b'\r' | b'\n') = self.message.get(self.at) {
            self.at += 1;
        }
    }

    /// Reads an object that stands in `nesting` of those with children.
    fn object(&mut self, nesting: usize) -> Answer<()> {
        match self.due()? {
            b'i' => self.integer(),
            b'u' => self.text(kind::STRING).map(drop),
            b'b' => self.text(kind::BINARY).map(drop),
            b'T' => self.single([kind::BOOLEAN, 1, 0]),
            b'F' => self.single([kind::BOOLEAN, 0, 0]),
            b'N' => self.single([kind::NIL, 0, 0]),
            b'L' => self.list(nesting),
            b'D' => self.dict(kind::STRUCT, nesting),
            b'O' => self.dict(kind::ORDERED_DICT, nesting),
            b'X' if self.edition == Edition::Glyph => self.node(nesting),
            b'X' => self.extension(nesting),
            b'H' if self.edition == Edition::Glyph => self.extension(nesting),
            _ => refuse(refusal::TAG, self.at),
        }
    }

    /// Reads a unicode where nothing else is allowed, and gives its bytes.
    fn unicode(&mut self) -> Answer<&'m [u8]> {
        match self.due()? {
            b'u' => self.text(kind::STRING),
            _ => refuse(refusal::TAG, self.at),
        }
    }

    /// Reads a dict of either sort where nothing else is allowed.
    fn either_dict(&mut self, nesting: usize) -> Answer<()> {
        match self.due()? {
            b'D' => self.dict(kind::STRUCT, nesting),
            b'O' => self.dict(kind::ORDERED_DICT, nesting),
            _ => refuse(refusal::TAG, self.at),
        }
    }

    /// `T`, `F` or `N`, which has been seen, and the `;`.
    fn single(&mut self, words: [u32; 3]) -> Answer<()> {
        let place = self.at;
        let row = self.take_row()?;
        self.ends(place + 1, place)?;
        self.leaf(row, words, place + 2);
        Ok(())
    }

    /// Reads an integer; its letter has been seen.
    fn integer(&mut self) -> Answer<()> {
        let place = self.at;
        let row = self.take_row()?;
        let (is_negative, digits) = match self.inside(place + 1, place)? {
            b'-' => (true, place + 2),
            b'+' => (false, place + 2),
            _ => (false, place + 1),
        };
        let (number, end) = self.number(digits, place)?;
        self.ends(end, place)?;
        let most = i32::MAX as u64 + u64::from(is_negative);
        if number > most {
            return refuse(refusal::RANGE, place);
        }
        let bits = match is_negative {
            true => (number as u32).wrapping_neg(),
            false => number as u32,
        };
        self.leaf(row, [kind::INTEGER, bits, 0], end + 1);
        Ok(())
    }

    /// Reads a unicode or bytearray, whose letter has been seen, and gives its
    /// bytes.
    fn text(&mut self, kind: u32) -> Answer<&'m [u8]> {
        let place = self.at;
        let row = self.take_row()?;
        let (start, length) = match self.inside(place + 1, place)? {
            b';' => (place + 1, 0),
            _ => {
                let (length, end) = self.number(place + 1, place)?;
                if self.inside(end, place)? != b':' {
                    return refuse(refusal::TAG, place);
                }
                (end + 1, length)
            }
        };
        let rest = &self.message[start..];
        if length > rest.len() as u64 {
            return refuse(refusal::CUT, place);
        }
        let content = &rest[..length as usize];
        let end = start + content.len();
        self.ends(end, place)?;
        if kind == kind::STRING && std::str::from_utf8(content).is_err() {
            return refuse(refusal::TEXT, place);
        }
        self.leaf(row, [kind, start as u32, content.len() as u32], end + 1);
        Ok(content)
    }

    /// Reads a list; its letter has been seen.
    fn list(&mut self, nesting: usize) -> Answer<()> {
        let row = self.open(nesting)?;
        let mut count = 0;
        while self.due()? != b';' {
            self.object(nesting + 1)?;
            self.blanks();
            count += 1;
        }
        self.close(row, kind::ARRAY, count)
    }

    /// Reads a dict of one sort; its letter has been seen.
    fn dict(&mut self, kind: u32, nesting: usize) -> Answer<()> {
        let row = self.open(nesting)?;
        let mut keys = Keys::uncounted();
        let mut pairs = 0;
        while self.due()? != b';' {
            let place = self.at;
            if !keys.add(self.unicode()?) {
                return refuse(refusal::KEY, place);
            }
            self.blanks();
            self.object(nesting + 1)?;
            self.blanks();
            pairs += 1;
        }
        self.close(row, kind, pairs)
    }

    /// Reads an extension, whose letter has been seen: a name, attributes and
    /// a content.
    fn extension(&mut self, nesting: usize) -> Answer<()> {
        let row = self.open(nesting)?;
        self.unicode()?;
        self.blanks();
        self.either_dict(nesting + 1)?;
        self.blanks();
        self.object(nesting + 1)?;
        self.blanks();
        self.close(row, kind::EXTENSION, 3)
    }

    /// Reads a node, whose letter has been seen: any three objects.
    fn node(&mut self, nesting: usize) -> Answer<()> {
        let row = self.open(nesting)?;
        for _ in 0..3 {
            self.object(nesting + 1)?;
            self.blanks();
        }
        self.close(row, kind::NODE, 3)
    }

    /// Gives the row of an object with children, whose letter has been seen,
    /// and goes on to the first child.
    fn open(&mut self, nesting: usize) -> Answer<usize> {
        if nesting >= self.limit {
            return refuse(refusal::NESTING, self.at);
        }
        let row = self.take_row()?;
        self.at += 1;
        self.blanks();
        Ok(row)
    }

    /// Fills the row of an object with so many children or pairs, whose `;` is
    /// due.
    fn close(&mut self, row: usize, kind: u32, count: u32) -> Answer<()> {
        if self.due()? != b';' {
            return refuse(refusal::TAG, self.at);
        }
        self.at += 1;
        self.rows.put(row, [kind, 0, count, self.filled as u32]);
        Ok(())
    }

    /// The byte here, where an object or the `;` of one with children is due.
    fn due(&self) -> Answer<u8> {
        self.inside(self.at, self.at)
    }

    /// A byte of the object without children that begins at `place`.
    fn inside(&self, at: usize, place: usize) -> Answer<u8> {
        match self.message.get(at) {
            Some(&byte) => Ok(byte),
            None => refuse(refusal::CUT, place),
        }
    }

    /// The object without children that begins at `place` has its `;` here.
    fn ends(&self, at: usize, place: usize) -> Answer<()> {
        match self.inside(at, place)? {
            b';' => Ok(()),
            _ => refuse(refusal::TAG, place),
        }
    }

    /// A number of one digit or more, in an object that begins at `place`, and
    /// where it ends. One that 64 bits don't hold is too large for anything.
    fn number(&self, at: usize, place: usize) -> Answer<(u64, usize)> {
        if !self.inside(at, place)?.is_ascii_digit() {
            return refuse(refusal::TAG, place);
        }
        let mut number = 0_u64;
        let mut end = at;
        while let Some(digit @ b'0'..=b'9') = self.message.get(end) {
            let digit = u64::from(digit - b'0');
            number = number.saturating_mul(10).saturating_add(digit);
            end += 1;
        }
        Ok((number, end))
    }

    /// The next row, for the object here.
    fn take_row(&mut self) -> Answer<usize> {
        if self.filled == self.rows.len() {
            return refuse(refusal::ROWS, self.at);
        }
        self.filled += 1;
        Ok(self.filled - 1)
    }

    /// Fills the row of an object without children, which ends before `end`.
    fn leaf(&mut self, row: usize, [kind, a, b]: [u32; 3], end: usize) {
        self.rows.put(row, [kind, a, b, row as u32 + 1]);
        self.at = end;
    }
}
