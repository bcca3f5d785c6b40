//! The reader: message bytes into a lent table of rows.

use crate::keys::Keys;
use crate::layout::{Layout, RowsMut};
use crate::rules::*;

/// The reader's answer.
#[derive(Clone, Copy, Debug, PartialEq, Eq)]
pub enum Read {
    Accepted { rows: usize, used: usize },
    Refused { number: u8, place: usize },
}

/// Reads a message into a table, at the limit of nesting of a call that states
/// none.
pub fn read<L: Layout>(message: &[u8], table: &mut [u32]) -> Read {
    read_within::<L>(message, table, USUAL_LIMIT)
}

/// Reads a message into a table, at this limit of nesting. Every word of the
/// table is settled: the words of the rows, zeros in all others, and all zeros
/// on a refusal.
pub fn read_within<L: Layout>(message: &[u8], table: &mut [u32], limit: usize) -> Read {
    match read_rows::<L>(message, table, limit) {
        Ok((rows, used)) => {
            L::clear_behind(table, rows);
            Read::Accepted { rows, used }
        }
        Err(Refusal { number, place }) => {
            table.fill(0);
            let place = place as usize;
            Read::Refused { number, place }
        }
    }
}

/// Kept small, since every part of the reader hands it on.
struct Refusal {
    number: u8,
    place: u32,
}

type Answer<T> = Result<T, Refusal>;

fn refuse<T>(number: u8, place: usize) -> Answer<T> {
    let place = place as u32;
    Err(Refusal { number, place })
}

/// Where a text stands in the message.
#[derive(Clone, Copy)]
struct Text {
    offset: u32,
    length: u32,
}

/// No text stands at 0, where the prefix is.
const NEVER_SET: Text = Text {
    offset: 0,
    length: 0,
};

/// Reads a message of whatever length, with refusal 10 put aside, and nested as
/// deep as a writable table may be: gives the number of rows and of bytes used,
/// or nothing. Rows not used are as they happen to be.
pub fn read_any_length<L: Layout>(message: &[u8], table: &mut [u32]) -> Option<(usize, usize)> {
    read_all(message, L::rows_mut(table), NESTING_LIMIT).ok()
}

/// Gives the number of rows and of bytes used; leaves the other rows as they
/// happen to be.
fn read_rows<L: Layout>(message: &[u8], table: &mut [u32], limit: usize) -> Answer<(usize, usize)> {
    if !is_limit(limit) {
        return refuse(refusal::LIMIT, 0);
    }
    if message.len() > BYTE_LIMIT {
        return refuse(refusal::BYTES, 0);
    }
    read_all(message, L::rows_mut(table), limit)
}

fn read_all(message: &[u8], rows: impl RowsMut, limit: usize) -> Answer<(usize, usize)> {
    let present = message.len().min(PREFIX.len());
    if message[..present] != PREFIX[..present] {
        return refuse(refusal::PREFIX, 0);
    }
    if present < PREFIX.len() {
        return refuse(refusal::CUT, 0);
    }
    let mut reader = Reader {
        message,
        at: PREFIX.len(),
        rows,
        filled: 0,
        codebook: [NEVER_SET; POSITIONS],
        limit,
    };
    reader.call_or_response()?;
    Ok((reader.filled, reader.at))
}

struct Reader<'m, R> {
    message: &'m [u8],
    /// The first byte not read yet.
    at: usize,
    rows: R,
    filled: usize,
    codebook: [Text; POSITIONS],
    /// Of nesting.
    limit: usize,
}

impl<'m, R: RowsMut> Reader<'m, R> {
    fn call_or_response(&mut self) -> Answer<()> {
        let place = self.at;
        match self.tag(place)? {
            b'C' => {
                let row = self.take_row(place)?;
                self.at = place + 1;
                self.string()?;
                self.container(b'A', 0)?;
                self.rows.put(row, [kind::CALL, 0, 2, self.filled as u32]);
            }
            b'R' => {
                let row = self.take_row(place)?;
                self.at = place + 1;
                let kind = if self.tag(self.at)? == b'F' {
                    self.at += 1;
                    let place = self.at;
                    self.container(b'S', 0)?;
                    if !has_fault_members(self.rows.first(self.filled), self.message) {
                        return refuse(refusal::FAULT, place);
                    }
                    kind::FAULT
                } else {
                    self.value(0)?;
                    kind::RESPONSE
                };
                self.rows.put(row, [kind, 0, 1, self.filled as u32]);
            }
            _ => return refuse(refusal::TAG, place),
        }
        Ok(())
    }

    /// Reads a Value that stands in `nesting` Arrays and Structs.
    fn value(&mut self, nesting: usize) -> Answer<()> {
        let place = self.at;
        match self.tag(place)? {
            b'I' => {
                let row = self.take_row(place)?;
                let bits = self.four_bytes(place + 1, place)?;
                self.leaf(row, [kind::INTEGER, bits, 0], place + 5);
            }
            b't' => {
                let row = self.take_row(place)?;
                self.leaf(row, [kind::BOOLEAN, 1, 0], place + 1);
            }
            b'f' => {
                let row = self.take_row(place)?;
                self.leaf(row, [kind::BOOLEAN, 0, 0], place + 1);
            }
            b'D' => self.ascii(kind::DOUBLE)?,
            b'8' => self.ascii(kind::DATE_TIME)?,
            b'B' => self.binary()?,
            b'A' => self.array(nesting)?,
            b'S' => self.structure(nesting)?,
            b'O' => self.other()?,
            b'U' | b'>' | b'<' => {
                self.string()?;
            }
            _ => return refuse(refusal::TAG, place),
        }
        Ok(())
    }

    /// Reads an Array or a Struct where nothing else is allowed.
    fn container(&mut self, tag: u8, nesting: usize) -> Answer<()> {
        if self.tag(self.at)? != tag {
            return refuse(refusal::TAG, self.at);
        }
        match tag {
            b'A' => self.array(nesting),
            _ => self.structure(nesting),
        }
    }

    fn array(&mut self, nesting: usize) -> Answer<()> {
        let (row, count) = self.begin_container(nesting)?;
        for _ in 0..count {
            self.value(nesting + 1)?;
        }
        self.rows
            .put(row, [kind::ARRAY, 0, count, self.filled as u32]);
        Ok(())
    }

    fn structure(&mut self, nesting: usize) -> Answer<()> {
        let (row, pairs) = self.begin_container(nesting)?;
        let mut keys = Keys::new(pairs, self.rows.len());
        for _ in 0..pairs {
            let place = self.at;
            let key = self.string()?;
            if !keys.add(self.bytes_of(key)) {
                return refuse(refusal::KEY, place);
            }
            self.value(nesting + 1)?;
        }
        self.rows
            .put(row, [kind::STRUCT, 0, pairs, self.filled as u32]);
        Ok(())
    }

    /// Gives the row and the count of an Array or Struct.
    fn begin_container(&mut self, nesting: usize) -> Answer<(usize, u32)> {
        let place = self.at;
        if nesting >= self.limit {
            return refuse(refusal::NESTING, place);
        }
        let row = self.take_row(place)?;
        let count = self.four_bytes(place + 1, place)?;
        self.at = place + 5;
        Ok((row, count))
    }

    /// Reads a Double or DateTime; its tag has been seen.
    fn ascii(&mut self, kind: u32) -> Answer<()> {
        let place = self.at;
        let row = self.take_row(place)?;
        let Some(&size) = self.message.get(place + 1) else {
            return refuse(refusal::CUT, place);
        };
        let content = self.content(place + 2, size.into(), place)?;
        if !content.is_ascii() {
            return refuse(refusal::TEXT, place);
        }
        let is_right = match kind {
            kind::DOUBLE => is_double(content),
            _ => is_date_time(content),
        };
        if !is_right {
            return refuse(refusal::DOUBLE_OR_DATE, place);
        }
        let end = place + 2 + content.len();
        self.leaf(row, [kind, (place + 2) as u32, size.into()], end);
        Ok(())
    }

    /// Reads a Binary; its tag has been seen.
    fn binary(&mut self) -> Answer<()> {
        let place = self.at;
        let row = self.take_row(place)?;
        let length = self.four_bytes(place + 1, place)?;
        let end = place + 5 + self.content(place + 5, length, place)?.len();
        self.leaf(row, [kind::BINARY, (place + 5) as u32, length], end);
        Ok(())
    }

    /// Reads an Other; its tag has been seen.
    fn other(&mut self) -> Answer<()> {
        let place = self.at;
        let row = self.take_row(place)?;
        self.at = place + 1;
        let name = self.string()?;
        if is_standard_name(self.bytes_of(name)) {
            return refuse(refusal::NAME, place);
        }
        if self.tag(self.at)? != b'B' {
            return refuse(refusal::TAG, self.at);
        }
        self.binary()?;
        self.rows.put(row, [kind::OTHER, 0, 2, self.filled as u32]);
        Ok(())
    }

    fn string(&mut self) -> Answer<Text> {
        let place = self.at;
        let tag = self.tag(place)?;
        if !matches!(tag, b'U' | b'>' | b'<') {
            return refuse(refusal::TAG, place);
        }
        let row = self.take_row(place)?;
        let (text, end) = match tag {
            b'U' => self.text(place + 1, place)?,
            b'>' => {
                let position = self.position(place)?;
                let (text, end) = self.text(place + 2, place)?;
                self.codebook[position] = text;
                (text, end)
            }
            _ => {
                let text = self.codebook[self.position(place)?];
                if text.offset == NEVER_SET.offset {
                    return refuse(refusal::RECALL, place);
                }
                (text, place + 2)
            }
        };
        self.leaf(row, [kind::STRING, text.offset, text.length], end);
        Ok(text)
    }

    fn bytes_of(&self, text: Text) -> &'m [u8] {
        &self.message[text.offset as usize..][..text.length as usize]
    }

    /// The codebook position of the string at `place`.
    fn position(&self, place: usize) -> Answer<usize> {
        match self.message.get(place + 1) {
            Some(&position) => Ok(position.into()),
            None => refuse(refusal::CUT, place),
        }
    }

    /// A text whose length field stands at `at`, and where it ends.
    fn text(&self, at: usize, place: usize) -> Answer<(Text, usize)> {
        let length = self.four_bytes(at, place)?;
        let content = self.content(at + 4, length, place)?;
        if std::str::from_utf8(content).is_err() {
            return refuse(refusal::TEXT, place);
        }
        let offset = (at + 4) as u32;
        Ok((Text { offset, length }, at + 4 + content.len()))
    }

    /// The byte that begins the item at `place`.
    fn tag(&self, place: usize) -> Answer<u8> {
        match self.message.get(place) {
            Some(&tag) => Ok(tag),
            None => refuse(refusal::CUT, place),
        }
    }

    /// A four-byte field of the item at `place`.
    fn four_bytes(&self, at: usize, place: usize) -> Answer<u32> {
        match self.message.get(at..).and_then(<[u8]>::first_chunk) {
            Some(&bytes) => Ok(u32::from_le_bytes(bytes)),
            None => refuse(refusal::CUT, place),
        }
    }

    /// The content of the item at `place`; `at` is inside the message or its
    /// end.
    fn content(&self, at: usize, length: u32, place: usize) -> Answer<&'m [u8]> {
        match self.message[at..].get(..length as usize) {
            Some(content) => Ok(content),
            None => refuse(refusal::CUT, place),
        }
    }

    /// The next row, for the item at `place`.
    fn take_row(&mut self, place: usize) -> Answer<usize> {
        if self.filled == self.rows.len() {
            return refuse(refusal::ROWS, place);
        }
        self.filled += 1;
        Ok(self.filled - 1)
    }

    /// Fills the row of an item without children, which ends before `end`.
    fn leaf(&mut self, row: usize, [kind, a, b]: [u32; 3], end: usize) {
        self.rows.put(row, [kind, a, b, row as u32 + 1]);
        self.at = end;
    }
}
