//! Messages of another data house: hyperglyph 1.0, and glyph 0.5 of its old
//! depot.

use crate::message::read_by;
use crate::{Message, Refusal, Table, sys};

/// Reads a hyperglyph 1.0 message into a table, at this limit of nesting, which
/// is 1 to [`crate::MOST_NESTING`]. Every word of the table is settled, as by
/// [`crate::read`].
///
/// ```
/// use binmode::{Kind, MOST_NESTING, Reason, read_hyperglyph};
///
/// let mut table = [0; 64];
/// let message = read_hyperglyph(b"L i4; T; N; ;", &mut table, MOST_NESTING)?;
/// let kinds: Vec<Kind> = message.items().map(|item| item.kind()).collect();
/// assert_eq!(kinds, [Kind::Array, Kind::Integer, Kind::Boolean, Kind::Nil]);
///
/// let refusal = read_hyperglyph(b"i4294967296;", &mut table, MOST_NESTING).unwrap_err();
/// assert_eq!((refusal.reason, refusal.place), (Reason::OutOfRange, 0));
/// # Ok::<(), binmode::Refusal>(())
/// ```
pub fn read_hyperglyph<'m>(
    bytes: &'m [u8],
    table: &'m mut [u32],
    limit: usize,
) -> Result<Message<'m>, Refusal> {
    read_by(sys::binmode_read_hyperglyph, bytes, table, limit)
}

/// Reads a glyph 0.5 message, likewise.
pub fn read_glyph<'m>(
    bytes: &'m [u8],
    table: &'m mut [u32],
    limit: usize,
) -> Result<Message<'m>, Refusal> {
    read_by(sys::binmode_read_glyph, bytes, table, limit)
}

impl Table<'_> {
    /// Writes the table as a hyperglyph 1.0 message, in the one written form,
    /// and gives it, at this limit of nesting, which is 1 to
    /// [`crate::MOST_NESTING`]. Every byte of the output is settled, as by
    /// [`Table::write`].
    ///
    /// ```
    /// use binmode::{MOST_NESTING, Reason, read_glyph};
    ///
    /// let (mut words, mut output) = ([0; 64], [0; 64]);
    /// let message = read_glyph(b"D u1:b; i+7; u1:a; L; ;", &mut words, MOST_NESTING)?;
    /// let form = message.write_hyperglyph(MOST_NESTING, &mut output)?;
    /// assert_eq!(form, b"Du1:a;L;u1:b;i7;;");
    ///
    /// let node = read_glyph(b"XN;N;N;;", &mut words, MOST_NESTING)?;
    /// assert_eq!(node.write_glyph(MOST_NESTING, &mut output)?, b"XN;N;N;;");
    /// let refusal = node.write_hyperglyph(MOST_NESTING, &mut output).unwrap_err();
    /// assert_eq!(refusal.reason, Reason::NotWritable);
    /// # Ok::<(), binmode::Refusal>(())
    /// ```
    pub fn write_hyperglyph(self, limit: usize, output: &mut [u8]) -> Result<&mut [u8], Refusal> {
        self.write_by(sys::binmode_write_hyperglyph, limit, output)
    }

    /// Writes the table as a glyph 0.5 message, likewise.
    pub fn write_glyph(self, limit: usize, output: &mut [u8]) -> Result<&mut [u8], Refusal> {
        self.write_by(sys::binmode_write_glyph, limit, output)
    }
}

impl Message<'_> {
    /// As [`Table::write_hyperglyph`].
    pub fn write_hyperglyph(self, limit: usize, output: &mut [u8]) -> Result<&mut [u8], Refusal> {
        self.table().write_hyperglyph(limit, output)
    }

    /// As [`Table::write_glyph`].
    pub fn write_glyph(self, limit: usize, output: &mut [u8]) -> Result<&mut [u8], Refusal> {
        self.table().write_glyph(limit, output)
    }
}
