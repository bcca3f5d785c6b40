//! Messages that were read.

use crate::{Item, Items, Kind, Refusal, Table, USUAL_NESTING, sys};

/// A message that was read: its rows, in a table that the caller lends, and
/// the bytes in which their contents lie.
#[derive(Clone, Copy, Debug)]
#[must_use]
pub struct Message<'m> {
    table: Table<'m>,
}

/// Reads a message into a table, at the limit of nesting [`USUAL_NESTING`].
/// Every word of the table is settled: the rows, and zeros behind them; on a
/// refusal, zeros. [`crate::TABLE_WORDS`] words have room for any message.
///
/// ```
/// let mut table = [0; binmode::TABLE_WORDS];
/// let message = binmode::read(b"binmode-rpc:RI\x04\0\0\0", &mut table)?;
/// let value = message.root().children().next();
/// assert_eq!(value.and_then(|item| item.integer()), Some(4));
///
/// let refusal = binmode::read(b"binmode-rpc:R<\x02", &mut table).unwrap_err();
/// assert_eq!(refusal.reason, binmode::Reason::UnsetPosition);
/// assert_eq!(refusal.place, 13);
/// # Ok::<(), binmode::Refusal>(())
/// ```
pub fn read<'m>(bytes: &'m [u8], table: &'m mut [u32]) -> Result<Message<'m>, Refusal> {
    read_within(bytes, table, USUAL_NESTING)
}

/// Reads a message as [`read`] does, at this limit of nesting: an Array or
/// Struct stands in at most so many, itself counted. A limit that is not 1 to
/// [`crate::MOST_NESTING`] is refused with [`crate::Reason::NoLimit`], before
/// all else.
///
/// A higher limit, or a larger table, changes no answer other than `TooDeep`,
/// `NoRow`, `NotSplit` and `NoLimit`. What was read at a limit is written at
/// that limit or a higher one.
///
/// ```
/// use binmode::{MOST_NESTING, Reason, read, read_within};
///
/// // Nine Arrays, one in the other.
/// let bytes = [&b"binmode-rpc:R"[..], &b"A\x01\0\0\0".repeat(8), b"A\0\0\0\0"].concat();
/// let (mut table, mut output) = ([0; 64], [0; 64]);
/// let refusal = read(&bytes, &mut table).unwrap_err();
/// assert_eq!((refusal.reason, refusal.place), (Reason::TooDeep, 53));
/// let message = read_within(&bytes, &mut table, MOST_NESTING)?;
/// assert_eq!(message.rows(), 10);
/// assert!(message.write(&mut output).is_err());
/// assert_eq!(message.write_within(MOST_NESTING, &mut output)?, bytes);
/// assert_eq!(read_within(&bytes, &mut table, 33).unwrap_err().reason, Reason::NoLimit);
/// # Ok::<(), binmode::Refusal>(())
/// ```
pub fn read_within<'m>(
    bytes: &'m [u8],
    table: &'m mut [u32],
    limit: usize,
) -> Result<Message<'m>, Refusal> {
    read_by(sys::binmode_read_within, bytes, table, limit)
}

/// A function of the library that reads at a limit of nesting.
type Call = unsafe extern "C" fn(
    *const u8,
    usize,
    *mut u32,
    usize,
    usize,
    *mut usize,
    *mut usize,
    *mut usize,
) -> u8;

/// What such a function makes of these bytes.
pub(crate) fn read_by<'m>(
    call: Call,
    bytes: &'m [u8],
    table: &'m mut [u32],
    limit: usize,
) -> Result<Message<'m>, Refusal> {
    let (mut rows, mut used, mut place) = (0, 0, 0);
    // SAFETY: the slices and the three numbers are valid for the call, and
    // those that are written overlap nothing.
    let number = unsafe {
        call(
            bytes.as_ptr(),
            bytes.len(),
            table.as_mut_ptr(),
            table.len(),
            limit,
            &mut rows,
            &mut used,
            &mut place,
        )
    };
    match number {
        sys::ACCEPTED => Ok(Message::read(table, rows, bytes, used)),
        _ => Err(Refusal::given(number, place)),
    }
}

impl<'m> Message<'m> {
    /// What the library read: so many rows and bytes used.
    pub(crate) fn read(words: &'m [u32], rows: usize, bytes: &'m [u8], used: usize) -> Self {
        let text = &bytes[..used];
        Message {
            table: Table { words, rows, text },
        }
    }

    pub fn table(self) -> Table<'m> {
        self.table
    }

    /// The number of rows.
    #[must_use]
    pub fn rows(self) -> usize {
        self.table.rows
    }

    /// The bytes that the message has, those after its end not among them.
    #[must_use]
    pub fn bytes(self) -> &'m [u8] {
        self.table.text
    }

    /// The item of row 0: a Call, a Response or a fault.
    pub fn root(self) -> Item<'m> {
        self.table
            .item(0)
            .expect("a message that was read has a row")
    }

    /// The item of a row.
    #[must_use]
    pub fn item(self, row: usize) -> Option<Item<'m>> {
        self.table.item(row)
    }

    /// The items of all rows, in message order.
    pub fn items(self) -> Items<'m> {
        self.table.items()
    }

    /// The method of a Call.
    #[must_use]
    pub fn method(self) -> Option<&'m str> {
        let call = Some(self.root()).filter(|root| root.kind() == Kind::Call)?;
        call.children().next()?.text()
    }

    /// Writes the message in the one written form, and gives it. Every byte of
    /// the output is settled: the message, and zeros behind it; on a refusal,
    /// zeros. [`crate::MOST_BYTES`] bytes have room for any. The limit of
    /// nesting is [`USUAL_NESTING`]: a message that was read at a higher one
    /// goes to [`Message::write_within`].
    ///
    /// ```
    /// let bytes = b"binmode-rpc:RA\x02\0\0\0U\x02\0\0\0abU\x02\0\0\0ab";
    /// let (mut table, mut output) = ([0; 64], [0; 64]);
    /// let message = binmode::read(bytes, &mut table)?;
    /// let shortest = message.write(&mut output)?;
    /// assert_eq!(shortest, b"binmode-rpc:RA\x02\0\0\0>\0\x02\0\0\0ab<\0");
    /// # Ok::<(), binmode::Refusal>(())
    /// ```
    pub fn write(self, output: &mut [u8]) -> Result<&mut [u8], Refusal> {
        self.table.write(output)
    }

    /// As [`Table::write_within`].
    pub fn write_within(self, limit: usize, output: &mut [u8]) -> Result<&mut [u8], Refusal> {
        self.table.write_within(limit, output)
    }
}
