//! Tables: rows, the items that they are, and what is below an item.

use crate::{MOST_ROWS, Message, ROW_WORDS, Refusal, USUAL_NESTING, sys};
use core::fmt::{self, Display, Formatter};
use core::iter::FusedIterator;

/// The kinds of items. The numbers are those of `link/binmode.h`.
#[derive(Clone, Copy, Debug, PartialEq, Eq, Hash)]
#[non_exhaustive]
#[repr(u32)]
pub enum Kind {
    /// A method, a String, and an Array.
    Call = 1,
    /// A Response with a Value.
    Response = 2,
    /// A Response with a fault, a Struct.
    Fault = 3,
    Integer = 4,
    Boolean = 5,
    Double = 6,
    DateTime = 7,
    Binary = 8,
    /// Any number of Values.
    Array = 9,
    /// Any number of members: a key, a String, and a Value. The keys differ.
    Struct = 10,
    String = 11,
    /// A type name, a String, and a Binary.
    Other = 12,
    /// Nil of a glyph message.
    Nil = 13,
    /// As a Struct, of a glyph message; the order of its members matters.
    OrderedDict = 14,
    /// A name, attributes and content, of a glyph message.
    Extension = 15,
    /// Three objects of any sort, of a message of glyph 0.5.
    Node = 16,
}

impl Kind {
    const ALL: [Kind; 16] = [
        Kind::Call,
        Kind::Response,
        Kind::Fault,
        Kind::Integer,
        Kind::Boolean,
        Kind::Double,
        Kind::DateTime,
        Kind::Binary,
        Kind::Array,
        Kind::Struct,
        Kind::String,
        Kind::Other,
        Kind::Nil,
        Kind::OrderedDict,
        Kind::Extension,
        Kind::Node,
    ];

    /// The kind's number.
    #[must_use]
    pub const fn number(self) -> u32 {
        self as u32
    }

    /// The kind of a number, if it is one's.
    #[must_use]
    pub fn from_number(number: u32) -> Option<Kind> {
        Kind::ALL.into_iter().find(|kind| kind.number() == number)
    }
}

impl Display for Kind {
    fn fmt(&self, to: &mut Formatter) -> fmt::Result {
        match self {
            Kind::Fault => to.write_str("Response with fault"),
            other => fmt::Debug::fmt(other, to),
        }
    }
}

/// Where the word of a row stands in a table of so many words, 0 to 3 for
/// kind, a, b and end: a table is a column of kinds, then one of a's, one of
/// b's and one of ends, each as long as its [`room`]. The one place that knows
/// the layout of a table.
#[must_use]
pub const fn word_place(words: usize, row: usize, word: usize) -> usize {
    room(words) * word + row
}

/// How many rows a table of so many words has room for.
#[must_use]
pub const fn room(words: usize) -> usize {
    if words / ROW_WORDS < MOST_ROWS {
        words / ROW_WORDS
    } else {
        MOST_ROWS
    }
}

/// Sets a row of a table that is to be written: kind, a, b and end. Whether
/// the table has room for it; if not, nothing is set.
#[must_use]
pub fn set_row(table: &mut [u32], row: usize, words: [u32; ROW_WORDS]) -> bool {
    let fits = row < room(table.len());
    if fits {
        for (number, word) in words.into_iter().enumerate() {
            table[word_place(table.len(), row, number)] = word;
        }
    }
    fits
}

/// Any table: its words, its stated number of rows, and the bytes in which its
/// contents lie. It need not be one that was read.
#[derive(Clone, Copy, Debug)]
#[must_use]
pub struct Table<'t> {
    pub words: &'t [u32],
    pub rows: usize,
    pub text: &'t [u8],
}

impl<'t> Table<'t> {
    /// The item of a row, if there is such a row and it has a kind.
    #[must_use]
    pub fn item(self, row: usize) -> Option<Item<'t>> {
        if row >= self.rows || row >= room(self.words.len()) {
            return None;
        }
        let words = [0, 1, 2, 3].map(|word| self.words[word_place(self.words.len(), row, word)]);
        let kind = Kind::from_number(words[0])?;
        Some(Item {
            table: self,
            row,
            kind,
            words,
        })
    }

    /// A column of the stated rows, 0 to 3 for kind, a, b and end, as far as the
    /// table has room: word r of it is that of row r.
    ///
    /// ```
    /// let mut words = [0; binmode::TABLE_WORDS];
    /// let message = binmode::read(b"binmode-rpc:RA\x02\0\0\0tf", &mut words)?;
    /// assert_eq!(message.table().column(0), [2, 9, 5, 5]);
    /// assert_eq!(message.table().column(3), [4, 4, 3, 4]);
    /// # Ok::<(), binmode::Refusal>(())
    /// ```
    #[must_use]
    pub fn column(self, word: usize) -> &'t [u32] {
        assert!(word < ROW_WORDS, "a row has four words");
        let first = word_place(self.words.len(), 0, word);
        &self.words[first..][..self.rows.min(room(self.words.len()))]
    }

    /// The items of all rows, in message order.
    pub fn items(self) -> Items<'t> {
        Items {
            table: self,
            next: 0,
        }
    }

    /// Writes the table as a message, in the one written form, and gives it.
    /// Every byte of the output is settled: the message, and zeros behind it;
    /// on a refusal, zeros. The limit of nesting is [`USUAL_NESTING`].
    pub fn write(self, output: &mut [u8]) -> Result<&mut [u8], Refusal> {
        self.write_within(USUAL_NESTING, output)
    }

    /// Writes the table as [`Table::write`] does, at this limit of nesting. One
    /// that is not 1 to [`crate::MOST_NESTING`] is refused with
    /// [`crate::Reason::NoLimit`], before all else.
    pub fn write_within(self, limit: usize, output: &mut [u8]) -> Result<&mut [u8], Refusal> {
        self.write_by(sys::binmode_write_within, limit, output)
    }

    /// What such a function writes of the table.
    pub(crate) fn write_by(
        self,
        call: WriteCall,
        limit: usize,
        output: &mut [u8],
    ) -> Result<&mut [u8], Refusal> {
        let mut length = 0;
        // SAFETY: the slices and the number are valid for the call, and those
        // that are written overlap nothing.
        let number = unsafe {
            call(
                self.words.as_ptr(),
                self.words.len(),
                self.rows,
                self.text.as_ptr(),
                self.text.len(),
                limit,
                output.as_mut_ptr(),
                output.len(),
                &mut length,
            )
        };
        match number {
            sys::ACCEPTED => Ok(&mut output[..length]),
            _ => Err(Refusal::given(number, 0)),
        }
    }
}

/// A function of the library that writes a table, at a limit of nesting.
type WriteCall = unsafe extern "C" fn(
    *const u32,
    usize,
    usize,
    *const u8,
    usize,
    usize,
    *mut u8,
    usize,
    *mut usize,
) -> u8;

impl<'m> From<Message<'m>> for Table<'m> {
    fn from(message: Message<'m>) -> Self {
        message.table()
    }
}

/// An item of a table: its row, and what is in it and below it.
#[derive(Clone, Copy, Debug)]
#[must_use]
pub struct Item<'t> {
    table: Table<'t>,
    row: usize,
    kind: Kind,
    words: [u32; ROW_WORDS],
}

impl<'t> Item<'t> {
    pub fn table(self) -> Table<'t> {
        self.table
    }

    /// The row's number.
    #[must_use]
    pub fn row(self) -> usize {
        self.row
    }

    #[must_use]
    pub fn kind(self) -> Kind {
        self.kind
    }

    /// The row's words: kind, a, b and end.
    #[must_use]
    pub fn words(self) -> [u32; ROW_WORDS] {
        self.words
    }

    /// The value of an Integer.
    #[must_use]
    pub fn integer(self) -> Option<i32> {
        let [_, a, _, _] = self.words;
        (self.kind == Kind::Integer).then_some(a.cast_signed())
    }

    /// The value of a Boolean.
    #[must_use]
    pub fn boolean(self) -> Option<bool> {
        let [_, a, _, _] = self.words;
        (self.kind == Kind::Boolean).then_some(a != 0)
    }

    /// The content bytes of a String, Double, DateTime or Binary.
    #[must_use]
    pub fn bytes(self) -> Option<&'t [u8]> {
        let [_, a, b, _] = self.words;
        match self.kind {
            Kind::String | Kind::Double | Kind::DateTime | Kind::Binary => {
                self.table.text.get(a as usize..)?.get(..b as usize)
            }
            _ => None,
        }
    }

    /// The text of a String, Double or DateTime. In a table that was read, or
    /// that is writable, each has one.
    #[must_use]
    pub fn text(self) -> Option<&'t str> {
        match self.kind {
            Kind::Binary => None,
            _ => str::from_utf8(self.bytes()?).ok(),
        }
    }

    /// The items right below this one, in message order.
    pub fn children(self) -> Children<'t> {
        let [_, _, _, end] = self.words;
        Children {
            table: self.table,
            next: self.row + 1,
            end: end as usize,
        }
    }

    /// The members of a Struct, or of an ordered dict, each its key and its
    /// value; none of another item.
    pub fn members(self) -> Members<'t> {
        let mut children = self.children();
        if !matches!(self.kind, Kind::Struct | Kind::OrderedDict) {
            children.end = 0;
        }
        Members { children }
    }
}

/// The items of all rows of a table.
#[derive(Clone, Debug)]
pub struct Items<'t> {
    table: Table<'t>,
    next: usize,
}

impl<'t> Iterator for Items<'t> {
    type Item = Item<'t>;

    fn next(&mut self) -> Option<Item<'t>> {
        let item = self.table.item(self.next)?;
        self.next += 1;
        Some(item)
    }
}

impl FusedIterator for Items<'_> {}

/// The items right below another.
#[derive(Clone, Debug)]
pub struct Children<'t> {
    table: Table<'t>,
    next: usize,
    end: usize,
}

impl<'t> Iterator for Children<'t> {
    type Item = Item<'t>;

    fn next(&mut self) -> Option<Item<'t>> {
        if self.next >= self.end {
            return None;
        }
        let item = self.table.item(self.next)?;
        let [_, _, _, end] = item.words;
        // A child that doesn't end behind its row is in no writable table.
        self.next = if self.next < end as usize {
            end as usize
        } else {
            self.end
        };
        Some(item)
    }
}

impl FusedIterator for Children<'_> {}

/// The members of a Struct.
#[derive(Clone, Debug)]
pub struct Members<'t> {
    children: Children<'t>,
}

impl<'t> Iterator for Members<'t> {
    type Item = (&'t str, Item<'t>);

    fn next(&mut self) -> Option<(&'t str, Item<'t>)> {
        let key = self.children.next()?;
        Some((key.text()?, self.children.next()?))
    }
}
