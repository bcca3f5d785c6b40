//! Members of a Struct, looked up by their keys; positions; and job defaults
//! behind a card.

use crate::{Item, Refusal, Table, sys};

/// What looking up a member answers.
#[derive(Clone, Copy, Debug)]
pub enum Member<'t> {
    /// An Integer.
    WholeNumber(i64),
    /// A Double: the f64 nearest to the number that its text says.
    Decimal(f64),
    /// A Boolean.
    YesOrNo(bool),
    /// A String.
    Text(&'t str),
    /// A DateTime, Binary, Array, Struct or Other.
    Item(Item<'t>),
}

/// A position: the members x, y and turn of a Struct.
#[derive(Clone, Copy, Debug, PartialEq)]
pub struct Position {
    pub x: f64,
    pub y: f64,
    pub turn: f64,
}

/// Where a text comes from.
#[derive(Clone, Copy, Debug, PartialEq, Eq)]
pub enum Source {
    Card,
    Defaults,
}

/// A part of the bytes in which a writable table's texts lie.
fn text_in(bytes: &[u8], offset: usize, length: usize) -> &str {
    let text = &bytes[offset..][..length];
    str::from_utf8(text).expect("a String of a writable table is UTF-8")
}

/// What was reported of a key in a table.
pub(crate) fn reported<'t>(table: Table<'t>, report: sys::Report) -> Result<Member<'t>, Refusal> {
    if report.refusal != sys::ACCEPTED {
        return Err(Refusal::given(report.refusal, 0));
    }
    Ok(match report.sort {
        1 => Member::WholeNumber(report.number),
        2 => Member::Decimal(report.decimal),
        3 => Member::YesOrNo(report.number != 0),
        4 => Member::Text(text_in(table.text, report.offset, report.length)),
        _ => {
            let item = table.item(report.number as usize);
            Member::Item(item.expect("a row of a writable table has a kind"))
        }
    })
}

impl<'t> Item<'t> {
    /// Looks up the member with a key in this Struct. The table may be any:
    /// one that is not writable is refused first. A refusal is `NotWritable`,
    /// `NoMember` or `TooManyDigits`.
    ///
    /// ```
    /// use binmode::{Member, Reason};
    ///
    /// let bytes = b"binmode-rpc:RS\x01\0\0\0U\x01\0\0\0xD\x032.5";
    /// let mut table = [0; 64];
    /// let card = binmode::read(bytes, &mut table)?;
    /// let values = card.root().children().next().expect("a Value");
    /// assert!(matches!(values.lookup("x")?, Member::Decimal(2.5)));
    /// assert_eq!(values.lookup("y").unwrap_err().reason, Reason::NoMember);
    /// # Ok::<(), binmode::Refusal>(())
    /// ```
    pub fn lookup(self, key: impl AsRef<[u8]>) -> Result<Member<'t>, Refusal> {
        let (table, key) = (self.table(), key.as_ref());
        let (mut sort, mut whole, mut decimal) = (0, 0, 0.0);
        let (mut offset, mut length) = (0, 0);
        // SAFETY: the slices and the five numbers are valid for the call, and
        // those that are written overlap nothing.
        let number = unsafe {
            sys::binmode_lookup(
                table.words.as_ptr(),
                table.words.len(),
                table.rows,
                table.text.as_ptr(),
                table.text.len(),
                self.row(),
                key.as_ptr(),
                key.len(),
                &mut sort,
                &mut whole,
                &mut decimal,
                &mut offset,
                &mut length,
            )
        };
        let report = sys::Report {
            refusal: number,
            sort,
            number: whole,
            decimal,
            offset,
            length,
        };
        reported(table, report)
    }

    /// The position in this Struct: its members x, y and turn, each a Double.
    /// A refusal is `NotWritable`, `NoMember` or `TooManyDigits`.
    pub fn position(self) -> Result<Position, Refusal> {
        let table = self.table();
        let (mut x, mut y, mut turn) = (0.0, 0.0, 0.0);
        // SAFETY: the slices and the three numbers are valid for the call, and
        // those that are written overlap nothing.
        let number = unsafe {
            sys::binmode_position(
                table.words.as_ptr(),
                table.words.len(),
                table.rows,
                table.text.as_ptr(),
                table.text.len(),
                self.row(),
                &mut x,
                &mut y,
                &mut turn,
            )
        };
        match number {
            sys::ACCEPTED => Ok(Position { x, y, turn }),
            _ => Err(Refusal::given(number, 0)),
        }
    }

    /// The text under a key in this Struct, a card's, or in the defaults' if
    /// the card's lacks the key; with where it comes from. A refusal is
    /// `NotWritable` or `NoMember`.
    pub fn text_or_default(
        self,
        defaults: Item<'t>,
        key: impl AsRef<[u8]>,
    ) -> Result<(&'t str, Source), Refusal> {
        let (card, behind, key) = (self.table(), defaults.table(), key.as_ref());
        let (mut source, mut offset, mut length) = (0, 0, 0);
        // SAFETY: the slices and the three numbers are valid for the call, and
        // those that are written overlap nothing.
        let number = unsafe {
            sys::binmode_default_text(
                card.words.as_ptr(),
                card.words.len(),
                card.rows,
                card.text.as_ptr(),
                card.text.len(),
                self.row(),
                behind.words.as_ptr(),
                behind.words.len(),
                behind.rows,
                behind.text.as_ptr(),
                behind.text.len(),
                defaults.row(),
                key.as_ptr(),
                key.len(),
                &mut source,
                &mut offset,
                &mut length,
            )
        };
        if number != sys::ACCEPTED {
            return Err(Refusal::given(number, 0));
        }
        let (source, bytes) = match source {
            0 => (Source::Card, card.text),
            _ => (Source::Defaults, behind.text),
        };
        Ok((text_in(bytes, offset, length), source))
    }
}
