//! Refusals: why, and where.

use core::error::Error;
use core::fmt::{self, Display, Formatter};

/// Why a message, a table or a job file is refused. The numbers are those of
/// `link/binmode.h`.
#[derive(Clone, Copy, Debug, PartialEq, Eq, Hash)]
#[non_exhaustive]
#[repr(u8)]
pub enum Reason {
    /// The bytes end inside or before a needed item.
    Ended = 1,
    /// The first bytes differ from `binmode-rpc:`.
    WrongPrefix = 2,
    /// A byte that begins nothing allowed there.
    UnexpectedByte = 3,
    /// The room for a message in pieces is shorter than 65,536 bytes.
    ShortRoom = 4,
    /// Bad UTF-8, or a byte of 128 or more in a Double or DateTime.
    BadText = 5,
    /// Recall of a position never set in this message.
    UnsetPosition = 6,
    /// An Other with a standard name.
    StandardName = 7,
    /// Nesting over the limit.
    TooDeep = 8,
    /// No row left.
    NoRow = 9,
    /// Message or text bytes over 65,536.
    TooLong = 10,
    /// The table is not writable.
    NotWritable = 11,
    /// The written form is over 65,536 bytes.
    FormTooLong = 12,
    /// The output is shorter than the written form.
    OutputTooShort = 13,
    /// A fault whose Struct holds anything but faultCode, an Integer, and
    /// faultString, a String.
    BadFault = 14,
    /// A job file ends before or inside a record, with no kind 2 yet.
    FileEnded = 15,
    /// A kind 2 body of wrong length or number.
    WrongEnd = 16,
    /// A Double or DateTime in ASCII that is no such text, as `5.` or
    /// 30 February.
    BadValue = 17,
    /// The row is no Struct, or the member is absent or of the wrong sort.
    NoMember = 18,
    /// A Double of more than 15 digits, or of more than 22 after the point.
    TooManyDigits = 19,
    /// A key that its Struct has already, compared as bytes.
    RepeatedKey = 20,
    /// The list of an index is shorter than the member count.
    ShortList = 21,
    /// The row number does not split the table between the stations.
    NotSplit = 22,
    /// The limit of nesting is not 1 to 32.
    NoLimit = 23,
    /// The plan does not send the table's strings.
    NotTaken = 24,
    /// An integer of a glyph message that is not of 32 bits, with its sign.
    OutOfRange = 25,
    /// A sound job ends before the card asked for.
    NoCard = 26,
}

use Reason::*;

impl Reason {
    const ALL: [Reason; 26] = [
        Ended,
        WrongPrefix,
        UnexpectedByte,
        ShortRoom,
        BadText,
        UnsetPosition,
        StandardName,
        TooDeep,
        NoRow,
        TooLong,
        NotWritable,
        FormTooLong,
        OutputTooShort,
        BadFault,
        FileEnded,
        WrongEnd,
        BadValue,
        NoMember,
        TooManyDigits,
        RepeatedKey,
        ShortList,
        NotSplit,
        NoLimit,
        NotTaken,
        OutOfRange,
        NoCard,
    ];

    /// The refusal's number.
    #[must_use]
    pub const fn number(self) -> u8 {
        self as u8
    }

    /// The reason of a number, if it is a refusal's.
    #[must_use]
    pub fn from_number(number: u8) -> Option<Reason> {
        Reason::ALL
            .into_iter()
            .find(|reason| reason.number() == number)
    }

    /// Whether the job file is at fault and not a card, so that the place is
    /// one in the file.
    #[must_use]
    pub const fn is_of_file(self) -> bool {
        matches!(self, FileEnded | WrongEnd | NoCard)
    }

    /// The reason in words.
    #[must_use]
    pub const fn words(self) -> &'static str {
        match self {
            Ended => "the bytes end inside an item, or before one that is needed",
            WrongPrefix => "the first bytes differ from binmode-rpc:",
            UnexpectedByte => "a byte that begins nothing allowed here",
            ShortRoom => "the room for a message in pieces is shorter than 65,536 bytes",
            BadText => "a text that is not UTF-8, or a Double or DateTime that is not ASCII",
            UnsetPosition => "a position of the codebook is recalled that this message has not set",
            StandardName => "an Other has the name of a standard type",
            TooDeep => "Arrays and Structs nested deeper than the limit",
            NoRow => "the table has no row left; the most is 4,096",
            TooLong => "over 65,536 bytes",
            NotWritable => "the table is not writable",
            FormTooLong => "the written form is over 65,536 bytes",
            OutputTooShort => "the output is shorter than the written form",
            BadFault => "a fault's Struct is not faultCode, an Integer, and faultString, a String",
            FileEnded => {
                "the job file ends before or inside a record, with no record of kind 2 yet"
            }
            WrongEnd => "the record of kind 2 has the wrong length or the wrong number of cards",
            BadValue => "the text of a Double or DateTime is no decimal or no date",
            NoMember => "the row is no Struct, or the member is absent or of the wrong sort",
            TooManyDigits => "a Double has more than 15 digits, or more than 22 after the point",
            RepeatedKey => "a key that its Struct has already",
            ShortList => "the list is shorter than the number of members",
            NotSplit => "the row number does not split the table, or there is no such station",
            NoLimit => "the limit of nesting is not 1 to 32",
            NotTaken => "the plan does not send the table's strings",
            OutOfRange => "an integer that is not of 32 bits, with its sign",
            NoCard => "the job has no card of this number",
        }
    }
}

impl Display for Reason {
    fn fmt(&self, to: &mut Formatter) -> fmt::Result {
        to.write_str(self.words())
    }
}

impl Error for Reason {}

/// A refusal: why, and the offset of the first byte of what is refused. A
/// refusal by the writer and by a lookup has place 0.
#[derive(Clone, Copy, Debug, PartialEq, Eq, Hash)]
pub struct Refusal {
    pub reason: Reason,
    pub place: usize,
}

impl Refusal {
    /// The refusal that the library gave. The build has seen to it that the
    /// library is of the version whose numbers these are.
    pub(crate) fn given(number: u8, place: usize) -> Self {
        let reason =
            Reason::from_number(number).expect("the library gives refusals of its version");
        Refusal { reason, place }
    }
}

impl Display for Refusal {
    fn fmt(&self, to: &mut Formatter) -> fmt::Result {
        let (number, place) = (self.reason.number(), self.place);
        write!(to, "refused {number} at {place}: {}", self.reason)
    }
}

impl Error for Refusal {}
