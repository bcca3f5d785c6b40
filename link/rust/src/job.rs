//! Job files: their cards, each by its number or one after the other.

use crate::{MOST_NESTING, Message, Reason, Refusal, read_within, sys};
use core::iter::FusedIterator;

/// A job file.
#[derive(Clone, Copy, Debug)]
#[must_use]
pub struct Job<'f> {
    file: &'f [u8],
}

/// A card of a job file, not yet read.
#[derive(Clone, Copy, Debug, PartialEq, Eq)]
#[must_use]
pub struct Card<'f> {
    /// The card's number, from 0.
    pub number: usize,
    /// Its first byte in the file.
    pub start: usize,
    /// Its bytes, a message.
    pub bytes: &'f [u8],
}

impl<'f> Card<'f> {
    /// Reads the card, with an empty codebook, as [`read_within`] does at the
    /// limit of nesting [`MOST_NESTING`].
    pub fn read(self, table: &'f mut [u32]) -> Result<Message<'f>, Refusal> {
        read_within(self.bytes, table, MOST_NESTING)
    }
}

impl<'f> Job<'f> {
    pub fn new(file: &'f [u8]) -> Self {
        Job { file }
    }

    pub(crate) fn file(self) -> &'f [u8] {
        self.file
    }

    /// The cards, one after the other; and a refusal at the end if the job is
    /// not sound.
    ///
    /// ```
    /// use binmode::{Job, Reason};
    ///
    /// let file = b"\x12\0\0\0\x01\0binmode-rpc:RI\x04\0\0\0\x04\0\0\0\x02\0\x02\0\0\0";
    /// let mut cards = Job::new(file).cards();
    /// let mut table = [0; 64];
    /// let message = cards.next().expect("a card")?.read(&mut table)?;
    /// assert_eq!(message.items().count(), 2);
    /// // The end counts two cards.
    /// let refusal = cards.next().expect("a refusal").unwrap_err();
    /// assert_eq!(refusal.reason, Reason::WrongEnd);
    /// assert!(cards.next().is_none());
    /// # Ok::<(), binmode::Refusal>(())
    /// ```
    pub fn cards(self) -> Cards<'f> {
        Cards {
            file: self.file,
            number: 0,
            from: Some(0),
        }
    }

    /// Reads the card of a number, counted from 0, and says where its first
    /// byte is in the file. The records before it are stepped over in each
    /// call, and the limit of nesting is [`MOST_NESTING`]. The place of a refusal is counted from the card's first byte,
    /// unless the file is at fault ([`Reason::is_of_file`]).
    pub fn read_card(
        self,
        number: usize,
        table: &'f mut [u32],
    ) -> Result<(usize, Message<'f>), Refusal> {
        let (mut rows, mut used, mut place, mut body) = (0, 0, 0, 0);
        // SAFETY: the slices and the four numbers are valid for the call, and
        // those that are written overlap nothing.
        let answer = unsafe {
            sys::binmode_read_card(
                self.file.as_ptr(),
                self.file.len(),
                number,
                table.as_mut_ptr(),
                table.len(),
                &mut rows,
                &mut used,
                &mut place,
                &mut body,
            )
        };
        match answer {
            sys::ACCEPTED => Ok((body, Message::read(table, rows, &self.file[body..], used))),
            _ => Err(Refusal::given(answer, place)),
        }
    }
}

/// The cards of a job file, one after the other.
#[derive(Clone, Debug)]
pub struct Cards<'f> {
    file: &'f [u8],
    number: usize,
    /// Where the next record begins; none once the job has ended.
    from: Option<usize>,
}

impl<'f> Iterator for Cards<'f> {
    type Item = Result<Card<'f>, Refusal>;

    fn next(&mut self) -> Option<Self::Item> {
        let from = self.from.take()?;
        let (mut start, mut length, mut place) = (0, 0, 0);
        // SAFETY: the slice and the three numbers are valid for the call, and
        // those that are written overlap nothing.
        let answer = unsafe {
            sys::binmode_next_card(
                self.file.as_ptr(),
                self.file.len(),
                self.number,
                from,
                &mut start,
                &mut length,
                &mut place,
            )
        };
        if answer != sys::ACCEPTED {
            let refusal = Refusal::given(answer, place);
            return (refusal.reason != Reason::NoCard).then_some(Err(refusal));
        }
        let number = self.number;
        self.number += 1;
        self.from = Some(start + length);
        let bytes = &self.file[start..][..length];
        Some(Ok(Card {
            number,
            start,
            bytes,
        }))
    }
}

impl FusedIterator for Cards<'_> {}
