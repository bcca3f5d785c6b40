//! Writing with a plan, and prices that prove it shortest.

use crate::{Message, Refusal, Table, USUAL_NESTING, sys};

/// How a plan sends a string: the first of its two bytes. The second is the
/// position, which is 0 with `Regular`.
#[derive(Clone, Copy, Debug, PartialEq, Eq, Hash)]
#[repr(u8)]
pub enum Form {
    /// In full, `U`.
    Regular = 0,
    /// In full, and its position holds the text from then on, `>`.
    Recorded = 1,
    /// By its position, which holds the text, `<`.
    Recalled = 2,
}

impl Table<'_> {
    /// Writes the stated rows by a plan, two bytes for each string in row
    /// order, and gives the message: the shorter of the plan's and of what
    /// [`Table::write`] writes. A plan that does not send the table's strings
    /// is refused with [`crate::Reason::NotTaken`]. Every byte of the output is
    /// settled, as by [`Table::write`], and the limit of nesting is the same.
    ///
    /// ```
    /// let bytes = b"binmode-rpc:RA\x02\0\0\0U\x02\0\0\0abU\x02\0\0\0ab";
    /// let (mut table, mut output) = ([0; 64], [0; 64]);
    /// let message = binmode::read(bytes, &mut table)?;
    /// // Recorded at position 7, then recalled: one byte more than U, and then
    /// // five fewer. The prices are those of the two gaps.
    /// let plan = [1, 7, 2, 7];
    /// assert_eq!(message.write_planned(&plan, &mut output)?.len(), 28);
    /// assert!(message.proves_shortest(&plan, &[0, 0]));
    /// assert!(message.write_planned(&[0, 7, 0, 0], &mut output).is_err());
    /// # Ok::<(), binmode::Refusal>(())
    /// ```
    pub fn write_planned<'o>(
        self,
        plan: &[u8],
        output: &'o mut [u8],
    ) -> Result<&'o mut [u8], Refusal> {
        self.write_planned_within(plan, USUAL_NESTING, output)
    }

    /// Writes by a plan as [`Table::write_planned`] does, at this limit of
    /// nesting. One that is not 1 to [`crate::MOST_NESTING`] is refused with
    /// [`crate::Reason::NoLimit`], before all else.
    pub fn write_planned_within<'o>(
        self,
        plan: &[u8],
        limit: usize,
        output: &'o mut [u8],
    ) -> Result<&'o mut [u8], Refusal> {
        let mut length = 0;
        // SAFETY: the slices and the number are valid for the call, and those
        // that are written overlap nothing.
        let number = unsafe {
            sys::binmode_write_planned_within(
                self.words.as_ptr(),
                self.words.len(),
                self.rows,
                self.text.as_ptr(),
                self.text.len(),
                plan.as_ptr(),
                plan.len(),
                limit,
                output.as_mut_ptr(),
                output.len(),
                &mut length,
            )
        };
        match number {
            sys::ACCEPTED => Ok(&mut output[..length]),
            _ => Err(Refusal::given(number, 0)),
        }
    }

    /// Whether a plan and prices, one for each string in row order, prove that
    /// no message with the table's meaning is shorter than the plan's. That does
    /// not depend on a limit of nesting. `false` is no statement.
    #[must_use]
    pub fn proves_shortest(self, plan: &[u8], prices: &[u32]) -> bool {
        // SAFETY: the slices are valid for the call, and nothing is written.
        let answer = unsafe {
            sys::binmode_proves_shortest(
                self.words.as_ptr(),
                self.words.len(),
                self.rows,
                self.text.as_ptr(),
                self.text.len(),
                plan.as_ptr(),
                plan.len(),
                prices.as_ptr(),
                prices.len(),
            )
        };
        answer == 1
    }
}

impl Message<'_> {
    /// As [`Table::write_planned`].
    pub fn write_planned<'o>(
        self,
        plan: &[u8],
        output: &'o mut [u8],
    ) -> Result<&'o mut [u8], Refusal> {
        self.table().write_planned(plan, output)
    }

    /// As [`Table::write_planned_within`].
    pub fn write_planned_within<'o>(
        self,
        plan: &[u8],
        limit: usize,
        output: &'o mut [u8],
    ) -> Result<&'o mut [u8], Refusal> {
        self.table().write_planned_within(plan, limit, output)
    }

    /// As [`Table::proves_shortest`].
    #[must_use]
    pub fn proves_shortest(self, plan: &[u8], prices: &[u32]) -> bool {
        self.table().proves_shortest(plan, prices)
    }
}
