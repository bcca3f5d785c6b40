//! Messages in pieces, as a serial port or a pipe brings them.

use crate::{Message, Refusal, USUAL_NESTING, sys};

/// A message of which the pieces come one after the other. They are held in a
/// room that the caller lends, of at least [`crate::MOST_BYTES`] bytes, and
/// the answer and the table are in the end those of [`crate::read`] on all the
/// bytes at once, however they are cut; or of [`crate::read_within`], at the
/// limit of nesting that it was started with.
///
/// ```
/// use binmode::Pieces;
///
/// let (mut room, mut table) = (vec![0; binmode::MOST_BYTES], vec![0; 64]);
/// let mut pieces = Pieces::start(&mut room, &mut table);
/// for piece in [&b"binmode-r"[..], b"pc:RI\x04\0", b"\0\0 and more", b"!"] {
///     if !pieces.wants_more() {
///         break;
///     }
///     pieces.take(piece);
/// }
/// assert_eq!(pieces.end()?.bytes().len(), 18);
/// # Ok::<(), binmode::Refusal>(())
/// ```
#[derive(Debug)]
#[must_use]
pub struct Pieces<'r> {
    state: sys::Pieces,
    room: &'r mut [u8],
    table: &'r mut [u32],
    limit: usize,
}

impl<'r> Pieces<'r> {
    /// A message of which nothing has come: more is wanted. The limit of
    /// nesting is [`USUAL_NESTING`].
    pub fn start(room: &'r mut [u8], table: &'r mut [u32]) -> Self {
        Pieces::start_within(room, table, USUAL_NESTING)
    }

    /// The same, at this limit of nesting, for all its calls. One that is not 1
    /// to [`crate::MOST_NESTING`] is refused with [`crate::Reason::NoLimit`] by
    /// the first of them.
    pub fn start_within(room: &'r mut [u8], table: &'r mut [u32], limit: usize) -> Self {
        let mut state = sys::Pieces::default();
        // SAFETY: the state is valid for the call.
        unsafe { sys::binmode_pieces_start(&mut state) };
        Pieces {
            state,
            room,
            table,
            limit,
        }
    }

    /// Takes the next piece. Once the message is decided, later pieces change
    /// nothing.
    pub fn take(&mut self, piece: &[u8]) {
        // SAFETY: the state and the slices are valid for the call, and those
        // that are written overlap nothing.
        unsafe {
            sys::binmode_pieces_next_within(
                &mut self.state,
                piece.as_ptr(),
                piece.len(),
                self.room.as_mut_ptr(),
                self.room.len(),
                self.table.as_mut_ptr(),
                self.table.len(),
                self.limit,
            )
        };
    }

    /// Whether the message is not decided yet.
    #[must_use]
    pub fn wants_more(&self) -> bool {
        self.state.answer == usize::from(sys::MORE_WANTED)
    }

    /// While more is wanted: with fewer bytes than this, counted from the
    /// message's first, no answer comes. It is at most one more than
    /// [`crate::MOST_BYTES`]: with that byte there is an answer in any case.
    #[must_use]
    pub fn wanted(&self) -> usize {
        self.state.wanted
    }

    /// Says that no more pieces come, and gives the message: one of which more
    /// is wanted is refused with `Ended`.
    pub fn end(mut self) -> Result<Message<'r>, Refusal> {
        // SAFETY: as in `take`.
        let answer = unsafe {
            sys::binmode_pieces_end_within(
                &mut self.state,
                self.room.as_ptr(),
                self.room.len(),
                self.table.as_mut_ptr(),
                self.table.len(),
                self.limit,
            )
        };
        let sys::Pieces {
            rows, used, place, ..
        } = self.state;
        match answer {
            sys::ACCEPTED => Ok(Message::read(self.table, rows, self.room, used)),
            _ => Err(Refusal::given(answer, place)),
        }
    }
}
