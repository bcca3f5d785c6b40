//! Stations four and five on one table, which a row splits between them.

use crate::{Job, Message, Refusal, USUAL_NESTING, sys};

/// A station, by which the rows of a table are its own.
#[derive(Clone, Copy, Debug, PartialEq, Eq, Hash)]
#[repr(u8)]
pub enum Station {
    /// The rows below the row that splits the table.
    Four = 4,
    /// The rest of the whole rows.
    Five = 5,
}

/// A station's share of a table that is split at a row. The table is any, and
/// is handed to each call; a call changes the share alone. With a row that is 0
/// or not below the table's whole rows every call is refused with
/// [`Reason::NotSplit`](crate::Reason::NotSplit), and nothing is changed.
///
/// ```
/// use binmode::{Share, Station};
///
/// let (four, five) = (Share::new(Station::Four, 2), Share::new(Station::Five, 2));
/// let mut table = [7; 17];
/// four.read(b"binmode-rpc:RI\x04\0\0\0", &mut table)?;
/// let message = five.read(b"binmode-rpc:Rt", &mut table)?;
/// assert_eq!(message.items().count(), 2);
/// // What four has read stands, in columns of two words, and the word beyond the last whole row too.
/// assert_eq!(table[..8], [2, 4, 0, 4, 1, 0, 2, 2]);
/// assert_eq!(table[16], 7);
/// # Ok::<(), binmode::Refusal>(())
/// ```
#[derive(Clone, Copy, Debug, PartialEq, Eq, Hash)]
#[must_use]
pub struct Share {
    pub station: Station,
    /// The first row that is five's.
    pub split: usize,
}

impl Share {
    pub fn new(station: Station, split: usize) -> Self {
        Share { station, split }
    }

    /// Where the share lies in a table of so many words: its first word, and
    /// how many words it has.
    fn lies(self, words: usize) -> Result<(usize, usize), Refusal> {
        let (mut first, mut length) = (0, 0);
        // SAFETY: the two numbers are valid for the call.
        let answer = unsafe {
            let station = self.station as u8;
            sys::binmode_share(words, self.split, station, &mut first, &mut length)
        };
        match answer {
            sys::ACCEPTED => Ok((first, length)),
            _ => Err(Refusal::given(answer, 0)),
        }
    }

    /// The share's words, a table of its own.
    pub fn of(self, table: &[u32]) -> Result<&[u32], Refusal> {
        let (first, length) = self.lies(table.len())?;
        Ok(&table[first..][..length])
    }

    /// Reads a message into the share, as [`read`](crate::read()) does into a
    /// table.
    pub fn read<'m>(self, bytes: &'m [u8], table: &'m mut [u32]) -> Result<Message<'m>, Refusal> {
        self.read_within(bytes, table, USUAL_NESTING)
    }

    /// Reads a message into the share, as
    /// [`read_within`](crate::read_within()) does into a table.
    pub fn read_within<'m>(
        self,
        bytes: &'m [u8],
        table: &'m mut [u32],
        limit: usize,
    ) -> Result<Message<'m>, Refusal> {
        let (mut rows, mut used, mut place) = (0, 0, 0);
        // SAFETY: the slices and the three numbers are valid for the call, and
        // those that are written overlap nothing.
        let answer = unsafe {
            sys::binmode_station_read_within(
                bytes.as_ptr(),
                bytes.len(),
                table.as_mut_ptr(),
                table.len(),
                self.split,
                self.station as u8,
                limit,
                &mut rows,
                &mut used,
                &mut place,
            )
        };
        match answer {
            sys::ACCEPTED => Ok(Message::read(self.of(table)?, rows, bytes, used)),
            _ => Err(Refusal::given(answer, place)),
        }
    }

    /// Reads the card of a number into the share, as [`Job::read_card`] does
    /// into a table.
    pub fn read_card<'f>(
        self,
        job: Job<'f>,
        number: usize,
        table: &'f mut [u32],
    ) -> Result<(usize, Message<'f>), Refusal> {
        let file = job.file();
        let (mut rows, mut used, mut place, mut body) = (0, 0, 0, 0);
        // SAFETY: the slices and the four numbers are valid for the call, and
        // those that are written overlap nothing.
        let answer = unsafe {
            sys::binmode_station_read_card(
                file.as_ptr(),
                file.len(),
                number,
                table.as_mut_ptr(),
                table.len(),
                self.split,
                self.station as u8,
                &mut rows,
                &mut used,
                &mut place,
                &mut body,
            )
        };
        match answer {
            sys::ACCEPTED => {
                let message = Message::read(self.of(table)?, rows, &file[body..], used);
                Ok((body, message))
            }
            _ => Err(Refusal::given(answer, place)),
        }
    }
}

/// Both stations' shares of a table, four's first, each a table of its own: for
/// any function of this crate, and for both at the same time.
///
/// ```
/// let mut table = [0; 64];
/// let (four, five) = binmode::shares(&mut table, 6)?;
/// let first = binmode::read(b"binmode-rpc:Rt", four)?;
/// let second = binmode::read(b"binmode-rpc:Rf", five)?;
/// assert_eq!((first.rows(), second.rows()), (2, 2));
/// # Ok::<(), binmode::Refusal>(())
/// ```
pub fn shares(table: &mut [u32], split: usize) -> Result<(&mut [u32], &mut [u32]), Refusal> {
    let (_, four) = Share::new(Station::Four, split).lies(table.len())?;
    let (_, five) = Share::new(Station::Five, split).lies(table.len())?;
    let (first, rest) = table.split_at_mut(four);
    Ok((first, &mut rest[..five]))
}

/// A message of which the pieces come one after the other, for a station. The
/// table is handed to each call, so that the other station can use it in
/// between; the share is left alone. So is the room, of at least
/// [`crate::MOST_BYTES`] bytes.
///
/// ```
/// use binmode::{Share, Station, StationPieces};
///
/// let (mut room, mut table) = (vec![0; binmode::MOST_BYTES], vec![0; 64]);
/// let mut pieces = StationPieces::start(Share::new(Station::Five, 6));
/// pieces.take(b"binmode-rpc:RI", &mut room, &mut table)?;
/// Share::new(Station::Four, 6).read(b"binmode-rpc:Rt", &mut table)?;
/// pieces.take(b"\x04\0\0\0", &mut room, &mut table)?;
/// assert!(!pieces.wants_more());
/// assert_eq!(pieces.end(&room, &mut table)?.rows(), 2);
/// # Ok::<(), binmode::Refusal>(())
/// ```
#[derive(Clone, Copy, Debug)]
#[must_use]
pub struct StationPieces {
    state: sys::Pieces,
    share: Share,
    limit: usize,
}

impl StationPieces {
    /// A message of which nothing has come: more is wanted. The limit of
    /// nesting is [`USUAL_NESTING`].
    pub fn start(share: Share) -> Self {
        StationPieces::start_within(share, USUAL_NESTING)
    }

    /// The same, at this limit of nesting, for all its calls. One that is not 1
    /// to [`crate::MOST_NESTING`] is refused with [`crate::Reason::NoLimit`] by
    /// the first of them.
    pub fn start_within(share: Share, limit: usize) -> Self {
        let mut state = sys::Pieces::default();
        // SAFETY: the state is valid for the call.
        unsafe { sys::binmode_pieces_start(&mut state) };
        StationPieces {
            state,
            share,
            limit,
        }
    }

    /// Takes the next piece. Once the message is decided, later pieces change
    /// nothing. Refused is only a row that does not split the table, and then
    /// the message can go on with another table.
    pub fn take(
        &mut self,
        piece: &[u8],
        room: &mut [u8],
        table: &mut [u32],
    ) -> Result<(), Refusal> {
        // SAFETY: the state and the slices are valid for the call, and those
        // that are written overlap nothing.
        let answer = unsafe {
            sys::binmode_station_pieces_next_within(
                &mut self.state,
                piece.as_ptr(),
                piece.len(),
                room.as_mut_ptr(),
                room.len(),
                table.as_mut_ptr(),
                table.len(),
                self.share.split,
                self.share.station as u8,
                self.limit,
            )
        };
        match answer {
            sys::NOT_SPLIT => Err(Refusal::given(answer, 0)),
            _ => Ok(()),
        }
    }

    /// Whether the message is not decided yet.
    #[must_use]
    pub fn wants_more(&self) -> bool {
        self.state.answer == usize::from(sys::MORE_WANTED)
    }

    /// While more is wanted: with fewer bytes than this, counted from the
    /// message's first, no answer comes. It is at most one more than
    /// [`crate::MOST_BYTES`]: with that byte there is an answer in any case.
    #[must_use]
    pub fn wanted(&self) -> usize {
        self.state.wanted
    }

    /// Says that no more pieces come, and gives the message: one of which more
    /// is wanted is refused with `Ended`.
    pub fn end<'m>(mut self, room: &'m [u8], table: &'m mut [u32]) -> Result<Message<'m>, Refusal> {
        // SAFETY: as in `take`.
        let answer = unsafe {
            sys::binmode_station_pieces_end_within(
                &mut self.state,
                room.as_ptr(),
                room.len(),
                table.as_mut_ptr(),
                table.len(),
                self.share.split,
                self.share.station as u8,
                self.limit,
            )
        };
        let sys::Pieces {
            rows, used, place, ..
        } = self.state;
        match answer {
            sys::ACCEPTED => Ok(Message::read(self.share.of(table)?, rows, room, used)),
            sys::NOT_SPLIT => Err(Refusal::given(answer, 0)),
            _ => Err(Refusal::given(answer, place)),
        }
    }
}
