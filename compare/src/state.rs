//! The library's state of a message in pieces, and its functions for these.

use crate::library::Limit;
use binmode::sys;
use second::pieces::Outcome;
use second::rules::BYTE_LIMIT;

pub use binmode::sys::Pieces as State;

/// The answer while more is wanted.
pub const MORE_WANTED: usize = sys::MORE_WANTED as usize;

/// Nothing has come. Every number of the state is `rubbish` before.
pub fn start(rubbish: u32) -> State {
    let number = rubbish as usize;
    let mut state = State {
        answer: number,
        rows: number,
        used: number,
        place: number,
        held: number,
        wanted: number,
    };
    // SAFETY: the state is valid for the call.
    unsafe { sys::binmode_pieces_start(&mut state) };
    state
}

pub fn next(
    state: &mut State,
    piece: &[u8],
    room: &mut [u8],
    table: &mut [u32],
    limit: Limit,
) -> u8 {
    // SAFETY: the state and the slices are valid for the call, and those
    // that are written overlap nothing.
    unsafe {
        let (bytes, length) = (piece.as_ptr(), piece.len());
        let (to, size) = (room.as_mut_ptr(), room.len());
        let (words, count) = (table.as_mut_ptr(), table.len());
        match limit {
            None => sys::binmode_pieces_next(state, bytes, length, to, size, words, count),
            Some(limit) => {
                sys::binmode_pieces_next_within(state, bytes, length, to, size, words, count, limit)
            }
        }
    }
}

pub fn end(state: &mut State, room: &[u8], table: &mut [u32], limit: Limit) -> u8 {
    // SAFETY: the state and the slices are valid for the call, and those
    // that are written overlap nothing.
    unsafe {
        let (from, size) = (room.as_ptr(), room.len());
        let (words, count) = (table.as_mut_ptr(), table.len());
        match limit {
            None => sys::binmode_pieces_end(state, from, size, words, count),
            Some(limit) => sys::binmode_pieces_end_within(state, from, size, words, count, limit),
        }
    }
}

/// The second implementation's outcome, but for the bytes wanted.
pub fn of(outcome: Outcome, held: usize) -> State {
    match outcome {
        Outcome::MoreWanted { place } => State {
            answer: MORE_WANTED,
            place,
            held,
            ..State::default()
        },
        Outcome::Accepted { rows, used } => State {
            rows,
            used,
            held,
            ..State::default()
        },
        Outcome::Refused { number, place } => State {
            answer: number.into(),
            place,
            held,
            ..State::default()
        },
    }
}

/// Whether it is this outcome. How many bytes are wanted is the library's own
/// to say, but only while more is wanted, and at most those that bring an
/// answer in any case.
pub fn is(state: &State, outcome: Outcome, held: usize) -> bool {
    let wanted = if state.answer == MORE_WANTED {
        state.wanted.min(BYTE_LIMIT + 1)
    } else {
        0
    };
    let expected = of(outcome, held);
    *state == State { wanted, ..expected }
}
