//! States of a message in pieces that no call gave, and how many bytes are
//! wanted. The state is the struct of the header, as `sys` has it.

use binmode::sys::{self, ACCEPTED, MORE_WANTED};
use binmode::{MOST_BYTES, Pieces};

/// Accepted with two rows.
const FOUR: &[u8] = b"binmode-rpc:RI\x04\0\0\0";
const ENDED: u8 = 1;
/// What an earlier card left in the table.
const LEFT: u32 = 7;

/// States that say they are accepted with 0 rows: zeros, and others.
fn without_rows() -> [sys::Pieces; 2] {
    let zeros = sys::Pieces::default();
    let others = sys::Pieces {
        used: 9,
        place: 9,
        held: 9,
        wanted: 9,
        ..zeros
    };
    [zeros, others]
}

fn next(state: &mut sys::Pieces, piece: &[u8], room: &mut [u8], table: &mut [u32]) -> u8 {
    let (piece, length) = (piece.as_ptr(), piece.len());
    let (to, size) = (room.as_mut_ptr(), room.len());
    let (words, count) = (table.as_mut_ptr(), table.len());
    // SAFETY: the state and the slices are valid for the call, and those that
    // are written overlap nothing.
    unsafe { sys::binmode_pieces_next(state, piece, length, to, size, words, count) }
}

fn end(state: &mut sys::Pieces, room: &[u8], table: &mut [u32]) -> u8 {
    let (from, size) = (room.as_ptr(), room.len());
    let (words, count) = (table.as_mut_ptr(), table.len());
    // SAFETY: as in `next`.
    unsafe { sys::binmode_pieces_end(state, from, size, words, count) }
}

#[test]
fn a_state_that_was_never_started_has_just_begun() {
    let (mut room, mut table) = (vec![0; MOST_BYTES], [LEFT; 16]);
    for mut state in without_rows() {
        let (start, rest) = FOUR.split_at(5);
        table.fill(LEFT);
        assert_eq!(next(&mut state, start, &mut room, &mut table), MORE_WANTED);
        assert_eq!(table, [0; 16]);
        assert_eq!((state.held, state.place), (5, 0));
        assert_eq!(next(&mut state, rest, &mut room, &mut table), ACCEPTED);
        assert_eq!((state.rows, state.used), (2, FOUR.len()));
        assert_eq!(end(&mut state, &room, &mut table), ACCEPTED);
        assert_eq!(table[..4], [2, 4, 0, 0]);
    }
}

#[test]
fn its_end_is_that_of_no_bytes() {
    let (room, mut table) = (vec![0; MOST_BYTES], [LEFT; 16]);
    for mut state in without_rows() {
        table.fill(LEFT);
        assert_eq!(end(&mut state, &room, &mut table), ENDED);
        assert_eq!((state.answer, state.place), (usize::from(ENDED), 0));
        assert_eq!(table, [0; 16]);
    }
}

#[test]
fn no_more_bytes_are_wanted_than_bring_an_answer() {
    let (mut room, mut table) = (vec![0; MOST_BYTES], [0; 16]);
    for announced in [10, MOST_BYTES - 18, MOST_BYTES - 17, 70_000, u32::MAX as usize] {
        let mut pieces = Pieces::start(&mut room, &mut table);
        let length = (announced as u32).to_le_bytes();
        pieces.take(&[b"binmode-rpc:RB", &length[..]].concat());
        assert!(pieces.wants_more());
        assert_eq!(pieces.wanted(), (18 + announced).min(MOST_BYTES + 1));
    }
}
