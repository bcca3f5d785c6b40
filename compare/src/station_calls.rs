//! The library's functions for a station, with all that each reports.

use crate::library::{Answer, CardAnswer, Limit, Looked, Placed, Written};
use crate::state::State;
use binmode::sys;
use second::glyph::Edition;

/// What a reported count is before the call: none that is ever reported.
const NOT_REPORTED: usize = usize::MAX;

/// Where a share lies.
#[derive(Clone, Copy, Debug, PartialEq, Eq)]
pub struct Lying {
    pub number: u8,
    pub first: usize,
    pub length: usize,
}

/// Whose share it is: the row that splits the table, and the station's number.
#[derive(Clone, Copy, Debug)]
pub struct Whose {
    pub split: usize,
    pub station: u8,
}

impl Whose {
    pub fn share(self, words: usize) -> Lying {
        let (mut first, mut length) = (NOT_REPORTED, NOT_REPORTED);
        // SAFETY: the two numbers are valid for the call.
        let number =
            unsafe { sys::binmode_share(words, self.split, self.station, &mut first, &mut length) };
        Lying {
            number,
            first,
            length,
        }
    }

    pub fn read(self, message: &[u8], table: &mut [u32], limit: Limit) -> Answer {
        let Whose { split, station } = self;
        let (mut rows, mut used, mut place) = (NOT_REPORTED, NOT_REPORTED, NOT_REPORTED);
        // SAFETY: the slices and the numbers are valid for the call, and those
        // that are written overlap nothing. So it is in all that follow.
        let number = unsafe {
            let (bytes, length) = (message.as_ptr(), message.len());
            let (words, count) = (table.as_mut_ptr(), table.len());
            let (rows, used, place) = (&mut rows, &mut used, &mut place);
            match limit {
                None => sys::binmode_station_read(
                    bytes, length, words, count, split, station, rows, used, place,
                ),
                Some(limit) => sys::binmode_station_read_within(
                    bytes, length, words, count, split, station, limit, rows, used, place,
                ),
            }
        };
        Answer {
            number,
            rows,
            used,
            place,
        }
    }

    /// Reads a message of an edition, at a limit of nesting that is stated.
    pub fn read_glyph(
        self,
        message: &[u8],
        table: &mut [u32],
        edition: Edition,
        limit: usize,
    ) -> Answer {
        let call = match edition {
            Edition::Hyperglyph => sys::binmode_station_read_hyperglyph,
            Edition::Glyph => sys::binmode_station_read_glyph,
        };
        let (mut rows, mut used, mut place) = (NOT_REPORTED, NOT_REPORTED, NOT_REPORTED);
        // SAFETY: as above.
        let number = unsafe {
            call(
                message.as_ptr(),
                message.len(),
                table.as_mut_ptr(),
                table.len(),
                self.split,
                self.station,
                limit,
                &mut rows,
                &mut used,
                &mut place,
            )
        };
        Answer {
            number,
            rows,
            used,
            place,
        }
    }

    pub fn read_card(self, file: &[u8], number: usize, table: &mut [u32]) -> CardAnswer {
        let (mut rows, mut used) = (NOT_REPORTED, NOT_REPORTED);
        let (mut place, mut body) = (NOT_REPORTED, NOT_REPORTED);
        // SAFETY: as above.
        let number = unsafe {
            sys::binmode_station_read_card(
                file.as_ptr(),
                file.len(),
                number,
                table.as_mut_ptr(),
                table.len(),
                self.split,
                self.station,
                &mut rows,
                &mut used,
                &mut place,
                &mut body,
            )
        };
        CardAnswer {
            number,
            rows,
            used,
            place,
            body,
        }
    }

    pub fn next(
        self,
        state: &mut State,
        piece: &[u8],
        room: &mut [u8],
        table: &mut [u32],
        limit: Limit,
    ) -> u8 {
        let Whose { split, station } = self;
        // SAFETY: as above.
        unsafe {
            let (bytes, length) = (piece.as_ptr(), piece.len());
            let (to, size) = (room.as_mut_ptr(), room.len());
            let (words, count) = (table.as_mut_ptr(), table.len());
            match limit {
                None => sys::binmode_station_pieces_next(
                    state, bytes, length, to, size, words, count, split, station,
                ),
                Some(limit) => sys::binmode_station_pieces_next_within(
                    state, bytes, length, to, size, words, count, split, station, limit,
                ),
            }
        }
    }

    pub fn end(self, state: &mut State, room: &[u8], table: &mut [u32], limit: Limit) -> u8 {
        let Whose { split, station } = self;
        // SAFETY: as above.
        unsafe {
            let (from, size) = (room.as_ptr(), room.len());
            let (words, count) = (table.as_mut_ptr(), table.len());
            match limit {
                None => {
                    sys::binmode_station_pieces_end(state, from, size, words, count, split, station)
                }
                Some(limit) => sys::binmode_station_pieces_end_within(
                    state, from, size, words, count, split, station, limit,
                ),
            }
        }
    }

    pub fn write(
        self,
        table: &[u32],
        rows: usize,
        text: &[u8],
        limit: Limit,
        output: &mut [u8],
    ) -> Written {
        let Whose { split, station } = self;
        let mut length = NOT_REPORTED;
        // SAFETY: as above.
        let number = unsafe {
            let (words, count) = (table.as_ptr(), table.len());
            let (text, size) = (text.as_ptr(), text.len());
            let (to, room) = (output.as_mut_ptr(), output.len());
            let length = &mut length;
            match limit {
                None => sys::binmode_station_write(
                    words, count, split, station, rows, text, size, to, room, length,
                ),
                Some(limit) => sys::binmode_station_write_within(
                    words, count, split, station, rows, text, size, limit, to, room, length,
                ),
            }
        };
        Written { number, length }
    }

    /// Writes a table in an edition, at a limit of nesting that is stated.
    pub fn write_glyph(
        self,
        table: &[u32],
        rows: usize,
        text: &[u8],
        edition: Edition,
        limit: usize,
        output: &mut [u8],
    ) -> Written {
        let call = match edition {
            Edition::Hyperglyph => sys::binmode_station_write_hyperglyph,
            Edition::Glyph => sys::binmode_station_write_glyph,
        };
        let mut length = NOT_REPORTED;
        // SAFETY: as above.
        let number = unsafe {
            call(
                table.as_ptr(),
                table.len(),
                self.split,
                self.station,
                rows,
                text.as_ptr(),
                text.len(),
                limit,
                output.as_mut_ptr(),
                output.len(),
                &mut length,
            )
        };
        Written { number, length }
    }

    pub fn write_planned(
        self,
        table: &[u32],
        rows: usize,
        text: &[u8],
        plan: &[u8],
        limit: Limit,
        output: &mut [u8],
    ) -> Written {
        let Whose { split, station } = self;
        let mut length = NOT_REPORTED;
        // SAFETY: as above.
        let number = unsafe {
            let (words, count) = (table.as_ptr(), table.len());
            let (text, size) = (text.as_ptr(), text.len());
            let (plan, pairs) = (plan.as_ptr(), plan.len());
            let (to, room) = (output.as_mut_ptr(), output.len());
            let length = &mut length;
            match limit {
                None => sys::binmode_station_write_planned(
                    words, count, split, station, rows, text, size, plan, pairs, to, room, length,
                ),
                Some(limit) => sys::binmode_station_write_planned_within(
                    words, count, split, station, rows, text, size, plan, pairs, limit, to, room,
                    length,
                ),
            }
        };
        Written { number, length }
    }

    /// What it reports on is `rubbish` before the call.
    pub fn lookup(
        self,
        rubbish: u32,
        table: &[u32],
        rows: usize,
        text: &[u8],
        row: usize,
        key: &[u8],
    ) -> Looked {
        let (mut sort, mut number) = (rubbish as u8, rubbish.into());
        let mut decimal = f64::from_bits(rubbish.into());
        let (mut offset, mut length) = (rubbish as usize, rubbish as usize);
        // SAFETY: as above.
        let refusal = unsafe {
            sys::binmode_station_lookup(
                table.as_ptr(),
                table.len(),
                self.split,
                self.station,
                rows,
                text.as_ptr(),
                text.len(),
                row,
                key.as_ptr(),
                key.len(),
                &mut sort,
                &mut number,
                &mut decimal,
                &mut offset,
                &mut length,
            )
        };
        Looked {
            refusal,
            sort,
            number,
            decimal: decimal.to_bits(),
            offset,
            length,
        }
    }

    /// What it reports on is `rubbish` before the call.
    pub fn position(
        self,
        rubbish: u32,
        table: &[u32],
        rows: usize,
        text: &[u8],
        row: usize,
    ) -> Placed {
        let mut parts = [f64::from_bits(rubbish.into()); 3];
        let [x, y, turn] = &mut parts;
        // SAFETY: as above.
        let refusal = unsafe {
            sys::binmode_station_position(
                table.as_ptr(),
                table.len(),
                self.split,
                self.station,
                rows,
                text.as_ptr(),
                text.len(),
                row,
                x,
                y,
                turn,
            )
        };
        Placed {
            refusal,
            parts: parts.map(f64::to_bits),
        }
    }
}
