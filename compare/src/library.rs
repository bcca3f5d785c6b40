//! The library's functions with all that each reports, also where a refusal
//! leaves nothing to say: the numbers of `link/binmode.h` as they are. What
//! they report on is none of these before the call.

use binmode::sys;
use second::glyph::Edition;

/// The limit of nesting that a call states, if it states one.
pub type Limit = Option<usize>;

/// What a reported count is before the call: none that is ever reported.
const NOT_REPORTED: usize = usize::MAX;

/// What reading a message reports.
#[derive(Clone, Copy, Debug, PartialEq, Eq)]
pub struct Answer {
    pub number: u8,
    pub rows: usize,
    pub used: usize,
    pub place: usize,
}

/// What writing a table reports.
#[derive(Clone, Copy, Debug, PartialEq, Eq)]
pub struct Written {
    pub number: u8,
    pub length: usize,
}

/// What reading a card of a job file reports.
#[derive(Clone, Copy, Debug, PartialEq, Eq)]
pub struct CardAnswer {
    pub number: u8,
    pub rows: usize,
    pub used: usize,
    pub place: usize,
    pub body: usize,
}

/// What looking for the next card of a job file reports.
#[derive(Clone, Copy, Debug, PartialEq, Eq)]
pub struct CardFound {
    pub number: u8,
    pub start: usize,
    pub length: usize,
    pub place: usize,
}

/// What looking up a member reports; the decimal by its bits.
#[derive(Clone, Copy, Debug, Default, PartialEq, Eq)]
pub struct Looked {
    pub refusal: u8,
    pub sort: u8,
    pub number: i64,
    pub decimal: u64,
    pub offset: usize,
    pub length: usize,
}

/// What a position reports, by the bits of its parts.
#[derive(Clone, Copy, Debug, PartialEq, Eq)]
pub struct Placed {
    pub refusal: u8,
    pub parts: [u64; 3],
}

pub fn read(message: &[u8], table: &mut [u32], limit: Limit) -> Answer {
    let (mut rows, mut used, mut place) = (NOT_REPORTED, NOT_REPORTED, NOT_REPORTED);
    // SAFETY: the slices and the three numbers are valid for the call, and
    // those that are written overlap nothing. So it is in all that follow.
    let number = unsafe {
        let (bytes, length) = (message.as_ptr(), message.len());
        let (words, count) = (table.as_mut_ptr(), table.len());
        let (rows, used, place) = (&mut rows, &mut used, &mut place);
        match limit {
            None => sys::binmode_read(bytes, length, words, count, rows, used, place),
            Some(limit) => {
                sys::binmode_read_within(bytes, length, words, count, limit, rows, used, place)
            }
        }
    };
    Answer {
        number,
        rows,
        used,
        place,
    }
}

/// Reads a message of an edition, at a limit of nesting that is stated.
pub fn read_glyph(message: &[u8], table: &mut [u32], edition: Edition, limit: usize) -> Answer {
    let call = match edition {
        Edition::Hyperglyph => sys::binmode_read_hyperglyph,
        Edition::Glyph => sys::binmode_read_glyph,
    };
    let (mut rows, mut used, mut place) = (NOT_REPORTED, NOT_REPORTED, NOT_REPORTED);
    // SAFETY: as above.
    let number = unsafe {
        call(
            message.as_ptr(),
            message.len(),
            table.as_mut_ptr(),
            table.len(),
            limit,
            &mut rows,
            &mut used,
            &mut place,
        )
    };
    Answer {
        number,
        rows,
        used,
        place,
    }
}

pub fn write(table: &[u32], rows: usize, text: &[u8], limit: Limit, output: &mut [u8]) -> Written {
    let mut length = NOT_REPORTED;
    // SAFETY: as above.
    let number = unsafe {
        let (words, count) = (table.as_ptr(), table.len());
        let (text, size) = (text.as_ptr(), text.len());
        let (to, room) = (output.as_mut_ptr(), output.len());
        let length = &mut length;
        match limit {
            None => sys::binmode_write(words, count, rows, text, size, to, room, length),
            Some(limit) => {
                sys::binmode_write_within(words, count, rows, text, size, limit, to, room, length)
            }
        }
    };
    Written { number, length }
}

/// Writes a table in an edition, at a limit of nesting that is stated.
pub fn write_glyph(
    table: &[u32],
    rows: usize,
    text: &[u8],
    edition: Edition,
    limit: usize,
    output: &mut [u8],
) -> Written {
    let call = match edition {
        Edition::Hyperglyph => sys::binmode_write_hyperglyph,
        Edition::Glyph => sys::binmode_write_glyph,
    };
    let mut length = NOT_REPORTED;
    // SAFETY: as above.
    let number = unsafe {
        call(
            table.as_ptr(),
            table.len(),
            rows,
            text.as_ptr(),
            text.len(),
            limit,
            output.as_mut_ptr(),
            output.len(),
            &mut length,
        )
    };
    Written { number, length }
}

pub fn write_planned(
    table: &[u32],
    rows: usize,
    text: &[u8],
    plan: &[u8],
    limit: Limit,
    output: &mut [u8],
) -> Written {
    let mut length = NOT_REPORTED;
    // SAFETY: as above.
    let number = unsafe {
        let (words, count) = (table.as_ptr(), table.len());
        let (text, size) = (text.as_ptr(), text.len());
        let (plan, pairs) = (plan.as_ptr(), plan.len());
        let (to, room) = (output.as_mut_ptr(), output.len());
        let length = &mut length;
        match limit {
            None => sys::binmode_write_planned(
                words, count, rows, text, size, plan, pairs, to, room, length,
            ),
            Some(limit) => sys::binmode_write_planned_within(
                words, count, rows, text, size, plan, pairs, limit, to, room, length,
            ),
        }
    };
    Written { number, length }
}

pub fn proves_shortest(
    table: &[u32],
    rows: usize,
    text: &[u8],
    plan: &[u8],
    prices: &[u32],
) -> bool {
    // SAFETY: as above; nothing is written.
    let answer = unsafe {
        sys::binmode_proves_shortest(
            table.as_ptr(),
            table.len(),
            rows,
            text.as_ptr(),
            text.len(),
            plan.as_ptr(),
            plan.len(),
            prices.as_ptr(),
            prices.len(),
        )
    };
    assert!(answer <= 1, "yes is 1, and no is 0");
    answer == 1
}

pub fn read_card(file: &[u8], number: usize, table: &mut [u32]) -> CardAnswer {
    let (mut rows, mut used) = (NOT_REPORTED, NOT_REPORTED);
    let (mut place, mut body) = (NOT_REPORTED, NOT_REPORTED);
    // SAFETY: as above.
    let number = unsafe {
        sys::binmode_read_card(
            file.as_ptr(),
            file.len(),
            number,
            table.as_mut_ptr(),
            table.len(),
            &mut rows,
            &mut used,
            &mut place,
            &mut body,
        )
    };
    CardAnswer {
        number,
        rows,
        used,
        place,
        body,
    }
}

pub fn next_card(file: &[u8], number: usize, from: usize) -> CardFound {
    let (mut start, mut length, mut place) = (NOT_REPORTED, NOT_REPORTED, NOT_REPORTED);
    // SAFETY: as above.
    let number = unsafe {
        sys::binmode_next_card(
            file.as_ptr(),
            file.len(),
            number,
            from,
            &mut start,
            &mut length,
            &mut place,
        )
    };
    CardFound {
        number,
        start,
        length,
        place,
    }
}

/// What it reports on is `rubbish` before the call.
pub fn lookup(
    rubbish: u32,
    table: &[u32],
    rows: usize,
    text: &[u8],
    row: usize,
    key: &[u8],
) -> Looked {
    let (mut sort, mut number) = (rubbish as u8, rubbish.into());
    let mut decimal = f64::from_bits(rubbish.into());
    let (mut offset, mut length) = (rubbish as usize, rubbish as usize);
    // SAFETY: as above.
    let refusal = unsafe {
        sys::binmode_lookup(
            table.as_ptr(),
            table.len(),
            rows,
            text.as_ptr(),
            text.len(),
            row,
            key.as_ptr(),
            key.len(),
            &mut sort,
            &mut number,
            &mut decimal,
            &mut offset,
            &mut length,
        )
    };
    Looked {
        refusal,
        sort,
        number,
        decimal: decimal.to_bits(),
        offset,
        length,
    }
}

/// A report of a key looked up through a list.
pub fn looked(report: sys::Report) -> Looked {
    Looked {
        refusal: report.refusal,
        sort: report.sort,
        number: report.number,
        decimal: report.decimal.to_bits(),
        offset: report.offset,
        length: report.length,
    }
}

pub fn index_fill(
    table: &[u32],
    rows: usize,
    text: &[u8],
    row: usize,
    list: &mut [sys::Entry],
) -> u8 {
    // SAFETY: as above.
    unsafe {
        sys::binmode_index_fill(
            table.as_ptr(),
            table.len(),
            rows,
            text.as_ptr(),
            text.len(),
            row,
            list.as_mut_ptr(),
            list.len(),
        )
    }
}

#[allow(clippy::too_many_arguments)] // the library's
pub fn index_find(
    table: &[u32],
    rows: usize,
    text: &[u8],
    row: usize,
    list: &[sys::Entry],
    keys: &[u8],
    ends: &[u32],
    reports: &mut [sys::Report],
) -> u8 {
    // SAFETY: as above.
    unsafe {
        sys::binmode_index_find(
            table.as_ptr(),
            table.len(),
            rows,
            text.as_ptr(),
            text.len(),
            row,
            list.as_ptr(),
            list.len(),
            keys.as_ptr(),
            keys.len(),
            ends.as_ptr(),
            ends.len(),
            reports.as_mut_ptr(),
            reports.len(),
        )
    }
}

/// What it reports on is `rubbish` before the call.
pub fn position(rubbish: u32, table: &[u32], rows: usize, text: &[u8], row: usize) -> Placed {
    let mut parts = [f64::from_bits(rubbish.into()); 3];
    let [x, y, turn] = &mut parts;
    // SAFETY: as above.
    let refusal = unsafe {
        sys::binmode_position(
            table.as_ptr(),
            table.len(),
            rows,
            text.as_ptr(),
            text.len(),
            row,
            x,
            y,
            turn,
        )
    };
    Placed {
        refusal,
        parts: parts.map(f64::to_bits),
    }
}
