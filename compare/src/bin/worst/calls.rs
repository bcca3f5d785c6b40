//! The calls that are timed, each as a column. A function whose name ends in
//! `_within` differs from the other by its limit alone: of reading and writing both
//! are here, of the rest one. `binmode_next_card` and `binmode_share` take no table
//! or message.

use crate::cases::{Case, Format};
use crate::library::Limit;
use crate::on_messages as messages;
use crate::on_tables as tables;
use crate::station_calls::Whose;
use crate::table::Table;
use second::glyph::Edition;
use second::rules::{BYTE_LIMIT, NESTING_LIMIT, ROW_LIMIT, ROW_WORDS};

/// What a call may take, in milliseconds: one on a table, one that reads a
/// message, and the sum of all that take one a byte at a time. After twice that sum
/// the rest of the bytes is left away.
const OF_TABLE: f64 = 40.0;
const OF_MESSAGE: f64 = 2.0;
const OF_BYTES: f64 = 5_000.0;
pub const LEFT_AWAY: f64 = 2.0 * OF_BYTES;

pub const HIGHEST: Limit = Some(NESTING_LIMIT);
pub const WORDS: usize = ROW_LIMIT * ROW_WORDS;

/// Station five, with as many rows as a table may have.
pub const FIVE: Whose = Whose {
    split: ROW_LIMIT,
    station: 5,
};

/// A call that is ready to be made, again and again.
pub type Ready<'c> = Box<dyn FnMut() + 'c>;

enum Takes {
    Table(fn(&Table) -> Ready<'_>),
    Message(fn(&[u8]) -> Ready<'_>),
}

pub struct Column {
    pub name: &'static str,
    format: Format,
    takes: Takes,
    pub aim: f64,
}

impl Column {
    const fn table(name: &'static str, format: Format, call: fn(&Table) -> Ready<'_>) -> Self {
        Column {
            name,
            format,
            takes: Takes::Table(call),
            aim: OF_TABLE,
        }
    }

    const fn message(name: &'static str, format: Format, call: fn(&[u8]) -> Ready<'_>) -> Self {
        Column {
            name,
            format,
            takes: Takes::Message(call),
            aim: OF_MESSAGE,
        }
    }

    const fn bytes(name: &'static str, call: fn(&[u8]) -> Ready<'_>) -> Self {
        Column {
            name,
            format: Format::Binmode,
            takes: Takes::Message(call),
            aim: OF_BYTES,
        }
    }

    /// The call on a case, if it has what the call takes.
    pub fn ready<'c>(&self, case: &'c Case) -> Option<Ready<'c>> {
        match self.takes {
            Takes::Table(call) => case.table(self.format).map(call),
            Takes::Message(call) => case.message(self.format).map(call),
        }
    }

    /// Whether a case has it.
    pub fn applies(&self, case: &Case) -> bool {
        match self.takes {
            Takes::Table(_) => case.table(self.format).is_some(),
            Takes::Message(_) => case.message(self.format).is_some(),
        }
    }

    /// Whether it is many calls together.
    pub fn is_sum(&self) -> bool {
        self.aim == OF_BYTES
    }
}

pub const ON_TABLES: &[Column] = &[
    Column::table("lookup", Format::Binmode, tables::lookup),
    Column::table("st lookup", Format::Binmode, tables::station_lookup),
    Column::table("position", Format::Binmode, tables::position),
    Column::table("st positn", Format::Binmode, tables::station_position),
    Column::table("fill", Format::Binmode, tables::index_fill),
    Column::table("find", Format::Binmode, tables::index_find),
    Column::table("find one", Format::Binmode, tables::index_find_one),
    Column::table("defaults", Format::Binmode, tables::default_text),
    Column::table("write", Format::Binmode, |table| tables::write(table, None)),
    Column::table("write 32", Format::Binmode, |table| {
        tables::write(table, HIGHEST)
    }),
    Column::table("st write", Format::Binmode, tables::station_write),
    Column::table("plan", Format::Binmode, tables::write_planned),
    Column::table("st plan", Format::Binmode, tables::station_write_planned),
    Column::table("proves", Format::Binmode, tables::proves_shortest),
    Column::table("hyperglyph", Format::Hyperglyph, |table| {
        tables::write_glyph(table, Edition::Hyperglyph)
    }),
    Column::table("glyph", Format::Glyph, |table| {
        tables::write_glyph(table, Edition::Glyph)
    }),
    Column::table("st hyper", Format::Hyperglyph, |table| {
        tables::station_write_glyph(table, Edition::Hyperglyph)
    }),
    Column::table("st glyph", Format::Glyph, |table| {
        tables::station_write_glyph(table, Edition::Glyph)
    }),
];

pub const ON_MESSAGES: &[Column] = &[
    Column::message("read", Format::Binmode, |message| {
        messages::read(message, None)
    }),
    Column::message("read 32", Format::Binmode, |message| {
        messages::read(message, HIGHEST)
    }),
    Column::message("st read", Format::Binmode, messages::station_read),
    Column::message("card", Format::Binmode, messages::read_card),
    Column::message("st card", Format::Binmode, messages::station_read_card),
    Column::message("piece", Format::Binmode, |message| {
        messages::pieces(message, BYTE_LIMIT)
    }),
    Column::message("st piece", Format::Binmode, |message| {
        messages::station_pieces(message, BYTE_LIMIT)
    }),
    Column::bytes("bytes", |message| messages::pieces(message, 1)),
    Column::bytes("st bytes", |message| messages::station_pieces(message, 1)),
    Column::message("hyperglyph", Format::Hyperglyph, |message| {
        messages::read_glyph(message, Edition::Hyperglyph)
    }),
    Column::message("glyph", Format::Glyph, |message| {
        messages::read_glyph(message, Edition::Glyph)
    }),
    Column::message("st hyper", Format::Hyperglyph, |message| {
        messages::station_read_glyph(message, Edition::Hyperglyph)
    }),
    Column::message("st glyph", Format::Glyph, |message| {
        messages::station_read_glyph(message, Edition::Glyph)
    }),
];
