//! The second implementation with both layouts of a table, held against each
//! other: every answer is the same, and of a table that is filled every row.

use crate::library::Limit;
use crate::limits::{read_at, write_at, write_planned_at};
use second::defaults::{Asked, Text};
use second::generate::Table;
use second::glyph::Edition;
use second::index::{Allowed, Entry};
use second::job::Card;
use second::layout::{columns_of, rows_of};
use second::lookup::{Member, Position};
use second::{ByColumns, ByRows, Read, Write};

/// Reads into a table of columns, and into one of rows.
pub fn read(message: &[u8], table: &mut [u32], limit: Limit) -> Read {
    filled(table, |table, by_rows| match by_rows {
        true => read_at::<ByRows>(message, table, limit),
        false => read_at::<ByColumns>(message, table, limit),
    })
}

pub fn read_glyph(message: &[u8], table: &mut [u32], edition: Edition, limit: usize) -> Read {
    use second::glyph::read_within;
    filled(table, |table, by_rows| match by_rows {
        true => read_within::<ByRows>(message, table, edition, limit),
        false => read_within::<ByColumns>(message, table, edition, limit),
    })
}

pub fn read_card(file: &[u8], number: usize, table: &mut [u32]) -> Card {
    filled(table, |table, by_rows| match by_rows {
        true => second::job::read_card::<ByRows>(file, number, table),
        false => second::job::read_card::<ByColumns>(file, number, table),
    })
}

/// A call that fills a table, told whether it is one of rows.
fn filled<A: PartialEq + std::fmt::Debug>(
    table: &mut [u32],
    mut call: impl FnMut(&mut [u32], bool) -> A,
) -> A {
    let mut other = table.to_vec();
    let answer = call(table, false);
    assert_eq!(answer, call(&mut other, true), "the layouts' answers");
    assert!(*table == columns_of(&other), "the layouts' rows");
    answer
}

/// What both say, of a table of rows and of the table of columns that has its
/// rows.
fn told<A: PartialEq>(
    by_rows: &[u32],
    rows: impl Fn(&[u32]) -> A,
    columns: impl Fn(&[u32]) -> A,
) -> A {
    let answer = columns(&columns_of(by_rows));
    assert!(answer == rows(by_rows), "the layouts' answers: {by_rows:?}");
    answer
}

/// What follows takes a table of rows.
pub fn write(words: &[u32], rows: usize, text: &[u8], limit: Limit, output: &mut [u8]) -> Write {
    written(words, output, |words, output, by_rows| match by_rows {
        true => write_at::<ByRows>(words, rows, text, limit, output),
        false => write_at::<ByColumns>(words, rows, text, limit, output),
    })
}

pub fn write_glyph(table: &Table, edition: Edition, limit: usize, output: &mut [u8]) -> Write {
    use second::glyph::write_within;
    let (rows, text) = (table.rows, &table.text);
    written(
        &table.words,
        output,
        |words, output, by_rows| match by_rows {
            true => write_within::<ByRows>(words, rows, text, edition, limit, output),
            false => write_within::<ByColumns>(words, rows, text, edition, limit, output),
        },
    )
}

pub fn write_planned(
    words: &[u32],
    rows: usize,
    text: &[u8],
    plan: &[u8],
    limit: Limit,
    output: &mut [u8],
) -> Write {
    written(words, output, |words, output, by_rows| match by_rows {
        true => write_planned_at::<ByRows>(words, rows, text, plan, limit, output),
        false => write_planned_at::<ByColumns>(words, rows, text, plan, limit, output),
    })
}

fn written(
    words: &[u32],
    output: &mut [u8],
    call: impl Fn(&[u32], &mut [u8], bool) -> Write,
) -> Write {
    let mut other = output.to_vec();
    let answer = call(&columns_of(words), output, false);
    assert_eq!(answer, call(words, &mut other, true), "{words:?}");
    assert!(*output == *other, "the layouts' bytes: {words:?}");
    answer
}

pub fn proves_shortest(
    words: &[u32],
    rows: usize,
    text: &[u8],
    plan: &[u8],
    prices: &[u32],
) -> bool {
    use second::plan::proves_shortest;
    told(
        words,
        |words| proves_shortest::<ByRows>(words, rows, text, plan, prices),
        |words| proves_shortest::<ByColumns>(words, rows, text, plan, prices),
    )
}

pub fn lookup(
    words: &[u32],
    rows: usize,
    text: &[u8],
    row: usize,
    key: &[u8],
) -> Result<Member, u8> {
    use second::lookup::lookup;
    told(
        words,
        |words| lookup::<ByRows>(words, rows, text, row, key),
        |words| lookup::<ByColumns>(words, rows, text, row, key),
    )
}

pub fn position(words: &[u32], rows: usize, text: &[u8], row: usize) -> Result<Position, u8> {
    use second::lookup::position;
    told(
        words,
        |words| position::<ByRows>(words, rows, text, row),
        |words| position::<ByColumns>(words, rows, text, row),
    )
}

pub fn fill(
    words: &[u32],
    rows: usize,
    text: &[u8],
    row: usize,
    length: usize,
) -> Result<Vec<Entry>, u8> {
    use second::index::fill;
    told(
        words,
        |words| fill::<ByRows>(words, rows, text, row, length),
        |words| fill::<ByColumns>(words, rows, text, row, length),
    )
}

pub fn allowed(
    words: &[u32],
    rows: usize,
    text: &[u8],
    row: usize,
    list: &[Entry],
    key: &[u8],
) -> Allowed {
    use second::index::allowed;
    told(
        words,
        |words| allowed::<ByRows>(words, rows, text, row, list, key),
        |words| allowed::<ByColumns>(words, rows, text, row, list, key),
    )
}

/// Of two tables of columns, as the library is lent them.
pub fn default_text(card: Asked, defaults: Asked, key: &[u8]) -> Result<Text, u8> {
    use second::defaults::default_text;
    let (own, other) = (rows_of(card.table), rows_of(defaults.table));
    let answer = default_text::<ByColumns>(card, defaults, key);
    let card = Asked {
        table: &own,
        ..card
    };
    let defaults = Asked {
        table: &other,
        ..defaults
    };
    assert_eq!(answer, default_text::<ByRows>(card, defaults, key));
    answer
}
