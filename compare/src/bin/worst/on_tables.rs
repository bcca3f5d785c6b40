//! The calls that take a table.

use crate::calls::{FIVE, HIGHEST, Ready, WORDS};
use crate::library::{self, Limit};
use crate::table::Table;
use binmode::sys;
use second::glyph::Edition;
use second::rules::{BYTE_LIMIT, NESTING_LIMIT, ROW_LIMIT};
use std::hint::black_box;

/// The keys that are looked up through an index.
const ASKED: usize = 2_048;

/// A table for both stations, with this one in station five's share.
fn shared(words: &[u32]) -> Vec<u32> {
    [&[0; WORDS][..], words].concat()
}

pub fn lookup(table: &Table) -> Ready<'_> {
    let (row, key) = (table.asked_row(), table.asked_key());
    Box::new(move || {
        let words = black_box(&table.words);
        black_box(library::lookup(
            1,
            words,
            table.rows,
            &table.text,
            row,
            &key,
        ));
    })
}

pub fn station_lookup(table: &Table) -> Ready<'_> {
    let (row, key, words) = (table.asked_row(), table.asked_key(), shared(&table.words));
    Box::new(move || {
        black_box(FIVE.lookup(1, &words, table.rows, &table.text, row, &key));
    })
}

pub fn position(table: &Table) -> Ready<'_> {
    let row = table.asked_row();
    Box::new(move || {
        let words = black_box(&table.words);
        black_box(library::position(1, words, table.rows, &table.text, row));
    })
}

pub fn station_position(table: &Table) -> Ready<'_> {
    let (row, words) = (table.asked_row(), shared(&table.words));
    Box::new(move || {
        black_box(FIVE.position(1, &words, table.rows, &table.text, row));
    })
}

fn unused() -> Vec<sys::Entry> {
    vec![sys::Entry { key: 0, value: 0 }; ROW_LIMIT / 2]
}

pub fn index_fill(table: &Table) -> Ready<'_> {
    let (row, mut list) = (table.asked_row(), unused());
    Box::new(move || {
        let words = black_box(&table.words);
        black_box(library::index_fill(
            words,
            table.rows,
            &table.text,
            row,
            &mut list,
        ));
    })
}

/// Looks up the keys of the first Struct, and one that it has not.
pub fn index_find(table: &Table) -> Ready<'_> {
    let absent = table.asked_key();
    let mut asked = table.asked_keys();
    asked.push(&absent);
    find(table, &asked)
}

/// Looks up that one again and again: the search always goes the same way.
pub fn index_find_one(table: &Table) -> Ready<'_> {
    find(table, &[&table.asked_key()])
}

/// Looks up keys through an index, by turns.
fn find<'t>(table: &'t Table, asked: &[&[u8]]) -> Ready<'t> {
    let (row, mut list) = (table.asked_row(), unused());
    library::index_fill(&table.words, table.rows, &table.text, row, &mut list);
    let (mut keys, mut ends) = (Vec::new(), Vec::new());
    for key in asked.iter().cycle().take(ASKED) {
        keys.extend_from_slice(key);
        ends.push(keys.len() as u32);
    }
    let mut reports = vec![sys::Report::default(); ASKED];
    Box::new(move || {
        let words = black_box(&table.words);
        let (rows, text) = (table.rows, &table.text);
        let reports = &mut reports;
        black_box(library::index_find(
            words, rows, text, row, &list, &keys, &ends, reports,
        ));
    })
}

/// The table is the card and the defaults.
pub fn default_text(table: &Table) -> Ready<'_> {
    let (row, key) = (table.asked_row(), table.asked_key());
    Box::new(move || {
        let (words, count) = (black_box(&table.words).as_ptr(), table.words.len());
        let (text, size) = (table.text.as_ptr(), table.text.len());
        let (rows, asked, length) = (table.rows, key.as_ptr(), key.len());
        let (mut source, mut from, mut long) = (0, 0, 0);
        // SAFETY: the slices and the three numbers are valid for the call, and
        // those that are written overlap nothing.
        black_box(unsafe {
            sys::binmode_default_text(
                words,
                count,
                rows,
                text,
                size,
                row,
                words,
                count,
                rows,
                text,
                size,
                row,
                asked,
                length,
                &mut source,
                &mut from,
                &mut long,
            )
        });
    })
}

pub fn write(table: &Table, limit: Limit) -> Ready<'_> {
    let mut output = vec![0; BYTE_LIMIT];
    Box::new(move || {
        let words = black_box(&table.words);
        black_box(library::write(
            words,
            table.rows,
            &table.text,
            limit,
            &mut output,
        ));
    })
}

pub fn station_write(table: &Table) -> Ready<'_> {
    let (words, mut output) = (shared(&table.words), vec![0; BYTE_LIMIT]);
    Box::new(move || {
        black_box(FIVE.write(&words, table.rows, &table.text, HIGHEST, &mut output));
    })
}

pub fn write_planned(table: &Table) -> Ready<'_> {
    let (plan, mut output) = (table.plan(), vec![0; BYTE_LIMIT]);
    Box::new(move || {
        let words = black_box(&table.words);
        let (rows, text) = (table.rows, &table.text);
        black_box(library::write_planned(
            words,
            rows,
            text,
            &plan,
            HIGHEST,
            &mut output,
        ));
    })
}

pub fn station_write_planned(table: &Table) -> Ready<'_> {
    let (words, plan, mut output) = (shared(&table.words), table.plan(), vec![0; BYTE_LIMIT]);
    Box::new(move || {
        let (rows, text) = (table.rows, &table.text);
        black_box(FIVE.write_planned(&words, rows, text, &plan, HIGHEST, &mut output));
    })
}

/// With prices of nothing.
pub fn proves_shortest(table: &Table) -> Ready<'_> {
    let plan = table.plan();
    let prices = vec![0; plan.len() / 2];
    Box::new(move || {
        let words = black_box(&table.words);
        let (rows, text) = (table.rows, &table.text);
        black_box(library::proves_shortest(words, rows, text, &plan, &prices));
    })
}

pub fn write_glyph(table: &Table, edition: Edition) -> Ready<'_> {
    let mut output = vec![0; BYTE_LIMIT];
    Box::new(move || {
        let words = black_box(&table.words);
        let (rows, text) = (table.rows, &table.text);
        black_box(library::write_glyph(
            words,
            rows,
            text,
            edition,
            NESTING_LIMIT,
            &mut output,
        ));
    })
}

pub fn station_write_glyph(table: &Table, edition: Edition) -> Ready<'_> {
    let (words, mut output) = (shared(&table.words), vec![0; BYTE_LIMIT]);
    Box::new(move || {
        let (rows, text, output) = (table.rows, &table.text, &mut output);
        black_box(FIVE.write_glyph(&words, rows, text, edition, NESTING_LIMIT, output));
    })
}
