//! The library's written form against every other way of sending the same
//! strings, for small tables.

use crate::library;
use crate::limits::HIGHEST;
use crate::reading::Compared;
use second::ByRows;
use second::generate::{Random, Table, few_strings};
use second::layout::columns_of;
use second::shortest::{shortest_by_counting, shortest_by_reading};

/// Tries all small Arrays over three texts, and generated tables.
pub fn tried(random: &mut Random) -> Compared {
    let mut tables = 0;
    for count in 0..=4 {
        for choice in sequences(count, 3) {
            let table = array(&["", "a", "\u{e9}\u{e9}"], &choice);
            compare(&table, by_reading(&table))?;
            tables += 1;
        }
    }
    for count in 0..=6 {
        for choice in sequences(count, 3) {
            let table = array(&["", "b", "long enough"], &choice);
            compare(&table, by_counting(&table))?;
            tables += 1;
        }
    }
    for _ in 0..200 {
        let table = few_strings(random, 4);
        compare(&table, by_reading(&table))?;
        let table = few_strings(random, 6);
        compare(&table, by_counting(&table))?;
        tables += 2;
    }
    println!("shortest: {tables} small tables, none with a shorter message");
    Ok(())
}

fn by_reading(table: &Table) -> Option<usize> {
    shortest_by_reading::<ByRows>(&table.words, table.rows, &table.text)
        .map(|message| message.len())
}

fn by_counting(table: &Table) -> Option<usize> {
    shortest_by_counting::<ByRows>(&table.words, table.rows, &table.text)
}

fn compare(table: &Table, least: Option<usize>) -> Compared {
    let mut output = vec![0; 2_000];
    let words = columns_of(&table.words);
    let written = library::write(&words, table.rows, &table.text, HIGHEST, &mut output);
    if written.number == 0 && Some(written.length) == least {
        return Ok(());
    }
    Err(format!(
        "not the shortest: {written:?}, the least length is {least:?}\n{table:?}"
    ))
}

/// An Array of strings, each one of these texts.
fn array(texts: &[&str], choice: &[usize]) -> Table {
    let count = choice.len() as u32;
    let mut table = Table {
        words: vec![2, 0, 1, count + 2, 9, 0, count, count + 2],
        rows: choice.len() + 2,
        text: Vec::new(),
    };
    for (row, &text) in (3..).zip(choice) {
        let (start, length) = (table.text.len() as u32, texts[text].len() as u32);
        table.words.extend([11, start, length, row]);
        table.text.extend(texts[text].as_bytes());
    }
    table
}

/// Every sequence of so many numbers below `bound`.
fn sequences(count: u32, bound: usize) -> impl Iterator<Item = Vec<usize>> {
    (0..bound.pow(count)).map(move |number| {
        let digit = |place| number / bound.pow(place) % bound;
        (0..count).map(digit).collect()
    })
}
