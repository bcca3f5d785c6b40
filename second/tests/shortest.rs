//! The written form against every other way of sending the same strings.

use second::generate::{Random, Table, few_strings};
use second::rules::{ROW_WORDS, kind};
use second::shortest::{shortest_by_counting, shortest_by_reading};
use second::{ByRows, Write, write};

fn written_length(table: &Table) -> usize {
    let mut output = vec![0; 2_000];
    match write::<ByRows>(&table.words, table.rows, &table.text, &mut output) {
        Write::Accepted { length } => length,
        answer => panic!("{answer:?} {table:?}"),
    }
}

fn strings(table: &Table) -> usize {
    let rows = table.words.chunks_exact(ROW_WORDS);
    rows.filter(|row| row[0] == kind::STRING).count()
}

fn shortest_by_all_means(table: &Table) {
    let (words, rows, text) = (&table.words, table.rows, &table.text);
    let length = written_length(table);
    let best = shortest_by_reading::<ByRows>(words, rows, text).map(|message| message.len());
    assert_eq!(best, Some(length), "{table:?}");
    assert_eq!(shortest_by_counting::<ByRows>(words, rows, text), best);
}

/// An Array of strings, each one of these texts.
fn array(texts: &[&str], choice: &[usize]) -> Table {
    let count = choice.len() as u32;
    let mut table = Table {
        words: vec![2, 0, 1, count + 2, 9, 0, count, count + 2],
        rows: choice.len() + 2,
        text: Vec::new(),
    };
    for (row, &text) in (3..).zip(choice) {
        let (start, length) = (table.text.len() as u32, texts[text].len() as u32);
        table.words.extend([11, start, length, row]);
        table.text.extend(texts[text].as_bytes());
    }
    table
}

/// Calls with every sequence of so many numbers below `bound`.
fn sequences(count: u32, bound: usize, mut check: impl FnMut(&[usize])) {
    for number in 0..bound.pow(count) {
        let digit = |place| number / bound.pow(place) % bound;
        check(&(0..count).map(digit).collect::<Vec<_>>());
    }
}

#[test]
fn every_small_array_by_reading() {
    for count in 0..=4 {
        sequences(count, 3, |choice| {
            shortest_by_all_means(&array(&["", "a", "\u{e9}\u{e9}"], choice));
        });
    }
}

#[test]
fn every_small_array_by_counting() {
    for count in 0..=6 {
        sequences(count, 3, |choice| {
            let table = array(&["", "b", "long enough"], choice);
            let best = shortest_by_counting::<ByRows>(&table.words, table.rows, &table.text);
            assert_eq!(best, Some(written_length(&table)), "{choice:?}");
        });
    }
}

#[test]
fn generated_tables() {
    let mut random = Random::new(10);
    for _ in 0..400 {
        shortest_by_all_means(&few_strings(&mut random, 4));
    }
    let mut fives = 0;
    while fives < 8 {
        let table = few_strings(&mut random, 5);
        if strings(&table) == 5 {
            shortest_by_all_means(&table);
            fives += 1;
        }
    }
    for _ in 0..200 {
        let table = few_strings(&mut random, 7);
        let best = shortest_by_counting::<ByRows>(&table.words, table.rows, &table.text);
        assert_eq!(best, Some(written_length(&table)), "{table:?}");
    }
}
