//! What the sweep over one column gains: counting the rows of a kind in a table
//! of rows, as tables were until request E12, and in a table of columns. By
//! `cargo run --release --bin bench-columns`. Needs no library: the tables are
//! the second implementation's.

#[allow(dead_code)]
mod messages;

use messages::card;
use second::layout::{Layout, columns_of, room};
use second::rules::{ROW_LIMIT, ROW_WORDS, kind};
use second::{ByRows, Read};
use std::hint::black_box;
use std::time::Instant;

/// Rounds of a line; in each, both take their turn.
const ROUNDS: usize = 101;
/// Tables of a line: one, which the caches hold, and 64 MiB of them.
const TABLES: [usize; 2] = [1, 1_024];

fn main() {
    println!(
        "Counting the Strings of a table of {ROW_LIMIT} rows' room, microseconds of a table: the median of {ROUNDS} rounds\n\
         in which both layouts take turns.\n"
    );
    println!(
        "{:24} {:>5} {:>9} {:>9} {:>6}",
        "card of 2,000 members", "rows", "by rows", "columns", "ratio"
    );
    for tables in TABLES {
        line(tables);
    }
}

fn line(tables: usize) {
    let mut table = vec![0; ROW_LIMIT * ROW_WORDS];
    let Read::Accepted { rows, .. } = second::read::<ByRows>(&card(2_000), &mut table) else {
        panic!("not accepted");
    };
    let by_rows = vec![table.clone(); tables];
    let by_columns = vec![columns_of(&table); tables];
    let in_rows = || {
        let each = by_rows.iter().map(|table| of_rows(black_box(table), rows));
        each.sum::<usize>()
    };
    let in_columns = || {
        let each = by_columns
            .iter()
            .map(|table| of_columns(black_box(table), rows));
        each.sum::<usize>()
    };
    assert_eq!(in_rows(), in_columns());
    let calls = (1_024 / tables).max(1);
    let rounds: Vec<[f64; 2]> = (0..ROUNDS)
        .map(|_| [time(calls, in_rows), time(calls, in_columns)].map(|time| time / tables as f64))
        .collect();
    let [by_rows, by_columns] =
        [0, 1].map(|layout| median(rounds.iter().map(|round| round[layout])));
    let ratio = median(rounds.iter().map(|round| round[1] / round[0]));
    let name = format!("{tables} tables in turn");
    println!("{name:24} {rows:>5} {by_rows:>9.3} {by_columns:>9.3} {ratio:>6.2}");
}

fn of_rows(table: &[u32], rows: usize) -> usize {
    let stated = &ByRows::rows(table)[..rows];
    stated.iter().filter(|row| row[0] == kind::STRING).count()
}

/// The kinds are the first column.
fn of_columns(table: &[u32], rows: usize) -> usize {
    let kinds = &table[..room(table.len())][..rows];
    kinds.iter().filter(|&&word| word == kind::STRING).count()
}

/// Microseconds of a call, over so many.
fn time(calls: usize, call: impl Fn() -> usize) -> f64 {
    let start = Instant::now();
    (0..calls).for_each(|_| {
        black_box(call());
    });
    start.elapsed().as_secs_f64() * 1e6 / calls as f64
}

fn median(numbers: impl Iterator<Item = f64>) -> f64 {
    let mut numbers: Vec<f64> = numbers.collect();
    numbers.sort_by(f64::total_cmp);
    numbers[numbers.len() / 2]
}
