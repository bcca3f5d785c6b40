//! The stored messages and tables as questions, with their answers, for the
//! program in `crates/answers`.
//!
//! A question is `read`, a message's bytes and the table's number of words; or
//! `write`, a table's words, the stated rows, the text bytes and the output's
//! length. Its answer is the number (0 if accepted), the place, the rows, the
//! bytes used and the table; or the number, the length and the output. Both
//! are written as in `corpus.rs`, a table or an output up to its last word or
//! byte that is not 0, and both at the highest limit of nesting. Any other
//! question is ill-formed.

use crate::corpus::{MESSAGES, TABLES, list, words};
use crate::rules::NESTING_LIMIT;
use crate::{ByRows, Read, Write, hex, read_within, write_within};

/// Questions that are ill-formed, each in another way.
const ILL_FORMED: [&str; 14] = [
    "",
    "read",
    "read -",
    "read - ",
    "read 6 8",
    "read 6g 8",
    "read - 8 8",
    "read - 18446744073709551616",
    "write 1, 1 - 8",
    "write 4294967296 1 - 8",
    "write - - - 8",
    "write - 1 626 8",
    "write - 1 -",
    "list - 8",
];

pub fn questions() -> impl Iterator<Item = String> {
    let messages = MESSAGES.lines().map(|line| question("read", line, 2));
    let tables = TABLES.lines().map(|line| question("write", line, 4));
    messages.chain(tables).chain(ILL_FORMED.map(String::from))
}

/// The first fields of a stored line.
fn question(name: &str, line: &str, fields: usize) -> String {
    let fields = line.split(' ').take(fields);
    let words: Vec<&str> = [name].into_iter().chain(fields).collect();
    words.join(" ")
}

pub fn answer(question: &str) -> String {
    let fields: Vec<&str> = question.split(' ').collect();
    let answer = match fields[..] {
        ["read", message, words] => read_answer(message, words),
        ["write", table, rows, text, room] => write_answer(table, rows, text, room),
        _ => None,
    };
    answer.unwrap_or("ill-formed".into())
}

fn read_answer(message: &str, words: &str) -> Option<String> {
    let message = hex::decode(message)?;
    let mut table = vec![u32::MAX; words.parse().ok()?];
    let answer = read_within::<ByRows>(&message, &mut table, NESTING_LIMIT);
    let (number, place, rows, used) = match answer {
        Read::Accepted { rows, used } => (0, 0, rows, used),
        Read::Refused { number, place } => (number, place, 0, 0),
    };
    let table = list(shown(&table));
    Some(format!("{number} {place} {rows} {used} {table}"))
}

fn write_answer(table: &str, rows: &str, text: &str, room: &str) -> Option<String> {
    let table = words(table)?;
    let text = hex::decode(text)?;
    let mut output = vec![u8::MAX; room.parse().ok()?];
    let rows = rows.parse().ok()?;
    let answer = write_within::<ByRows>(&table, rows, &text, NESTING_LIMIT, &mut output);
    let (number, length) = match answer {
        Write::Accepted { length } => (0, length),
        Write::Refused { number } => (number, 0),
    };
    let output = hex::encode(shown(&output));
    Some(format!("{number} {length} {output}"))
}

/// What stands before the zeros at the end.
fn shown<T: Default + PartialEq>(all: &[T]) -> &[T] {
    let last = all.iter().rposition(|item| *item != T::default());
    &all[..last.map_or(0, |last| last + 1)]
}
