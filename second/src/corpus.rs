//! Messages and tables as lines of text, with the answers to them.
//!
//! A line of a message: its bytes, the table's number of words, the number (0
//! if accepted), the place, the rows, the bytes used, and the words of those
//! rows. All other words are 0.
//!
//! A line of a table: its words, the stated rows, the text bytes, the output's
//! length, the number (0 if accepted), the length, and the bytes written. All
//! other bytes are 0.
//!
//! Both are answered at the highest limit of nesting.
//!
//! Bytes stand in hexadecimal, words in decimal with commas between, and `-`
//! for none of them.

use crate::generate::{Random, message, output_length, table, table_words};
use crate::rules::{BYTE_LIMIT, NESTING_LIMIT, PREFIX, ROW_LIMIT, ROW_WORDS};
use crate::{ByRows, Read, Write, hex, papers, read_within, write_within};

/// The stored lines.
pub const MESSAGES: &str = include_str!("../corpus/read.txt");
pub const TABLES: &str = include_str!("../corpus/write.txt");

pub fn message_line(message: &[u8], words: usize) -> String {
    let mut table = vec![u32::MAX; words];
    let answer = read_within::<ByRows>(message, &mut table, NESTING_LIMIT);
    let (number, place, rows, used) = match answer {
        Read::Accepted { rows, used } => (0, 0, rows, used),
        Read::Refused { number, place } => (number, place, 0, 0),
    };
    let message = hex::encode(message);
    let list = list(&table[..rows * ROW_WORDS]);
    format!("{message} {words} {number} {place} {rows} {used} {list}")
}

pub fn table_line(table: &[u32], rows: usize, text: &[u8], room: usize) -> String {
    let mut output = vec![u8::MAX; room];
    let answer = write_within::<ByRows>(table, rows, text, NESTING_LIMIT, &mut output);
    let (number, length) = match answer {
        Write::Accepted { length } => (0, length),
        Write::Refused { number } => (number, 0),
    };
    let (table, text) = (list(table), hex::encode(text));
    let message = hex::encode(&output[..length]);
    format!("{table} {rows} {text} {room} {number} {length} {message}")
}

/// The line with its answer worked out anew, if it is well-formed.
pub fn message_line_again(line: &str) -> Option<String> {
    let mut fields = line.split(' ');
    let message = hex::decode(fields.next()?)?;
    let words = fields.next()?.parse().ok()?;
    Some(message_line(&message, words))
}

/// The line with its answer worked out anew, if it is well-formed.
pub fn table_line_again(line: &str) -> Option<String> {
    let mut fields = line.split(' ');
    let words = words(fields.next()?)?;
    let rows = fields.next()?.parse().ok()?;
    let text = hex::decode(fields.next()?)?;
    let room = fields.next()?.parse().ok()?;
    Some(table_line(&words, rows, &text, room))
}

/// The lines of the papers' messages.
pub fn papers_lines() -> Vec<String> {
    let whole = papers::ALL.map(|(line, words)| message_line(&papers::bytes_of(line), words));
    let edges = papers::EDGES.map(|(rest, words, _, _)| {
        let message = [PREFIX, rest].concat();
        message_line(&message, words)
    });
    whole.into_iter().chain(edges).collect()
}

pub fn generated_message_line(random: &mut Random) -> String {
    let message = message(random);
    let mut words = [0; ROW_LIMIT * ROW_WORDS];
    let need = match read_within::<ByRows>(&message, &mut words, NESTING_LIMIT) {
        Read::Accepted { rows, .. } => rows,
        Read::Refused { .. } => random.below(10),
    };
    message_line(&message, table_words(random, need))
}

pub fn generated_table_line(random: &mut Random) -> String {
    let table = table(random);
    let (words, rows, text) = (&table.words, table.rows, &table.text);
    let mut output = [0; BYTE_LIMIT];
    let need = match write_within::<ByRows>(words, rows, text, NESTING_LIMIT, &mut output) {
        Write::Accepted { length } => length,
        Write::Refused { .. } => random.below(100),
    };
    let room = output_length(random, need);
    table_line(&table.words, table.rows, &table.text, room)
}

pub fn list(words: &[u32]) -> String {
    if words.is_empty() {
        return "-".into();
    }
    let words: Vec<String> = words.iter().map(u32::to_string).collect();
    words.join(",")
}

/// The words of such a list, if it is well-formed.
pub fn words(list: &str) -> Option<Vec<u32>> {
    if list == "-" {
        return Some(Vec::new());
    }
    list.split(',').map(|word| word.parse().ok()).collect()
}
