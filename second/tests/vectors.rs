//! The messages of the program `vectors`, listed here too: what is stored as that
//! program's output is what this implementation lists.

use second::layout::{Layout, Rows};
use second::rules::{NESTING_LIMIT, ROW_LIMIT, ROW_WORDS};
use second::{ByColumns, Read, read_within};
use std::fmt::Write;
use std::fs;
use std::path::Path;

/// A file beside the program's source.
fn stored(name: &str) -> String {
    let folder = Path::new(env!("CARGO_MANIFEST_DIR")).join("../crates/vectors");
    fs::read_to_string(folder.join(name)).expect("it is there")
}

/// The bytes of a line: printable characters, or `\` and two hexadecimal digits.
fn bytes_of(line: &str) -> Vec<u8> {
    let mut bytes = Vec::new();
    let mut rest = line;
    while let Some(first) = rest.chars().next() {
        let width = if first == '\\' { 3 } else { 1 };
        bytes.push(match first {
            '\\' => u8::from_str_radix(&rest[1..width], 16).expect("two digits"),
            _ => first as u8,
        });
        rest = &rest[width..];
    }
    bytes
}

/// What the listing program prints for a line's message.
fn listed(line: &str) -> String {
    let (words, line) = match line.strip_prefix("8 words ") {
        Some(line) => (8, line),
        None => (ROW_LIMIT * ROW_WORDS, line),
    };
    let mut table = vec![0; words];
    let mut listing = String::new();
    match read_within::<ByColumns>(&bytes_of(line), &mut table, NESTING_LIMIT) {
        Read::Accepted { rows, used } => {
            writeln!(listing, "rows {rows} used {used}").unwrap();
            for (index, row) in ByColumns::rows(&table).all().take(rows).enumerate() {
                let [kind, a, b, end] = row;
                writeln!(listing, "{index} {kind} {a} {b} {end}").unwrap();
            }
        }
        Read::Refused { number, place } => {
            writeln!(listing, "refused {number} at {place}").unwrap()
        }
    }
    listing
}

#[test]
fn stored_output() {
    let messages = stored("stdin");
    let mut lines = messages.lines();
    let mut all = String::new();
    while let (Some(name), Some(message)) = (lines.next(), lines.next()) {
        all.push_str(name);
        all.push('\n');
        all.push_str(&listed(message));
    }
    assert_eq!(all, stored("stdout"));
}
