//! The stored lines still have the answers they were stored with. Number 10
//! needs lines too long to store.

use second::corpus::*;
use std::collections::HashSet;

/// The answer numbers in the lines, where `field` is the number's.
fn numbers(lines: &str, field: usize) -> HashSet<&str> {
    lines
        .lines()
        .filter_map(|line| line.split(' ').nth(field))
        .collect()
}

#[test]
fn messages() {
    for line in MESSAGES.lines() {
        assert_eq!(message_line_again(line).as_deref(), Some(line));
    }
    let expected = [0, 1, 2, 3, 5, 6, 7, 8, 9, 14, 17, 20].map(|number| number.to_string());
    let expected = expected.iter().map(String::as_str).collect();
    assert_eq!(numbers(MESSAGES, 2), expected);
}

#[test]
fn tables() {
    for line in TABLES.lines() {
        assert_eq!(table_line_again(line).as_deref(), Some(line));
    }
    let expected = HashSet::from(["0", "11", "12", "13"]);
    assert_eq!(numbers(TABLES, 4), expected);
}

#[test]
fn the_papers_messages_are_stored_first() {
    let papers = papers_lines();
    assert_eq!(
        MESSAGES.lines().take(papers.len()).collect::<Vec<_>>(),
        papers
    );
}
