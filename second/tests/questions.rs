//! The program in `crates/answers` is run on the questions that are stored
//! now, and held to their answers: `./store` makes both files anew.

use second::questions::{answer, questions};
use std::path::PathBuf;

fn stored(name: &str) -> String {
    let folder = PathBuf::from(env!("CARGO_MANIFEST_DIR")).join("../crates/answers");
    std::fs::read_to_string(folder.join(name)).unwrap()
}

fn lines(lines: impl Iterator<Item = String>) -> String {
    lines.map(|line| line + "\n").collect()
}

#[test]
fn stdin_has_the_questions() {
    assert_eq!(stored("stdin"), lines(questions()));
}

#[test]
fn stdout_has_their_answers() {
    assert_eq!(
        stored("stdout"),
        lines(questions().map(|question| answer(&question)))
    );
}
