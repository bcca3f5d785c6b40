//! Writes the written form of a hyperglyph or glyph message, as the program
//! `rewrite-glyphs` does: `rewrite-glyphs 1.0|0.5 FILE`.

use second::glyph::{Edition, read_within, write_within};
use second::rules::{BYTE_LIMIT, NESTING_LIMIT, ROW_LIMIT, ROW_WORDS};
use second::{ByColumns, Read, Write};
use std::io::Write as _;
use std::process::ExitCode;

fn main() -> std::io::Result<ExitCode> {
    let words: Vec<String> = std::env::args().skip(1).collect();
    let words: Vec<&str> = words.iter().map(String::as_str).collect();
    let (edition, file) = match words[..] {
        ["1.0", file] => (Edition::Hyperglyph, file),
        ["0.5", file] => (Edition::Glyph, file),
        _ => {
            eprintln!("usage: rewrite-glyphs 1.0|0.5 FILE");
            return Ok(ExitCode::from(2));
        }
    };
    let message = std::fs::read(file)?;
    match form(&message, edition) {
        Ok(form) => {
            std::io::stdout().write_all(&form)?;
            Ok(ExitCode::SUCCESS)
        }
        Err((number, place)) => {
            eprintln!("refused {number} at {place}");
            Ok(ExitCode::from(1))
        }
    }
}

/// The written form of a message, or the refusal and its place.
fn form(message: &[u8], edition: Edition) -> Result<Vec<u8>, (u8, usize)> {
    let mut table = vec![0; ROW_LIMIT * ROW_WORDS];
    let mut output = vec![0; BYTE_LIMIT];
    let read = read_within::<ByColumns>(message, &mut table, edition, NESTING_LIMIT);
    let (rows, text) = match read {
        Read::Accepted { rows, used } => (rows, &message[..used]),
        Read::Refused { number, place } => return Err((number, place)),
    };
    let limit = NESTING_LIMIT;
    match write_within::<ByColumns>(&table, rows, text, edition, limit, &mut output) {
        Write::Accepted { length } => output.truncate(length),
        Write::Refused { number } => return Err((number, 0)),
    }
    Ok(output)
}
