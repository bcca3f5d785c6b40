//! Lists the rows of a hyperglyph or glyph message, from a file or from
//! standard input, as the program `glyphs` does: `glyphs 1.0|0.5 [FILE]`.

use second::glyph::{Edition, read_within};
use second::layout::{Layout, Rows};
use second::rules::{BYTE_LIMIT, NESTING_LIMIT, ROW_LIMIT, ROW_WORDS};
use second::{ByColumns, Read as Answer};
use std::io::Read;
use std::process::ExitCode;

fn main() -> std::io::Result<ExitCode> {
    let words: Vec<String> = std::env::args().skip(1).collect();
    let edition = match words.first().map(String::as_str) {
        Some("1.0") if words.len() <= 2 => Edition::Hyperglyph,
        Some("0.5") if words.len() <= 2 => Edition::Glyph,
        _ => {
            eprintln!("usage: glyphs 1.0|0.5 [FILE]");
            return Ok(ExitCode::from(2));
        }
    };
    let mut message = Vec::new();
    match words.get(1) {
        Some(file) => message = std::fs::read(file)?,
        None => {
            let most = BYTE_LIMIT as u64 + 1;
            std::io::stdin().take(most).read_to_end(&mut message)?;
        }
    }
    let mut table = vec![0; ROW_LIMIT * ROW_WORDS];
    match read_within::<ByColumns>(&message, &mut table, edition, NESTING_LIMIT) {
        Answer::Accepted { rows, used } => {
            println!("rows {rows} used {used}");
            for (number, [kind, a, b, end]) in ByColumns::rows(&table).all().take(rows).enumerate()
            {
                println!("{number} {kind} {a} {b} {end}");
            }
            Ok(ExitCode::SUCCESS)
        }
        Answer::Refused { number, place } => {
            println!("refused {number} at {place}");
            Ok(ExitCode::from(1))
        }
    }
}
