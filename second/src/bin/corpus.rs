//! Prints messages or tables with the answers to them, one a line: the stored
//! ones, the papers' or generated ones. `src/corpus.rs` has the form of a line.
//! Or prints the stored ones as questions, or the answers to these, by
//! `src/questions.rs`.

use second::corpus::*;
use second::generate::Random;
use second::questions::{answer, questions};
use std::io::{BufWriter, Write as _};
use std::process::ExitCode;

const USAGE: &str = "usage: corpus read|write [SEED COUNT], or corpus papers|questions|answers";

fn main() -> ExitCode {
    let words: Vec<String> = std::env::args().skip(1).collect();
    let words: Vec<&str> = words.iter().map(String::as_str).collect();
    let Some(lines) = lines(&words) else {
        eprintln!("{USAGE}");
        return ExitCode::FAILURE;
    };
    let mut output = BufWriter::new(std::io::stdout().lock());
    for line in lines {
        let Some(line) = line else {
            eprintln!("corpus: a stored line is not well-formed");
            return ExitCode::FAILURE;
        };
        if writeln!(output, "{line}").is_err() {
            return ExitCode::FAILURE;
        }
    }
    match output.flush() {
        Ok(()) => ExitCode::SUCCESS,
        Err(_) => ExitCode::FAILURE,
    }
}

type Lines = Box<dyn Iterator<Item = Option<String>>>;

fn lines(words: &[&str]) -> Option<Lines> {
    Some(match *words {
        ["read"] => Box::new(MESSAGES.lines().map(message_line_again)),
        ["write"] => Box::new(TABLES.lines().map(table_line_again)),
        ["papers"] => Box::new(papers_lines().into_iter().map(Some)),
        ["questions"] => Box::new(questions().map(Some)),
        ["answers"] => Box::new(questions().map(|question| Some(answer(&question)))),
        ["read", seed, count] => generated(seed, count, generated_message_line)?,
        ["write", seed, count] => generated(seed, count, generated_table_line)?,
        _ => return None,
    })
}

fn generated(seed: &str, count: &str, line: fn(&mut Random) -> String) -> Option<Lines> {
    let mut random = Random::new(seed.parse().ok()?);
    let numbers = 0..count.parse::<usize>().ok()?;
    Some(Box::new(numbers.map(move |_| Some(line(&mut random)))))
}
