//! Lists a job file, as the program of that name does: `joblist FILE` all of
//! its cards, `joblist FILE NUMBER` one of them.

use second::job::{Card, Job, read_card};
use second::layout::{Layout, Rows};
use second::rules::{NESTING_LIMIT, ROW_LIMIT, ROW_WORDS};
use second::{ByColumns, Read, read_within};
use std::io::{BufWriter, Result, Write, stdout};
use std::process::ExitCode;

fn main() -> ExitCode {
    let words: Vec<String> = std::env::args().skip(1).collect();
    let (path, number) = match &words[..] {
        [path] => (path, None),
        [path, number] => match digits(number) {
            Some(number) => (path, Some(number)),
            None => return usage(),
        },
        _ => return usage(),
    };
    match std::fs::read(path).and_then(|file| list(&file, number)) {
        Ok(()) => ExitCode::SUCCESS,
        Err(error) => {
            eprintln!("{path}: {error}");
            ExitCode::FAILURE
        }
    }
}

/// A number in digits only, without a sign.
fn digits(word: &str) -> Option<usize> {
    let all = word.bytes().all(|byte| byte.is_ascii_digit());
    word.parse().ok().filter(|_| all)
}

fn usage() -> ExitCode {
    eprintln!("usage: joblist FILE [NUMBER]");
    ExitCode::FAILURE
}

fn list(file: &[u8], number: Option<usize>) -> Result<()> {
    let mut output = BufWriter::new(stdout().lock());
    match number {
        None => list_all(file, &mut output)?,
        Some(number) => list_one(file, number, &mut output)?,
    }
    output.flush()
}

fn list_all(file: &[u8], output: &mut impl Write) -> Result<()> {
    let mut table = vec![0; ROW_LIMIT * ROW_WORDS];
    let job = Job::new(file);
    for (number, (place, body)) in job.cards.iter().enumerate() {
        write!(output, "card {number} at {place} bytes {} ", body.len())?;
        match read_within::<ByColumns>(body, &mut table, NESTING_LIMIT) {
            Read::Accepted { rows, used } => writeln!(output, "rows {rows} used {used}")?,
            Read::Refused { number, place } => writeln!(output, "refused {number} at {place}")?,
        }
    }
    writeln!(output, "cards {}", job.cards.len())?;
    if !job.is_sound() {
        let (number, place) = job.end;
        writeln!(output, "refused {number} at {place}")?;
    }
    Ok(())
}

fn list_one(file: &[u8], number: usize, output: &mut impl Write) -> Result<()> {
    let mut table = vec![0; ROW_LIMIT * ROW_WORDS];
    match read_card::<ByColumns>(file, number, &mut table) {
        Card::Accepted { rows, used, body } => {
            writeln!(output, "rows {rows} used {used} body {body}")?;
            let all = ByColumns::rows(&table).all().take(rows);
            for (index, [kind, a, b, end]) in all.enumerate() {
                writeln!(output, "{index} {kind} {a} {b} {end}")?;
            }
        }
        Card::Refused { number, place } => writeln!(output, "refused {number} at {place}")?,
    }
    Ok(())
}
