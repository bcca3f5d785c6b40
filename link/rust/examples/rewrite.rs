//! Writes the written form of the message in a file to standard output, as the
//! program of that name does: `rewrite FILE`. Ends with 1 if it is refused,
//! which standard error says, and 2 on trouble.

use binmode::{MOST_BYTES, MOST_NESTING, Refusal, TABLE_WORDS, read_within};
use std::error::Error;
use std::fs::File;
use std::io::{Read as _, Write as _, stdout};
use std::process::ExitCode;

fn main() -> ExitCode {
    match rewrite() {
        Ok(()) => ExitCode::SUCCESS,
        Err(error) => {
            eprintln!("rewrite: {error}");
            ExitCode::from(if error.is::<Refusal>() { 1 } else { 2 })
        }
    }
}

fn rewrite() -> Result<(), Box<dyn Error>> {
    let words: Vec<_> = std::env::args_os().skip(1).collect();
    let [path] = &words[..] else {
        return Err("usage: rewrite FILE".into());
    };
    // One byte over the limit is enough to have a longer file refused.
    let mut bytes = Vec::new();
    File::open(path)?
        .take(MOST_BYTES as u64 + 1)
        .read_to_end(&mut bytes)?;
    let mut table = vec![0; TABLE_WORDS];
    let mut output = vec![0; MOST_BYTES];
    let message = read_within(&bytes, &mut table, MOST_NESTING)?;
    let written = message.write_within(MOST_NESTING, &mut output)?;
    stdout().write_all(written)?;
    stdout().flush()?;
    Ok(())
}
