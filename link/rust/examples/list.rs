//! Lists the message in a file, as the listing program does: `list FILE
//! [LIMIT]`. Arrays and Structs may be nested 32 deep, as there, or LIMIT deep.
//! Ends with 1 if it is refused, 2 on trouble.

use binmode::{MOST_BYTES, MOST_NESTING, TABLE_WORDS, read_within};
use std::error::Error;
use std::fs::File;
use std::io::{BufWriter, Read as _, Write as _, stdout};
use std::process::ExitCode;

fn main() -> ExitCode {
    list().unwrap_or_else(|trouble| {
        eprintln!("list: {trouble}");
        ExitCode::from(2)
    })
}

fn list() -> Result<ExitCode, Box<dyn Error>> {
    let words: Vec<_> = std::env::args_os().skip(1).collect();
    let limit = match &words[..] {
        [_] => Some(MOST_NESTING),
        [_, limit] => limit.to_str().and_then(|limit| limit.parse().ok()),
        _ => None,
    };
    let (Some(path), Some(limit)) = (words.first(), limit) else {
        return Err("usage: list FILE [LIMIT]".into());
    };
    // One byte over the limit is enough to have a longer file refused.
    let mut bytes = Vec::new();
    File::open(path)?
        .take(MOST_BYTES as u64 + 1)
        .read_to_end(&mut bytes)?;
    let mut table = vec![0; TABLE_WORDS];
    let mut output = BufWriter::new(stdout().lock());
    let status = match read_within(&bytes, &mut table, limit) {
        Ok(message) => {
            let (rows, used) = (message.rows(), message.bytes().len());
            writeln!(output, "rows {rows} used {used}")?;
            for item in message.items() {
                let [kind, a, b, end] = item.words();
                writeln!(output, "{} {kind} {a} {b} {end}", item.row())?;
            }
            ExitCode::SUCCESS
        }
        Err(refusal) => {
            let (number, place) = (refusal.reason.number(), refusal.place);
            writeln!(output, "refused {number} at {place}")?;
            ExitCode::FAILURE
        }
    };
    output.flush()?;
    Ok(status)
}
