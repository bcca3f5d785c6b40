//! Lists the cards of a job file, as `joblist FILE` does: `jobs FILE`. Ends
//! with 1 if a card or the job is refused, 2 on trouble.

use binmode::{Card, Job, Refusal, TABLE_WORDS};
use std::error::Error;
use std::io::{self, BufWriter, Write, stdout};
use std::process::ExitCode;

fn main() -> ExitCode {
    list().unwrap_or_else(|trouble| {
        eprintln!("jobs: {trouble}");
        ExitCode::from(2)
    })
}

fn list() -> Result<ExitCode, Box<dyn Error>> {
    let words: Vec<_> = std::env::args_os().skip(1).collect();
    let [path] = &words[..] else {
        return Err("usage: jobs FILE".into());
    };
    let file = std::fs::read(path)?;
    let mut output = BufWriter::new(stdout().lock());
    let refused = list_cards(Job::new(&file), &mut output)?;
    output.flush()?;
    Ok(ExitCode::from(u8::from(refused)))
}

/// Whether a card or the job is refused.
fn list_cards(job: Job, output: &mut impl Write) -> io::Result<bool> {
    let mut table = vec![0; TABLE_WORDS];
    let (mut cards, mut refused, mut fault) = (0, false, None);
    for found in job.cards() {
        match found {
            Ok(card) => {
                refused |= list_card(card, &mut table, output)?;
                cards += 1;
            }
            Err(refusal) => fault = Some(refusal),
        }
    }
    writeln!(output, "cards {cards}")?;
    if let Some(refusal) = fault {
        print_refusal(refusal, output)?;
    }
    Ok(refused || fault.is_some())
}

/// Whether it is refused.
fn list_card(card: Card, table: &mut [u32], output: &mut impl Write) -> io::Result<bool> {
    let (number, start, length) = (card.number, card.start, card.bytes.len());
    write!(output, "card {number} at {start} bytes {length} ")?;
    match card.read(table) {
        Ok(message) => {
            let (rows, used) = (message.rows(), message.bytes().len());
            writeln!(output, "rows {rows} used {used}")?;
            Ok(false)
        }
        Err(refusal) => {
            print_refusal(refusal, output)?;
            Ok(true)
        }
    }
}

fn print_refusal(refusal: Refusal, output: &mut impl Write) -> io::Result<()> {
    let (number, place) = (refusal.reason.number(), refusal.place);
    writeln!(output, "refused {number} at {place}")
}
