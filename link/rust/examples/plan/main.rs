//! Writes the message in a file again, in as few bytes as may be, also where
//! more than 256 texts repeat: `plan FILE OUTPUT [PLANFILE [PRICESFILE]]`.
//! Prints the bytes of the message, of the written form and of the plan's
//! message, and whether the library proves that it can't be shorter. The plan
//! is two bytes for each string, a price four bytes, least significant first.
//! Ends with 1 if the message is refused, and 2 on trouble.

mod solver;

use binmode::{Kind, MOST_BYTES, MOST_NESTING, Reason, Refusal, TABLE_WORDS, read_within};
use std::error::Error;
use std::fs::{self, File};
use std::io::Read as _;
use std::process::ExitCode;

fn main() -> ExitCode {
    match plan() {
        Ok(()) => ExitCode::SUCCESS,
        Err(error) => {
            eprintln!("plan: {error}");
            ExitCode::from(if error.is::<Refusal>() { 1 } else { 2 })
        }
    }
}

fn plan() -> Result<(), Box<dyn Error>> {
    let words: Vec<_> = std::env::args_os().skip(1).collect();
    let [path, output_path, more @ ..] = &words[..] else {
        return Err("usage: plan FILE OUTPUT [PLANFILE [PRICESFILE]]".into());
    };
    // One byte over the limit is enough to have a longer file refused.
    let mut bytes = Vec::new();
    File::open(path)?
        .take(MOST_BYTES as u64 + 1)
        .read_to_end(&mut bytes)?;
    let mut table = vec![0; TABLE_WORDS];
    let message = read_within(&bytes, &mut table, MOST_NESTING)?;
    let strings = message.items().filter(|item| item.kind() == Kind::String);
    let texts: Vec<&[u8]> = strings
        .map(|string| string.text().unwrap_or_default().as_bytes())
        .collect();
    let solution = solver::solve(&texts);

    println!("bytes {}", message.bytes().len());
    let mut output = vec![0; MOST_BYTES];
    match message.write_within(MOST_NESTING, &mut output) {
        Ok(form) => println!("written form {}", form.len()),
        Err(refusal) if refusal.reason == Reason::FormTooLong => {
            println!("written form over {MOST_BYTES}")
        }
        Err(refusal) => return Err(refusal.into()),
    }
    let written = message.write_planned_within(&solution.plan, MOST_NESTING, &mut output)?;
    println!("planned {}", written.len());
    match message.proves_shortest(&solution.plan, &solution.prices) {
        true => println!("no message with this meaning is shorter: proved"),
        false => println!("not proved to be shortest"),
    }
    fs::write(output_path, written)?;
    if let [plan_path, rest @ ..] = more {
        fs::write(plan_path, &solution.plan)?;
        if let [prices_path, ..] = rest {
            let prices = solution.prices.iter().flat_map(|price| price.to_le_bytes());
            fs::write(prices_path, prices.collect::<Vec<u8>>())?;
        }
    }
    Ok(())
}
