//! How long the library takes on tables and messages made to be slow:
//! `cargo run --release --bin worst [NAME [CALL]]`, where NAME is a part of the
//! names of those that are wanted, and CALL of the calls'. Every call that takes a
//! table is timed on every table, and every call that takes a message on every
//! message. What is above its aim ends the run with 1, and so does reading a text
//! slower than the second implementation.

mod calls;
mod cases;
mod clock;
#[allow(dead_code, reason = "the other functions")]
#[path = "../../library.rs"]
mod library;
#[path = "../messages/mod.rs"]
mod messages;
mod on_messages;
mod on_tables;
mod sent;
mod spread;
#[allow(dead_code, reason = "the other functions")]
#[path = "../../state.rs"]
mod state;
#[allow(dead_code, reason = "the other functions")]
#[path = "../../station_calls.rs"]
mod station_calls;
mod table;
mod tables;

use calls::{Column, LEFT_AWAY, ON_MESSAGES, ON_TABLES};
use cases::{Case, Named};
use clock::{median, milliseconds, own_time, time};
use second::ByColumns;
use second::rules::{ROW_LIMIT, ROW_WORDS};
use std::hint::black_box;
use std::io::Write;
use std::process::ExitCode;

fn main() -> ExitCode {
    let mut words = std::env::args().skip(1);
    let (name, call) = (words.next(), words.next());
    let cases = cases::named(name.as_deref().unwrap_or_default());
    let call = call.unwrap_or_default();
    if cases.is_empty() {
        eprintln!("no table or message has such a name");
        return ExitCode::from(2);
    }
    println!(
        "Milliseconds of a call at work, the median of up to nine; `bytes` is the sum of all calls for a message that comes\n\
         a byte at a time, once; `st` is a call for a station."
    );
    let mut above = Vec::new();
    print_table("table", ON_TABLES, &cases, &call, &mut above);
    print_table("message", ON_MESSAGES, &cases, &call, &mut above);
    if name.is_none() {
        above.extend(slower());
    }
    println!("\n{} above the aim", above.len());
    for line in &above {
        println!("  {line}");
    }
    if above.is_empty() {
        return ExitCode::SUCCESS;
    }
    ExitCode::FAILURE
}

/// Times the calls whose names have the word in them, and notes what is above its aim.
fn print_table(
    what: &str,
    columns: &[Column],
    cases: &[Named],
    word: &str,
    above: &mut Vec<String>,
) {
    let mut columns: Vec<&Column> = columns.iter().collect();
    columns.retain(|column| column.name.contains(word));
    let mut is_first = true;
    for named in cases {
        let case = named.make();
        if !columns.iter().any(|column| column.applies(&case)) {
            continue;
        }
        if is_first {
            print_head(what, &columns);
        }
        is_first = false;
        print_line(named.name, &columns, &case, above);
    }
}

fn print_head(what: &str, columns: &[&Column]) {
    print!("\n{what:50}");
    for column in columns {
        print!(" {:>10}", column.name);
    }
    print!("\n{:50}", "  aim");
    for column in columns {
        print!(" {:>10.0}", column.aim);
    }
    println!();
}

fn print_line(name: &str, columns: &[&Column], case: &Case, above: &mut Vec<String>) {
    print!("{name:50}");
    for column in columns {
        let Some(mut call) = column.ready(case) else {
            print!(" {:>10}", "-");
            continue;
        };
        let milliseconds = if column.is_sum() {
            time(&mut call)
        } else {
            milliseconds(&mut call)
        };
        let shown = if column.is_sum() && milliseconds > LEFT_AWAY {
            format!(">{LEFT_AWAY:.0}")
        } else {
            format!("{milliseconds:.3}")
        };
        print!(" {shown:>10}");
        if milliseconds > column.aim {
            above.push(format!("{name}, {}: {shown} ms", column.name));
        }
        std::io::stdout().flush().expect("an output");
    }
    println!();
}

/// Whether the library reads a text of any characters slower than the second
/// implementation, in words.
fn slower() -> Option<String> {
    let message = messages::text(&tables::random_text(65_000));
    let mut table = vec![0; ROW_LIMIT * ROW_WORDS];
    let mut turn = |second: bool| {
        let (message, table) = (black_box(&message[..]), &mut table[..]);
        let start = own_time();
        if second {
            black_box(second::read::<ByColumns>(message, table));
        } else {
            black_box(library::read(message, table, None));
        }
        own_time() - start
    };
    let rounds: Vec<[f64; 2]> = (0..201).map(|_| [turn(false), turn(true)]).collect();
    let ratio = median(rounds.iter().map(|round| round[0] / round[1]).collect());
    println!(
        "\n65,000 bytes of any characters read: {ratio:.2} of the second implementation's time"
    );
    (ratio > 1.0).then(|| format!("a text of any characters: {ratio:.2} of the second's time"))
}
