//! How long the library and the second implementation take on the same
//! messages, in one run: `cargo run --release --bin bench`. With the word
//! `bars` only the lines are timed that have a bar, and a ratio above its bar
//! ends the run with 1 (`compare/bars`).

mod messages;

use messages::{
    add_call, array, binary, boolean, card, dated_card, day, decimal, different, equal, integer,
    mixed_text, nested_structs, other, small_array, text,
};
use second::rules::{BYTE_LIMIT, NESTING_LIMIT, ROW_LIMIT, ROW_WORDS};
use second::{ByColumns, Read, Write, read_within, write_within};
use std::hint::black_box;
use std::process::ExitCode;
use std::time::{Duration, Instant};

/// Rounds of a line; in each, both take their turn.
const ROUNDS: usize = 201;
/// About how long one turn takes: short, so that most are not interrupted.
const TURN: Duration = Duration::from_micros(400);

/// The greatest ratios that are asked for, where a line has none of its own.
const BARS: Bars = Bars {
    reading: 1.0,
    writing: 1.0,
};

fn main() -> ExitCode {
    let bars_only = std::env::args().any(|word| word == "bars");
    println!(
        "Time of a call in microseconds, the median of {ROUNDS} rounds in which both take turns; the ratio is the\n\
         median of the rounds' ratios, library to second: below 1, the library is faster.\n\
         Both have the same buffers: a table of {} words and an output of {BYTE_LIMIT} bytes, or, where a line says\n\
         so, as large as the message needs. Nothing is cleared before a call: both settle every word and byte\n\
         themselves, and that is timed.\n",
        ROW_LIMIT * ROW_WORDS
    );
    let lines = lines();
    let mut above = 0;
    println!("{:38} {}", "reading", heading());
    for line in &lines {
        above += usize::from(line.print(line.time_reading(), line.bars.reading));
    }
    if !bars_only {
        growth("reading", Line::time_reading);
    }
    println!("\n{:38} {}", "writing", heading());
    for line in &lines {
        above += usize::from(line.print(line.time_writing(), line.bars.writing));
    }
    if !bars_only {
        growth("writing", Line::time_writing);
    }
    println!("\n{above} above the bar");
    if bars_only && above > 0 {
        return ExitCode::FAILURE;
    }
    ExitCode::SUCCESS
}

fn heading() -> String {
    format!(
        "{:>6} {:>5} {:>9} {:>9} {:>6} {:>5}",
        "bytes", "rows", "library", "second", "ratio", "bar"
    )
}

/// The messages that are timed.
fn lines() -> Vec<Line> {
    let card_of_300 = Bars {
        reading: 0.7,
        writing: 0.8,
    };
    let mut lines = vec![
        Line::new("card of 300 members", card(300)).with_bars(card_of_300),
        Line::new("card of 2,000 members", card(2_000)),
        Line::new("card with 50 dates and 50 Doubles", dated_card(300)),
        Line::new("text of 65,000 ASCII bytes", text(&"a".repeat(65_000))),
        Line::new("text of two to four byte forms", text(&mixed_text())),
        Line::new("4,000 Integers", array(4_000, integer)),
        Line::new("4,000 Booleans", array(4_000, boolean)),
        Line::new("4,000 Doubles", array(4_000, decimal)),
        Line::new("3,000 DateTimes", array(3_000, day)),
        Line::new("4,000 Binaries", array(4_000, binary)),
        Line::new("1,300 Others", array(1_300, other)),
        Line::new("2,000 small Arrays", array(2_000, small_array)),
        Line::new("31 Arrays around 800 Structs", nested_structs(31, 800)),
        Line::new("800 Structs of two members", nested_structs(1, 800)),
        Line::new("4,000 strings, all different", array(4_000, different)),
        Line::new("4,000 strings, all equal", array(4_000, equal)),
    ];
    for (name, message) in [
        ("add call", add_call()),
        ("ten Integers", array(10, integer)),
        ("card of ten members", card(10)),
    ] {
        lines.push(Line::new(name, message.clone()));
        lines.push(Line::new(&format!("{name}, own size"), message).own_size());
    }
    lines
}

/// How the time grows with the members. A member of a card takes two rows, so
/// that 4,000 of them have no table.
fn growth(what: &str, time: fn(&Line) -> Times) {
    println!("\n{what}, growth with the members; per member, in nanoseconds");
    for members in [300, 500, 1_000, 2_000] {
        grown("card", members, card(members), time);
    }
    for members in [500, 1_000, 2_000, 4_000] {
        grown("all different", members, array(members, different), time);
    }
    for members in [500, 1_000, 2_000, 4_000] {
        grown("all equal", members, array(members, equal), time);
    }
}

fn grown(name: &str, members: usize, message: Vec<u8>, time: fn(&Line) -> Times) {
    let line = Line::new(&format!("{name}, {members}"), message);
    let times = time(&line);
    line.print(times, f64::INFINITY);
    let per_member = |micros: f64| micros * 1_000.0 / members as f64;
    let (library, second) = (per_member(times.library), per_member(times.second));
    println!(
        "{:38} {:12} {library:>9.2} {second:>9.2}",
        "   per member", ""
    );
}

/// A message to time, in the written form.
struct Line {
    name: String,
    message: Vec<u8>,
    table: Vec<u32>,
    rows: usize,
    /// The words and bytes that are lent.
    table_words: usize,
    output_bytes: usize,
    bars: Bars,
}

/// The greatest ratios that are asked for.
#[derive(Clone, Copy)]
struct Bars {
    reading: f64,
    writing: f64,
}

#[derive(Clone, Copy)]
struct Times {
    library: f64,
    second: f64,
    ratio: f64,
}

impl Line {
    fn new(name: &str, message: Vec<u8>) -> Self {
        let (table, rows) = accepted(&message);
        let mut written = vec![0; BYTE_LIMIT];
        let answer = write_within::<ByColumns>(&table, rows, &message, NESTING_LIMIT, &mut written);
        let Write::Accepted { length } = answer else {
            panic!("{name}: {answer:?}");
        };
        written.truncate(length);
        let (table, rows) = accepted(&written);
        Line {
            name: name.into(),
            message: written,
            table,
            rows,
            table_words: ROW_LIMIT * ROW_WORDS,
            output_bytes: BYTE_LIMIT,
            bars: BARS,
        }
    }

    fn with_bars(self, bars: Bars) -> Self {
        Line { bars, ..self }
    }

    /// A table and an output that just hold the message.
    fn own_size(self) -> Self {
        Line {
            table_words: self.rows * ROW_WORDS,
            output_bytes: self.message.len(),
            ..self
        }
    }

    fn time_reading(&self) -> Times {
        let table = &mut vec![0; self.table_words];
        let message = &self.message[..];
        let buffer = &mut table[..];
        let second = |buffer: &mut [u32]| {
            let (message, buffer) = (black_box(message), black_box(buffer));
            black_box(read_within::<ByColumns>(message, buffer, NESTING_LIMIT));
        };
        let library = |buffer: &mut [u32]| {
            let (message, buffer) = (black_box(message), black_box(buffer));
            let _ = black_box(binmode::read_within(message, buffer, NESTING_LIMIT));
        };
        times(buffer, library, second)
    }

    fn time_writing(&self) -> Times {
        let output = &mut vec![0; self.output_bytes];
        let (table, rows, text) = (&self.table[..], self.rows, &self.message[..]);
        let buffer = &mut output[..];
        let second = |buffer: &mut [u8]| {
            black_box(write_within::<ByColumns>(
                black_box(table),
                rows,
                text,
                NESTING_LIMIT,
                black_box(buffer),
            ));
        };
        let library = |buffer: &mut [u8]| {
            let words = black_box(table);
            let table = binmode::Table { words, rows, text };
            let _ = black_box(table.write_within(NESTING_LIMIT, black_box(buffer)));
        };
        times(buffer, library, second)
    }

    /// Tells whether the ratio is above the bar, too.
    fn print(&self, times: Times, bar: f64) -> bool {
        let (name, bytes, rows) = (&self.name, self.message.len(), self.rows);
        let Times {
            library,
            second,
            ratio,
        } = times;
        let above = ratio > bar;
        let asked = if bar.is_finite() {
            format!("{bar:>5.2}{}", if above { "  above" } else { "" })
        } else {
            String::new()
        };
        println!(
            "{name:38} {bytes:>6} {rows:>5} {library:>9.2} {second:>9.2} {ratio:>6.2} {asked}"
        );
        above
    }
}

fn accepted(message: &[u8]) -> (Vec<u32>, usize) {
    let mut table = vec![0; ROW_LIMIT * ROW_WORDS];
    match read_within::<ByColumns>(message, &mut table, NESTING_LIMIT) {
        Read::Accepted { rows, .. } => (table, rows),
        answer => panic!("{answer:?}"),
    }
}

/// Both timed on the same buffer, in turns.
fn times<T>(buffer: &mut [T], library: impl Fn(&mut [T]), second: impl Fn(&mut [T])) -> Times {
    let once = time(1, || second(buffer)).max(time(1, || library(buffer)));
    let calls = (TURN.as_secs_f64() * 1e6 / once).clamp(1.0, 100_000.0) as usize;
    let mut rounds = Vec::new();
    for round in 0..ROUNDS {
        // Who is first changes.
        let (mut by_library, mut by_second) = (0.0, 0.0);
        for turn in 0..2 {
            if (turn + round) % 2 == 0 {
                by_library = time(calls, || library(buffer));
            } else {
                by_second = time(calls, || second(buffer));
            }
        }
        rounds.push((by_library, by_second));
    }
    Times {
        library: median(rounds.iter().map(|round| round.0)),
        second: median(rounds.iter().map(|round| round.1)),
        ratio: median(rounds.iter().map(|round| round.0 / round.1)),
    }
}

/// Microseconds of a call, over so many.
fn time(calls: usize, mut call: impl FnMut()) -> f64 {
    let start = Instant::now();
    (0..calls).for_each(|_| call());
    start.elapsed().as_secs_f64() * 1e6 / calls as f64
}

fn median(numbers: impl Iterator<Item = f64>) -> f64 {
    let mut numbers: Vec<f64> = numbers.collect();
    numbers.sort_by(f64::total_cmp);
    numbers[numbers.len() / 2]
}
