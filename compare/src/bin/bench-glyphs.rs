//! How long the library and the second implementation take to read the same
//! messages of hyperglyph 1.0, and to write the tables that they are read as,
//! in one run: `cargo run --release --bin bench-glyphs`.

use second::ByColumns;
use second::glyph::{Edition, read_within, write_within};
use second::rules::{BYTE_LIMIT, NESTING_LIMIT, ROW_LIMIT, ROW_WORDS};
use std::hint::black_box;
use std::time::{Duration, Instant};

/// Rounds of a line; in each, both take their turn.
const ROUNDS: usize = 201;
/// About how long one turn takes.
const TURN: Duration = Duration::from_micros(400);

fn main() {
    println!(
        "Time of a call in microseconds, the median of {ROUNDS} rounds in which both take turns; the ratio is the\n\
         median of the rounds' ratios, library to second. The table has {} words and the output {BYTE_LIMIT} bytes,\n\
         which both settle.\n",
        ROW_LIMIT * ROW_WORDS
    );
    head("reading");
    for (name, message) in messages() {
        read(&name, &message);
    }
    println!("\ngrowth with the members of a dict");
    for members in GROWING {
        read(&dict_name(members), &dict('D', members));
    }
    println!();
    head("writing");
    for (name, message) in messages() {
        write(&name, &message);
    }
    println!("\ngrowth with the members of a dict, shuffled");
    for members in GROWING {
        write(&dict_name(members), &shuffled(members));
    }
    println!("\nmade to be slow");
    for (name, message) in slow() {
        write(&name, &message);
    }
}

const GROWING: [usize; 4] = [200, 400, 800, 1_600];

fn head(what: &str) {
    println!(
        "{what:32} {:>6} {:>9} {:>9} {:>6}",
        "bytes", "library", "second", "ratio"
    );
}

fn dict_name(members: usize) -> String {
    format!("dict of {members} members")
}

fn messages() -> Vec<(String, String)> {
    let pair = |_| "Du4:name;u5:value;u6:number;i42;;".into();
    let nested = format!("{}{}{}", "L".repeat(30), list(800, &pair), ";".repeat(30));
    let named = [
        ("4,000 integers", list(4_000, &integer)),
        ("dict of 300 members", dict('D', 300)),
        ("dict of 300 members, in order", in_order(300)),
        ("dict of 300 members, shuffled", shuffled(300)),
        ("dict of 2,000 members", dict('D', 2_000)),
        ("dict of 2,000 members, in order", in_order(2_000)),
        ("ordered_dict of 300 members", dict('O', 300)),
        ("31 lists around 800 dicts", nested),
        (
            "1,000 extensions",
            list(1_000, &|_| "Xu4:link;D;N;;".into()),
        ),
        ("text of 65,000 ASCII bytes", text(&"a".repeat(65_000))),
        (
            "text of two to four byte forms",
            text(&"é€😀".repeat(7_000)),
        ),
        ("4,000 T, with blanks", list(4_000, &|_| "T; \n".into())),
        (
            "4,000 small texts",
            list(4_000, &|row| text(&format!("t{row}"))),
        ),
        ("ten integers", list(10, &integer)),
    ];
    named
        .map(|(name, message)| (name.to_owned(), message))
        .into()
}

/// What a writer that compares keys, or goes through members again and again,
/// would take long for.
fn slow() -> Vec<(String, String)> {
    let member = |key: String| text(&key) + "N;";
    let alike = |number: usize| member(format!("{}{number:04}", "k".repeat(20)));
    let backwards: String = (0..2_000).rev().map(alike).collect();
    let by_turns = |number: usize| {
        alike(if number.is_multiple_of(2) {
            number
        } else {
            2_000 - number
        })
    };
    let zigzag: String = (0..2_000).map(by_turns).collect();
    let longer: String = (1..=350)
        .rev()
        .map(|length| member("k".repeat(length)))
        .collect();
    let inner = "Du1:b;N;u1:a;N;;";
    let dicts = (0..31).fold(inner.to_owned(), |inside, _| {
        format!("Du1:b;{inside}u1:a;N;;")
    });
    [
        ("2,000 keys alike, backwards", format!("D{backwards};")),
        ("2,000 keys alike, by turns", format!("D{zigzag};")),
        ("350 keys, each in the next", format!("D{longer};")),
        ("32 dicts in one another", dicts),
        ("800 dicts of two, backwards", list(800, &|_| inner.into())),
    ]
    .map(|(name, message)| (name.to_owned(), message))
    .into()
}

fn list(count: usize, object: &dyn Fn(usize) -> String) -> String {
    let objects: String = (0..count).map(object).collect();
    format!("L{objects};")
}

fn integer(number: usize) -> String {
    format!("i{};", number as i64 * 97_003 % 2_000_000_000 - 1_000_000)
}

fn text(text: &str) -> String {
    format!("u{}:{text};", text.len())
}

/// Members by names that differ in the middle and at the end.
fn dict(letter: char, members: usize) -> String {
    of_members(letter, 0..members)
}

/// The same members in byte order of their names.
fn in_order(members: usize) -> String {
    let mut numbers: Vec<usize> = (0..members).collect();
    numbers.sort_by_key(|&number| name(number));
    of_members('D', numbers.into_iter())
}

/// In another order.
fn shuffled(members: usize) -> String {
    of_members('D', (0..members).map(|number| number * 7_919 % members))
}

fn name(number: usize) -> String {
    format!("member.{:02}.field{number}", number % 37)
}

fn of_members(letter: char, numbers: impl Iterator<Item = usize>) -> String {
    let member = |number: usize| text(&name(number)) + &text(&format!("{number}"));
    let members: String = numbers.map(member).collect();
    format!("{letter}{members};")
}

fn read(name: &str, message: &str) {
    let message = message.as_bytes();
    let mut table = vec![0; ROW_LIMIT * ROW_WORDS];
    let read = binmode::read_hyperglyph(message, &mut table, NESTING_LIMIT);
    assert!(read.is_ok(), "{name} is refused");
    let library = |table: &mut [u32]| {
        let (message, table) = (black_box(message), black_box(table));
        let _ = black_box(binmode::read_hyperglyph(message, table, NESTING_LIMIT));
    };
    let second = |table: &mut [u32]| {
        let (message, table) = (black_box(message), black_box(table));
        let edition = Edition::Hyperglyph;
        black_box(read_within::<ByColumns>(
            message,
            table,
            edition,
            NESTING_LIMIT,
        ));
    };
    line(name, message.len(), &mut table, library, second);
}

/// The table of a message, written.
fn write(name: &str, message: &str) {
    let mut words = vec![0; ROW_LIMIT * ROW_WORDS];
    let mut output = vec![0; BYTE_LIMIT];
    let message = binmode::read_hyperglyph(message.as_bytes(), &mut words, NESTING_LIMIT);
    let table = message.expect("a message").table();
    let form = table.write_hyperglyph(NESTING_LIMIT, &mut output);
    let bytes = form.expect("a form").len();
    let library = |output: &mut [u8]| {
        let (table, output) = (black_box(table), black_box(output));
        let _ = black_box(table.write_hyperglyph(NESTING_LIMIT, output));
    };
    let second = |output: &mut [u8]| {
        let (table, output) = (black_box(table), black_box(output));
        let edition = Edition::Hyperglyph;
        black_box(write_within::<ByColumns>(
            table.words,
            table.rows,
            table.text,
            edition,
            NESTING_LIMIT,
            output,
        ));
    };
    line(name, bytes, &mut output, library, second);
}

/// Both by turns, on a buffer that is lent to both.
fn line<T>(
    name: &str,
    bytes: usize,
    lent: &mut [T],
    library: impl Fn(&mut [T]),
    second: impl Fn(&mut [T]),
) {
    let once = time(1, || second(lent)).max(time(1, || library(lent)));
    let calls = (TURN.as_secs_f64() * 1e6 / once).clamp(1.0, 100_000.0) as usize;
    let mut rounds = Vec::new();
    for round in 0..ROUNDS {
        // Who is first changes.
        let (mut by_library, mut by_second) = (0.0, 0.0);
        for turn in 0..2 {
            if (turn + round) % 2 == 0 {
                by_library = time(calls, || library(lent));
            } else {
                by_second = time(calls, || second(lent));
            }
        }
        rounds.push((by_library, by_second));
    }
    let by_library = median(rounds.iter().map(|round| round.0));
    let by_second = median(rounds.iter().map(|round| round.1));
    let ratio = median(rounds.iter().map(|round| round.0 / round.1));
    println!("{name:32} {bytes:>6} {by_library:>9.2} {by_second:>9.2} {ratio:>6.2}");
}

/// Microseconds of a call, over so many.
fn time(calls: usize, mut call: impl FnMut()) -> f64 {
    let start = Instant::now();
    (0..calls).for_each(|_| call());
    start.elapsed().as_secs_f64() * 1e6 / calls as f64
}

fn median(numbers: impl Iterator<Item = f64>) -> f64 {
    let mut numbers: Vec<f64> = numbers.collect();
    numbers.sort_by(f64::total_cmp);
    numbers[numbers.len() / 2]
}
