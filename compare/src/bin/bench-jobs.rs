//! How long reading the cards of job files takes, by the library and by the
//! second implementation: `cargo run --release --bin bench-jobs`.

use second::generate::{Random, valid};
use second::job::{Job, job, read_card};
use second::rules::NESTING_LIMIT;
use second::{ByColumns, read_within};
use std::hint::black_box;
use std::time::Instant;

/// Rounds of a line; in each, both take their turn.
const ROUNDS: usize = 21;
/// Words of the table: room for 64 rows, so that clearing it does not hide
/// the rest.
const WORDS: usize = 256;

fn main() {
    println!(
        "The median of {ROUNDS} rounds in which both take turns. A table of {WORDS} words, which both settle in each call.\n\
         Cards are generated messages of at most 200 bytes, the same for both.\n"
    );
    println!("every card once, nanoseconds of a card");
    println!(
        "{:>9} {:>10} {:>14} {:>14} {:>14}",
        "cards", "bytes", "library next", "library number", "second"
    );
    for cards in [250, 1_000, 4_000, 16_000] {
        every_card(cards);
    }
    println!("\ncard n of a job of 100,001 cards, nanoseconds of a call");
    println!("{:>9} {:>14} {:>14}", "n", "library", "second");
    let file = file(100_001);
    for number in [0, 100, 1_000, 10_000, 100_000] {
        one_card(&file, number);
    }
}

fn file(cards: usize) -> Vec<u8> {
    let mut random = Random::new(2001);
    let mut bodies = Vec::new();
    while bodies.len() < cards {
        let body = valid(&mut random);
        if body.len() <= 200 {
            bodies.push(body);
        }
    }
    job(&bodies.iter().map(Vec::as_slice).collect::<Vec<_>>())
}

fn every_card(cards: usize) {
    let file = &file(cards)[..];
    let next = |table: &mut [u32]| {
        for card in binmode::Job::new(black_box(file)).cards().flatten() {
            let _ = black_box(card.read(table));
        }
    };
    let number = |table: &mut [u32]| {
        for number in 0..cards {
            let _ = black_box(binmode::Job::new(black_box(file)).read_card(number, table));
        }
    };
    let second = |table: &mut [u32]| {
        for (_, body) in Job::new(black_box(file)).cards {
            black_box(read_within::<ByColumns>(body, table, NESTING_LIMIT));
        }
    };
    let [next, number, second] = medians([&next, &number, &second]);
    let each = cards as f64;
    let (next, number, second) = (next / each, number / each, second / each);
    println!(
        "{cards:>9} {:>10} {next:>14.0} {number:>14.0} {second:>14.0}",
        file.len()
    );
}

fn one_card(file: &[u8], number: usize) {
    let library = |table: &mut [u32]| {
        let _ = black_box(binmode::Job::new(black_box(file)).read_card(number, table));
    };
    let second = |table: &mut [u32]| {
        black_box(read_card::<ByColumns>(black_box(file), number, table));
    };
    let [library, second] = medians([&library, &second]);
    println!("{number:>9} {library:>14.0} {second:>14.0}");
}

/// The median time of each, in nanoseconds; they take turns.
fn medians<const N: usize>(works: [&dyn Fn(&mut [u32]); N]) -> [f64; N] {
    let mut table = vec![0; WORDS];
    let mut times = [const { Vec::new() }; N];
    for _ in 0..ROUNDS {
        for (work, times) in works.iter().zip(&mut times) {
            let start = Instant::now();
            work(&mut table);
            times.push(start.elapsed().as_secs_f64() * 1e9);
        }
    }
    times.map(|mut times| {
        times.sort_by(f64::total_cmp);
        times[ROUNDS / 2]
    })
}
