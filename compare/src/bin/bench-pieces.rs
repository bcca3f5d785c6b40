//! What reading a message in pieces costs against reading it whole:
//! `cargo run --release --bin bench-pieces`.

mod messages;

use messages::{array, card, integer, tagged_card, text};
use second::rules::{BYTE_LIMIT, ROW_LIMIT, ROW_WORDS};
use second::{ByColumns, Read, Write};
use std::hint::black_box;
use std::time::Instant;

/// Rounds of a line; in each, both take their turn.
const ROUNDS: usize = 21;

fn main() {
    println!(
        "Time in microseconds, the median of {ROUNDS} rounds in which both take turns; the ratio is the median of the\n\
         rounds' ratios, in pieces to whole. A table of {} words, which each reading of the bytes clears.\n",
        ROW_LIMIT * ROW_WORDS
    );
    println!(
        "{:34} {:>6} {:>6} {:>10} {:>12} {:>9}",
        "message", "bytes", "piece", "whole", "in pieces", "ratio"
    );
    for piece in [1, 16, 64, 1_024] {
        line("card of 300 members, short names", &tagged_card(300), piece);
    }
    line("card of 300 members, long names", &written(card(300)), 64);
    line("text of 65,000 bytes", &text(&"a".repeat(65_000)), 1);
    line("4,000 Integers", &array(4_000, integer), 1);
    println!("\ngrowth");
    for members in [75, 150, 300, 600] {
        let name = format!("card of {members} members");
        line(&name, &written(card(members)), 64);
    }
    for bytes in [8_000, 16_000, 32_000, 64_000] {
        let name = format!("text of {bytes} bytes");
        line(&name, &text(&"a".repeat(bytes)), 1);
    }
    for count in [500, 1_000, 2_000] {
        line(&format!("{count} Integers"), &array(count, integer), 1);
    }
}

/// The message in its written form.
fn written(message: Vec<u8>) -> Vec<u8> {
    let mut table = vec![0; ROW_LIMIT * ROW_WORDS];
    let Read::Accepted { rows, .. } = second::read::<ByColumns>(&message, &mut table) else {
        panic!("not accepted");
    };
    let mut output = vec![0; BYTE_LIMIT];
    let Write::Accepted { length } =
        second::write::<ByColumns>(&table, rows, &message, &mut output)
    else {
        panic!("not written");
    };
    output.truncate(length);
    output
}

fn line(name: &str, message: &[u8], piece: usize) {
    let table = &mut vec![0; ROW_LIMIT * ROW_WORDS][..];
    let room = &mut vec![0; BYTE_LIMIT][..];
    let mut rounds: Vec<(f64, f64)> = Vec::new();
    for round in 0..ROUNDS {
        // Who is first changes.
        let (mut whole, mut pieces) = (0.0, 0.0);
        for turn in 0..2 {
            if (turn + round) % 2 == 0 {
                whole = time(64, || assert!(read_whole(message, table)));
            } else {
                pieces = time(1, || assert!(read_pieces(message, piece, room, table)));
            }
        }
        rounds.push((whole, pieces));
    }
    println!(
        "{name:34} {:>6} {piece:>6} {:>10.2} {:>12.2} {:>9.1}",
        message.len(),
        median(rounds.iter().map(|round| round.0)),
        median(rounds.iter().map(|round| round.1)),
        median(rounds.iter().map(|round| round.1 / round.0))
    );
}

fn read_whole(message: &[u8], table: &mut [u32]) -> bool {
    binmode::read(black_box(message), black_box(table)).is_ok()
}

fn read_pieces(message: &[u8], piece: usize, room: &mut [u8], table: &mut [u32]) -> bool {
    let mut pieces = binmode::Pieces::start(black_box(room), black_box(table));
    for part in message.chunks(piece) {
        pieces.take(black_box(part));
    }
    pieces.end().is_ok()
}

/// Microseconds of a call, over so many.
fn time(calls: usize, mut call: impl FnMut()) -> f64 {
    let start = Instant::now();
    (0..calls).for_each(|_| call());
    start.elapsed().as_secs_f64() * 1e6 / calls as f64
}

fn median(numbers: impl Iterator<Item = f64>) -> f64 {
    let mut numbers: Vec<f64> = numbers.collect();
    numbers.sort_by(f64::total_cmp);
    numbers[numbers.len() / 2]
}
