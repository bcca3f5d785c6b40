//! How long looking up a member and a position takes, filling an index and
//! looking up through it, by the library and by the second implementation:
//! `cargo run --release --bin bench-lookup`.

#[allow(dead_code)] // the other functions
#[path = "../library.rs"]
mod library;

use binmode::sys::{Entry, Report};
use second::layout::{Layout, Rows};
use second::rules::{PREFIX, ROW_LIMIT, ROW_WORDS};
use second::{ByColumns, Read, index, lookup};
use std::hint::black_box;
use std::time::Instant;

/// Rounds of a line; in each, both take their turn.
const ROUNDS: usize = 201;
/// Members of the cards of a turn's calls: few, so that most turns are not
/// interrupted.
const MEMBERS_OF_A_TURN: usize = 12_000;
const MEMBERS: [usize; 2] = [300, 2_000];
/// Members of the cards of which an index is made.
const INDEXED: [usize; 3] = [30, 300, 2_000];
/// Keys looked up in one call.
const KEYS: usize = 24;

fn main() {
    println!(
        "Time of a call in microseconds, the median of {ROUNDS} rounds in which both take turns; the ratio is the\n\
         median of the rounds' ratios, library to second: below 1, the library is faster.\n\
         Cards of {MEMBERS:?} members with keys that all differ, the last of them x, y and turn. Each call tests first\n\
         that the table is writable, and that is timed.\n"
    );
    for members in MEMBERS {
        let title = format!("card of {members} members");
        println!("{title:34} {:>9} {:>9} {:>6}", "library", "second", "ratio");
        let card = Card::new(members);
        card.time_member("lookup, the first member", "holder 0");
        card.time_member("lookup, the last member", "turn");
        card.time_member("lookup, an absent member", "turns");
        card.time_position("position");
    }
    println!(
        "\nAn index. \"judging alone\" is a call that is refused once the table is judged, for a row that is no Struct: it is in\n\
         every line below it. The keys looked up are spread over the card, the last of it among them.\n"
    );
    for members in INDEXED {
        let title = format!("card of {members} members");
        println!("{title:34} {:>9} {:>9} {:>6}", "library", "second", "ratio");
        Card::new(members).time_index(members);
    }
}

/// A card in the Struct of row 1.
struct Card {
    table: Vec<u32>,
    rows: usize,
    text: Vec<u8>,
    /// Calls of a turn.
    calls: usize,
}

impl Card {
    fn new(members: usize) -> Self {
        let mut text = [PREFIX, &b"R"[..], &field(b'S', members)].concat();
        for member in 0..members - 3 {
            let (name, value) = match member % 6 {
                0 => ("holder", string("HOLDER")),
                1 => ("expires", b"8\x1119991231T23:59:59".to_vec()),
                2 => ("serial", field(b'I', member)),
                3 => ("active", b"t".to_vec()),
                4 => ("limit", b"D\x052.750".to_vec()),
                _ => (
                    "track",
                    [field(b'B', 4), b"\0\x01\xff\xfe".to_vec()].concat(),
                ),
            };
            text.extend([string(&format!("{name} {member}")), value].concat());
        }
        for (name, value) in [
            ("x", "D\x0612.125"),
            ("y", "D\x05-0.75"),
            ("turn", "D\x0490.0"),
        ] {
            text.extend([&string(name), value.as_bytes()].concat());
        }
        let mut table = vec![0; ROW_LIMIT * ROW_WORDS];
        match second::read::<ByColumns>(&text, &mut table) {
            Read::Accepted { rows, .. } => Card {
                table,
                rows,
                text,
                calls: MEMBERS_OF_A_TURN / members,
            },
            answer => panic!("{answer:?}"),
        }
    }

    fn time_member(&self, name: &str, key: &str) {
        let (table, rows, text, key) = (&self.table[..], self.rows, &self.text[..], key.as_bytes());
        let library = || {
            black_box(library::lookup(1, black_box(table), rows, text, 1, key));
        };
        let second = || {
            let _ = black_box(lookup::lookup::<ByColumns>(
                black_box(table),
                rows,
                text,
                1,
                key,
            ));
        };
        time(name, self.calls, library, second);
    }

    fn time_index(&self, members: usize) {
        let (table, rows, text) = (&self.table[..], self.rows, &self.text[..]);
        let calls = self.calls.div_ceil(8);
        let judged = || {
            black_box(library::lookup(1, black_box(table), rows, text, 0, b""));
        };
        let second = || {
            let _ = black_box(lookup::lookup::<ByColumns>(
                black_box(table),
                rows,
                text,
                0,
                b"",
            ));
        };
        time("judging alone", calls, judged, second);
        let filled = std::cell::RefCell::new(vec![Entry::default(); members]);
        let fill = || {
            let list = &mut filled.borrow_mut()[..];
            black_box(library::index_fill(black_box(table), rows, text, 1, list));
        };
        let second = || {
            let _ = black_box(index::fill::<ByColumns>(
                black_box(table),
                rows,
                text,
                1,
                members,
            ));
        };
        time("index, filled", calls, fill, second);
        let list = filled.into_inner();
        let of_second =
            index::fill::<ByColumns>(table, rows, text, 1, members).expect("a good card");
        let key = |at: usize| {
            let entry = of_second[(at * 7919 + members - 1) % members];
            let [_, a, b, _] = ByColumns::rows(table).at(entry.key as usize);
            &text[a as usize..][..b as usize]
        };
        for count in [1, KEYS] {
            let keys: Vec<&[u8]> = (0..count).map(key).collect();
            let joined = keys.concat();
            let mut end = 0;
            let ends = keys.iter().map(|key| {
                end += key.len() as u32;
                end
            });
            let ends: Vec<u32> = ends.collect();
            let reports = std::cell::RefCell::new(vec![Report::default(); count]);
            let find = || {
                let (table, reports) = (black_box(table), &mut reports.borrow_mut()[..]);
                library::index_find(table, rows, text, 1, &list, &joined, &ends, reports);
            };
            let second = || {
                black_box(index::find::<ByColumns>(
                    black_box(table),
                    rows,
                    text,
                    1,
                    &of_second,
                    &keys,
                ));
            };
            let name = format!("{count} of its keys through it, one call");
            time(&name, calls, find, second);
            let front = || {
                for key in &keys {
                    black_box(library::lookup(1, black_box(table), rows, text, 1, key));
                }
            };
            let second = || {
                for key in &keys {
                    let _ = black_box(lookup::lookup::<ByColumns>(
                        black_box(table),
                        rows,
                        text,
                        1,
                        key,
                    ));
                }
            };
            time(&format!("{count} from the front"), calls, front, second);
        }
    }

    fn time_position(&self, name: &str) {
        let (table, rows, text) = (&self.table[..], self.rows, &self.text[..]);
        let library = || {
            black_box(library::position(1, black_box(table), rows, text, 1));
        };
        let second = || {
            let _ = black_box(lookup::position::<ByColumns>(
                black_box(table),
                rows,
                text,
                1,
            ));
        };
        time(name, self.calls, library, second);
    }
}

fn field(tag: u8, value: usize) -> Vec<u8> {
    let mut bytes = vec![tag];
    bytes.extend((value as u32).to_le_bytes());
    bytes
}

fn string(text: &str) -> Vec<u8> {
    [field(b'U', text.len()), text.into()].concat()
}

/// Times both in turns, and prints the line.
fn time(name: &str, calls: usize, library: impl Fn(), second: impl Fn()) {
    let turn = |call: &dyn Fn()| {
        let start = Instant::now();
        (0..calls).for_each(|_| call());
        start.elapsed().as_secs_f64() * 1e6 / calls as f64
    };
    let rounds: Vec<[f64; 3]> = (0..ROUNDS)
        .map(|_| {
            let (library, second) = (turn(&library), turn(&second));
            [library, second, library / second]
        })
        .collect();
    let [library, second, ratio] = [0, 1, 2].map(|column| {
        let mut numbers: Vec<f64> = rounds.iter().map(|round| round[column]).collect();
        numbers.sort_by(f64::total_cmp);
        numbers[ROUNDS / 2]
    });
    println!("{name:34} {library:>9.2} {second:>9.2} {ratio:>6.2}");
}
