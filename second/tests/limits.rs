//! What document 02 (request E11) says of the limit of nesting, sentence by
//! sentence.

use second::generate::*;
use second::job::{Card, job, read_card};
use second::layout::{Layout, Rows};
use second::lookup::lookup;
use second::pieces::{Outcome, Pieces};
use second::plan::{proves_shortest, write_planned, write_planned_within};
use second::rules::*;
use second::{ByColumns, ByRows, Read, Write, read, read_within, write, write_within};

const WIDE: usize = ROW_LIMIT * ROW_WORDS;

/// No limits, small and huge.
const NO_LIMITS: [usize; 8] = [
    0,
    33,
    34,
    40,
    256 + 8,
    (1 << 32) + 8,
    (1 << 63) + 8,
    usize::MAX,
];

/// So many Arrays in one another, the innermost empty.
fn nested(levels: usize) -> Vec<u8> {
    let around = b"A\x01\0\0\0".repeat(levels - 1);
    [PREFIX, &b"R"[..], &around, b"A\0\0\0\0"].concat()
}

/// Its rows.
fn nested_table(levels: usize) -> Table {
    let end = levels as u32 + 1;
    let mut words = vec![kind::RESPONSE, 0, 1, end];
    for level in 1..=levels {
        words.extend([kind::ARRAY, 0, u32::from(level < levels), end]);
    }
    Table {
        words,
        rows: levels + 1,
        text: Vec::new(),
    }
}

fn write_at(table: &Table, limit: usize, room: usize) -> (Write, Vec<u8>) {
    let mut output = vec![0xaa; room];
    let answer = write_within::<ByRows>(&table.words, table.rows, &table.text, limit, &mut output);
    if matches!(answer, Write::Refused { .. }) {
        assert!(output.iter().all(|&byte| byte == 0));
    }
    (answer, output)
}

#[test]
fn nesting_up_to_the_limit() {
    for limit in 1..=NESTING_LIMIT {
        for levels in 1..=NESTING_LIMIT + 2 {
            let (message, table) = (nested(levels), nested_table(levels));
            let (rows, used) = (levels + 1, message.len());
            let mut words = vec![7; 4 * 40];
            let answer = read_within::<ByRows>(&message, &mut words, limit);
            let (written, output) = write_at(&table, limit, used);
            if levels <= limit {
                assert_eq!(answer, Read::Accepted { rows, used });
                assert_eq!(words[..4 * rows], table.words);
                assert_eq!(written, Write::Accepted { length: used });
                assert_eq!(output, message);
            } else {
                let place = 13 + 5 * limit;
                assert_eq!(answer, Read::Refused { number: 8, place });
                assert_eq!(words, [0; 4 * 40]);
                assert_eq!(written, Write::Refused { number: 11 });
            }
        }
    }
}

#[test]
fn a_calls_array_and_a_faults_struct_count() {
    let call = [PREFIX, &b"CU\0\0\0\0A\x01\0\0\0A\0\0\0\0"[..]].concat();
    let mut words = [7; 16];
    let refused = Read::Refused {
        number: 8,
        place: 23,
    };
    assert_eq!(read_within::<ByRows>(&call, &mut words, 1), refused);
    let accepted = Read::Accepted { rows: 4, used: 28 };
    assert_eq!(read_within::<ByRows>(&call, &mut words, 2), accepted);
    let fault = second::papers::bytes_of(second::papers::FAULT);
    let accepted = Read::Accepted { rows: 6, used: 76 };
    assert_eq!(read_within::<ByRows>(&fault, &mut [7; 24], 1), accepted);
}

#[test]
fn calls_that_state_none() {
    let mut random = Random::new(22);
    for _ in 0..3_000 {
        let message = message(&mut random);
        let (mut stated, mut usual) = (vec![7; WIDE], vec![8; WIDE]);
        let answer = read_within::<ByRows>(&message, &mut stated, 8);
        assert_eq!(read::<ByRows>(&message, &mut usual), answer);
        assert_eq!(stated, usual);
        let table = table(&mut random);
        let (words, rows, text) = (&table.words, table.rows, &table.text);
        let mut output = vec![1; BYTE_LIMIT];
        let answer = write::<ByRows>(words, rows, text, &mut output);
        assert_eq!((answer, output), write_at(&table, 8, BYTE_LIMIT));
    }
    for (levels, number) in [(8, 0), (9, 11)] {
        let table = nested_table(levels);
        let answer = write_planned::<ByRows>(&table.words, table.rows, b"", b"", &mut [0; 80]);
        let refused = Write::Refused { number };
        assert_eq!(answer == refused, number != 0, "{answer:?}");
    }
}

#[test]
fn no_limit_before_all_else() {
    let long = vec![b'x'; BYTE_LIMIT + 1];
    let unwritable = Table {
        words: vec![9; 3],
        rows: 0,
        text: long.clone(),
    };
    for limit in NO_LIMITS {
        for message in [&b""[..], b"x", &nested(1), &nested(40), &long] {
            let mut table = [7; 6];
            let refused = Read::Refused {
                number: 23,
                place: 0,
            };
            assert_eq!(read_within::<ByRows>(message, &mut table, limit), refused);
            assert_eq!(table, [0; 6]);
        }
        for table in [&nested_table(1), &nested_table(40), &unwritable] {
            for room in [0, 17, 70_000] {
                let refused = Write::Refused { number: 23 };
                assert_eq!(write_at(table, limit, room).0, refused);
                let mut output = vec![7; room];
                let (words, rows, text) = (&table.words, table.rows, &table.text);
                let answer =
                    write_planned_within::<ByRows>(words, rows, text, b"x", limit, &mut output);
                assert_eq!(answer, refused);
                assert_eq!(output, vec![0; room]);
            }
        }
    }
}

#[test]
fn no_limit_for_pieces() {
    let message = nested(2);
    let refused = Outcome::Refused {
        number: 23,
        place: 0,
    };
    for limit in NO_LIMITS {
        for room in [0, BYTE_LIMIT - 1, BYTE_LIMIT, BYTE_LIMIT + 3] {
            // Before the first piece, behind one, and once it is decided.
            for before in [&b""[..], &message[..5], &message] {
                let (mut bytes, mut table) = (vec![0xaa; BYTE_LIMIT], [7; 12]);
                let mut pieces = Pieces::start();
                pieces.next_within::<ByRows>(before, &mut bytes, &mut table, 8);
                let mut ended = Pieces::start();
                ended.next_within::<ByRows>(before, &mut bytes, &mut table, 8);
                let mut other = vec![0xbb; room];
                let mut again = table;
                let answer = pieces.next_within::<ByRows>(b"x", &mut other, &mut table, limit);
                assert_eq!((answer, pieces.held()), (refused, 0));
                assert!(other.iter().all(|&byte| byte == 0xbb));
                assert_eq!(table, [0; 12]);
                assert_eq!(ended.end_within(&other, &mut again, limit), refused);
                assert_eq!(again, [0; 12]);
                // It stays.
                let later = pieces.next_within::<ByRows>(&message, &mut bytes, &mut table, 8);
                assert_eq!(later, refused);
            }
        }
    }
}

/// At one limit, pieces come to what the whole does.
#[test]
fn pieces_at_one_limit() {
    let mut random = Random::new(23);
    let (mut room, mut table) = (vec![0; BYTE_LIMIT], vec![7; WIDE]);
    for _ in 0..300 {
        let levels = random.between(1, NESTING_LIMIT + 1);
        let message = nested(levels);
        let limit = random.between(1, NESTING_LIMIT);
        let cut = random.below(message.len() + 1);
        let mut pieces = Pieces::start();
        for piece in [&message[..cut], &message[cut..]] {
            pieces.next_within::<ByRows>(piece, &mut room, &mut table, limit);
        }
        let whole = match read_within::<ByRows>(&message, &mut vec![8; WIDE], limit) {
            Read::Accepted { rows, used } => Outcome::Accepted { rows, used },
            Read::Refused { number, place } => Outcome::Refused { number, place },
        };
        assert_eq!(pieces.end_within(&room, &mut table, limit), whole);
    }
}

#[test]
fn what_is_judged_at_the_highest() {
    for levels in 1..=NESTING_LIMIT + 1 {
        let fits = levels <= NESTING_LIMIT;
        let (message, table) = (nested(levels), nested_table(levels));
        let answer = read_card::<ByRows>(&job(&[&message]), 0, &mut [7; 4 * 40]);
        assert_eq!(matches!(answer, Card::Accepted { .. }), fits);
        let found = lookup::<ByRows>(&table.words, table.rows, b"", 1, b"");
        assert_eq!(found, Err(if fits { 18 } else { 11 }));
        let proved = proves_shortest::<ByRows>(&table.words, table.rows, b"", b"", &[]);
        assert_eq!(proved, fits);
    }
}

/// A plan is taken, or not, whatever the limit, once the table is writable.
#[test]
fn plans_at_a_limit() {
    let table = nested_table(4);
    for limit in 1..=NESTING_LIMIT {
        for (plan, number) in [(&b""[..], 0), (b"\0\0", 24)] {
            let mut output = [7; 80];
            let (words, rows) = (&table.words, table.rows);
            let answer = write_planned_within::<ByRows>(words, rows, b"", plan, limit, &mut output);
            let expected = match (limit < 4, number) {
                (true, _) => Write::Refused { number: 11 },
                (false, 0) => Write::Accepted { length: 33 },
                (false, number) => Write::Refused { number },
            };
            assert_eq!(answer, expected);
        }
    }
}

/// An answer other than 8 and 9 stays, with its place and rows, under a higher
/// limit, a larger table or both.
fn answers_stay<L: Layout>() {
    let mut random = Random::new(24);
    let mut stayed = 0;
    for _ in 0..6_000 {
        let message = message(&mut random);
        let limit = random.between(1, NESTING_LIMIT);
        let rows = *random.pick(&[3, 6, 10, 40, 400]);
        let mut table = vec![7; ROW_WORDS * rows + random.below(ROW_WORDS)];
        let answer = read_within::<L>(&message, &mut table, limit);
        if matches!(answer, Read::Refused { number: 8 | 9, .. }) {
            continue;
        }
        let higher = random.between(limit, NESTING_LIMIT);
        let mut larger = vec![8; table.len() + random.below(50)];
        assert_eq!(read_within::<L>(&message, &mut larger, higher), answer);
        let (before, after) = (L::rows(&table), L::rows(&larger));
        assert!(after.all().take(before.len()).eq(before.all()));
        assert!(after.all().skip(before.len()).all(|row| row == [0; 4]));
        stayed += 1;
    }
    assert!(stayed > 2_000, "{stayed}");
}

#[test]
fn other_answers_stay() {
    answers_stay::<ByRows>();
    answers_stay::<ByColumns>();
}

/// A table made by the reader is writable at a limit that is not lower.
#[test]
fn read_then_written() {
    let mut random = Random::new(25);
    for _ in 0..3_000 {
        let text = valid(&mut random);
        let limit = random.between(1, NESTING_LIMIT);
        let mut words = vec![7; WIDE];
        let Read::Accepted { rows, .. } = read_within::<ByRows>(&text, &mut words, limit) else {
            continue;
        };
        let table = Table { words, rows, text };
        let later = random.between(limit, NESTING_LIMIT);
        let (answer, output) = write_at(&table, later, BYTE_LIMIT);
        let Write::Accepted { length } = answer else {
            assert_eq!(answer, Write::Refused { number: 12 });
            continue;
        };
        let back = read_within::<ByRows>(&output[..length], &mut vec![9; WIDE], limit);
        assert_eq!(back, Read::Accepted { rows, used: length });
    }
}
