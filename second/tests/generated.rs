//! What has to hold of every message and table, on generated ones.

use second::generate::*;
use second::rules::*;
use second::shortest::compose;
use second::{ByRows, Read, Write, read_within, same_meaning, write_within};
use std::collections::HashMap;

const WIDE: usize = ROW_LIMIT * ROW_WORDS;

/// Reads into a table of so many words that held something before, and checks
/// that all of it is settled.
fn read_into(message: &[u8], words: usize) -> (Read, Vec<u32>) {
    let mut table = vec![0xdead_beef; words];
    let answer = read_within::<ByRows>(message, &mut table, NESTING_LIMIT);
    let used = match answer {
        Read::Accepted { rows, used } => {
            assert!(used <= message.len() && rows <= words / ROW_WORDS);
            rows * ROW_WORDS
        }
        Read::Refused { place, .. } => {
            assert!(place <= message.len());
            0
        }
    };
    assert!(table[used..].iter().all(|&word| word == 0));
    (answer, table)
}

fn write_into(table: &Table, room: usize) -> (Write, Vec<u8>) {
    let mut output = vec![0xaa; room];
    let (words, rows, text) = (&table.words, table.rows, &table.text);
    let answer = write_within::<ByRows>(words, rows, text, NESTING_LIMIT, &mut output);
    let length = match answer {
        Write::Accepted { length } => length,
        Write::Refused { .. } => 0,
    };
    assert!(output[length..].iter().all(|&byte| byte == 0));
    (answer, output)
}

/// How many texts stand as strings twice or more.
fn repeated(table: &Table) -> usize {
    let mut counts = HashMap::new();
    for row in table.words.chunks_exact(ROW_WORDS).take(table.rows) {
        if row[0] == kind::STRING {
            let text = &table.text[row[1] as usize..][..row[2] as usize];
            *counts.entry(text).or_insert(0) += 1;
        }
    }
    counts.values().filter(|&&count| count > 1).count()
}

#[test]
fn valid_messages_are_accepted() {
    let mut random = Random::new(1);
    for _ in 0..4_000 {
        let message = valid(&mut random);
        let (answer, _) = read_into(&message, WIDE);
        assert!(matches!(answer, Read::Accepted { .. }), "{answer:?}");
    }
}

#[test]
fn messages_beyond_a_limit_are_refused_for_it() {
    let mut random = Random::new(2);
    let mut seen = [0; 21];
    for _ in 0..200 {
        let (answer, _) = read_into(&beyond(&mut random), WIDE);
        let Read::Refused { number, .. } = answer else {
            panic!("{answer:?}");
        };
        seen[number as usize] += 1;
    }
    assert_eq!(seen[8] + seen[9] + seen[10], 200);
    assert!(seen[8..11].iter().all(|&count| count > 20));
}

#[test]
fn every_refusal_of_the_reader_occurs() {
    let mut random = Random::new(3);
    let mut seen = [0; 21];
    for _ in 0..6_000 {
        match read_into(&message(&mut random), WIDE).0 {
            Read::Accepted { .. } => seen[0] += 1,
            Read::Refused { number, .. } => seen[number as usize] += 1,
        }
    }
    for number in [0, 1, 2, 3, 5, 6, 7, 8, 9, 10, 14, 17, 20] {
        assert!(seen[number] > 30, "{number}: {seen:?}");
    }
    for number in [4, 11, 12, 13, 15, 16, 18, 19] {
        assert_eq!(seen[number], 0);
    }
}

#[test]
fn room_decides_only_about_rows() {
    let mut random = Random::new(4);
    for _ in 0..4_000 {
        let message = message(&mut random);
        let (wide, rows) = read_into(&message, WIDE);
        let need = match wide {
            Read::Accepted { rows, .. } => rows,
            Read::Refused { .. } => random.below(12),
        };
        let words = table_words(&mut random, need);
        let (answer, table) = read_into(&message, words);
        match (wide, answer) {
            (Read::Accepted { rows: need, .. }, Read::Accepted { .. }) => {
                assert_eq!(answer, wide);
                assert!(words / ROW_WORDS >= need);
                assert_eq!(table[..need * ROW_WORDS], rows[..need * ROW_WORDS]);
            }
            (Read::Accepted { rows: need, .. }, Read::Refused { number, .. }) => {
                assert_eq!(number, refusal::ROWS);
                assert!(words / ROW_WORDS < need);
            }
            (
                Read::Refused {
                    number: why,
                    place: far,
                },
                Read::Refused { number, place },
            ) => {
                // 7 is told at the `O`, after the row of the name behind it, and
                // 14 at the `S`, after all rows of the Struct.
                let far = match why {
                    refusal::NAME => far + 1,
                    refusal::FAULT => message.len(),
                    _ => far,
                };
                assert!(answer == wide || number == refusal::ROWS && place <= far);
            }
            _ => panic!("{wide:?} {answer:?}"),
        }
    }
}

#[test]
fn a_cut_is_refused_with_a_cut() {
    let mut random = Random::new(5);
    for _ in 0..600 {
        let message = valid(&mut random);
        let (Read::Accepted { used, .. }, table) = read_into(&message, WIDE) else {
            panic!("valid");
        };
        // What follows doesn't matter.
        let (answer, again) = read_into(&message[..used], WIDE);
        assert!(matches!(answer, Read::Accepted { .. }) && table == again);
        for _ in 0..20 {
            let cut = random.below(used);
            let (answer, _) = read_into(&message[..cut], WIDE);
            assert!(matches!(answer, Read::Refused { number: 1, .. }));
        }
    }
}

#[test]
fn read_tables_write_back() {
    let mut random = Random::new(6);
    let mut too_long = 0;
    for _ in 0..4_000 {
        let message = message(&mut random);
        let (Read::Accepted { rows, used }, words) = read_into(&message, WIDE) else {
            continue;
        };
        let table = Table {
            words,
            rows,
            text: message,
        };
        let few = repeated(&table) <= POSITIONS;
        match write_into(&table, BYTE_LIMIT) {
            (Write::Accepted { length }, output) => {
                assert!(!few || length <= used);
                reads_back(&table, &output[..length]);
            }
            (Write::Refused { number: 12 }, _) if !few => too_long += 1,
            (answer, _) => panic!("{answer:?}"),
        }
    }
    assert!(too_long > 5, "{too_long}");
}

/// The written bytes, and they with others after them, mean the table; written
/// again they are the same.
fn reads_back(table: &Table, written: &[u8]) {
    let (answer, back) = read_into(written, table.rows * ROW_WORDS);
    let rows = table.rows;
    let used = written.len();
    assert_eq!(answer, Read::Accepted { rows, used });
    assert!(same_meaning::<ByRows>(
        (&table.words, rows, &table.text),
        (&back, rows, written)
    ));
    let mut longer = written.to_vec();
    longer.resize(BYTE_LIMIT.min(used + 3), b'<');
    assert_eq!(read_into(&longer, WIDE).0, answer);
    let again = Table {
        words: back,
        rows,
        text: written.to_vec(),
    };
    let (answer, output) = write_into(&again, used);
    assert_eq!(answer, Write::Accepted { length: used });
    assert_eq!(output, written);
}

#[test]
fn output_lengths_around_the_need() {
    let mut random = Random::new(7);
    for _ in 0..3_000 {
        let table = writable(&mut random);
        let (wide, message) = write_into(&table, BYTE_LIMIT);
        let Write::Accepted { length } = wide else {
            assert_eq!(wide, Write::Refused { number: 12 });
            assert_eq!(write_into(&table, random.below(80_000)).0, wide);
            continue;
        };
        for room in [length, length + 1, output_length(&mut random, length)] {
            let (answer, output) = write_into(&table, room);
            if room < length {
                assert_eq!(answer, Write::Refused { number: 13 });
            } else {
                assert_eq!(answer, wide);
                assert_eq!(output[..length], message[..length]);
            }
        }
        let (answer, _) = write_into(&table, length - 1);
        assert_eq!(answer, Write::Refused { number: 13 });
        reads_back(&table, &message[..length]);
    }
}

/// Whether a table is writable, by putting its rows into bytes as they are and
/// reading these: they have to give the same rows. Unknown for long ones.
fn writable_by_reading(table: &Table) -> Option<bool> {
    if !(1..=ROW_LIMIT).contains(&table.rows) || table.words.len() / ROW_WORDS < table.rows {
        return Some(false);
    }
    let Some(message) = compose::<ByRows>(&table.words, table.rows, &table.text, &[]) else {
        return Some(false);
    };
    if message.len() > BYTE_LIMIT {
        return None;
    }
    let (answer, back) = read_into(&message, WIDE);
    let whole = Read::Accepted {
        rows: table.rows,
        used: message.len(),
    };
    let rows = table.words.chunks_exact(ROW_WORDS).take(table.rows);
    let same = rows.zip(back.chunks_exact(ROW_WORDS)).all(|(row, back)| {
        let has_offset = [6, 7, 8, 11].contains(&row[0]);
        [row[0], row[2], row[3]] == [back[0], back[2], back[3]] && (has_offset || row[1] == back[1])
    });
    Some(answer == whole && same)
}

#[test]
fn writable_is_exact() {
    let mut random = Random::new(8);
    let mut seen = [0; 21];
    for _ in 0..20_000 {
        let table = table(&mut random);
        let answer = write_into(&table, BYTE_LIMIT).0;
        let number = match answer {
            Write::Accepted { .. } => 0,
            Write::Refused { number } => number,
        };
        seen[number as usize] += 1;
        if table.text.len() > BYTE_LIMIT {
            assert_eq!(number, 10);
        } else if let Some(writable) = writable_by_reading(&table) {
            assert_eq!(writable, number != 11, "{answer:?} {:?}", table.rows);
        }
    }
    for number in [0, 10, 11, 12] {
        assert!(seen[number] > 30, "{number}: {seen:?}");
    }
    assert_eq!(
        seen.iter().sum::<i32>(),
        seen[0] + seen[10] + seen[11] + seen[12]
    );
}

#[test]
fn every_word_of_small_tables() {
    let mut random = Random::new(9);
    for _ in 0..150 {
        let good = few_strings(&mut random, 5);
        assert_eq!(writable_by_reading(&good), Some(true));
        for place in 0..good.words.len() {
            let word = good.words[place];
            let near = [word.wrapping_sub(1), word.wrapping_add(1)];
            let far = [
                0,
                1,
                1 << 31,
                u32::MAX,
                u32::MAX - good.words[place / 4 * 4 + 1],
            ];
            let kinds = 0..if place % ROW_WORDS == 0 { 14 } else { 0 };
            for value in near.into_iter().chain(far).chain(kinds) {
                let mut table = good.clone();
                table.words[place] = value;
                let answer = write_into(&table, 2_000).0;
                let refused = answer == Write::Refused { number: 11 };
                assert_eq!(writable_by_reading(&table), Some(!refused), "{table:?}");
            }
        }
    }
}
