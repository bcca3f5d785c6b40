//! Long messages of all kinds of items: the Values of many good messages in
//! one Array. They may come out nested too deep, or just over a limit.

use crate::limits::{HIGHEST, read_at};
use second::generate::{Random, Table, valid};
use second::rules::{BYTE_LIMIT, PREFIX, ROW_LIMIT, ROW_WORDS};
use second::{ByRows, Read};

pub fn gathered(random: &mut Random) -> Vec<u8> {
    let most_rows = *random.pick(&[200, 1_000, ROW_LIMIT, ROW_LIMIT]) - 2;
    let most_bytes = *random.pick(&[4_000, 20_000, BYTE_LIMIT, BYTE_LIMIT]) - 18;
    let mut table = vec![0; ROW_LIMIT * ROW_WORDS];
    let (mut values, mut count, mut rows) = (Vec::new(), 0, 0);
    while rows < most_rows && values.len() < most_bytes && count < 300 {
        let message = valid(random);
        let Some((value, more)) = value_of(&message, &mut table) else {
            continue;
        };
        if rows + more <= most_rows && values.len() + value.len() <= most_bytes {
            values.extend(value);
            count += 1;
            rows += more;
        } else if random.one_in(4) {
            break;
        }
    }
    // Up to a limit, or just over it.
    let left = match random.below(3) {
        0 => (most_rows - rows).min(most_bytes - values.len()),
        _ => 0,
    };
    let more = (left + random.below(4)).saturating_sub(1);
    values.extend((0..more).map(|_| *random.pick(b"tf")));
    count += more;
    if random.one_in(3) {
        let length =
            (most_bytes - values.len().min(most_bytes) + random.below(4)).saturating_sub(7);
        values.push(b'B');
        values.extend((length as u32).to_le_bytes());
        values.resize(values.len() + length, b'B');
        count += 1;
    }
    let count = (count as u32).to_le_bytes();
    [PREFIX, &b"RA"[..], &count, &values].concat()
}

/// The Value that a Response holds, and its number of rows.
fn value_of<'m>(message: &'m [u8], table: &mut [u32]) -> Option<(&'m [u8], usize)> {
    let value = PREFIX.len() + 1;
    match read_at::<ByRows>(message, table, HIGHEST) {
        Read::Accepted { rows, used } if table[0] == 2 => Some((&message[value..used], rows - 1)),
        _ => None,
    }
}

/// The table of such a message, with one word changed now and then.
pub fn gathered_table(random: &mut Random) -> Table {
    let text = gathered(random);
    let mut words = vec![0; ROW_LIMIT * ROW_WORDS];
    let rows = match read_at::<ByRows>(&text, &mut words, HIGHEST) {
        Read::Accepted { rows, .. } => rows,
        Read::Refused { .. } => 1,
    };
    if random.one_in(3) {
        let word = random.below(rows * ROW_WORDS);
        words[word] = words[word].wrapping_add(*random.pick(&[1, u32::MAX, 65_536]));
    }
    Table { words, rows, text }
}
