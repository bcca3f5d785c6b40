//! The shortest message of a small table, by trying every way of sending its
//! strings.

use crate::layout::{Layout, Rows};
use crate::meaning::{content, same_meaning};
use crate::reader::{Read, read_within};
use crate::rules::*;

/// A way of sending one string.
#[derive(Clone, Copy, Debug, PartialEq, Eq)]
pub enum Way {
    Regular,
    Recorded(u8),
    Recalled(u8),
}

/// The rows in bytes, one after the other, the n-th string sent in the n-th
/// way (regular where none is given). Nothing about the table is checked, but
/// a row that has no bytes gives nothing.
pub fn compose<L: Layout>(
    table: &[u32],
    rows: usize,
    text: &[u8],
    ways: &[Way],
) -> Option<Vec<u8>> {
    let mut bytes = PREFIX.to_vec();
    let mut ways = ways.iter();
    for [kind, a, b, _] in L::rows(table).first(rows)?.all() {
        match kind {
            kind::CALL => bytes.push(b'C'),
            kind::RESPONSE => bytes.push(b'R'),
            kind::FAULT => bytes.extend(b"RF"),
            kind::INTEGER => {
                bytes.push(b'I');
                bytes.extend(a.to_le_bytes());
            }
            kind::BOOLEAN => bytes.push(*b"ft".get(a as usize)?),
            kind::DOUBLE | kind::DATE_TIME => {
                bytes.push(if kind == kind::DOUBLE { b'D' } else { b'8' });
                bytes.push(u8::try_from(b).ok()?);
                bytes.extend(content(text, a, b)?);
            }
            kind::BINARY => {
                bytes.push(b'B');
                bytes.extend(b.to_le_bytes());
                bytes.extend(content(text, a, b)?);
            }
            kind::ARRAY | kind::STRUCT => {
                bytes.push(if kind == kind::ARRAY { b'A' } else { b'S' });
                bytes.extend(b.to_le_bytes());
            }
            kind::OTHER => bytes.push(b'O'),
            kind::STRING => {
                match *ways.next().unwrap_or(&Way::Regular) {
                    Way::Recalled(position) => {
                        bytes.extend([b'<', position]);
                        continue;
                    }
                    Way::Recorded(position) => bytes.extend([b'>', position]),
                    Way::Regular => bytes.push(b'U'),
                }
                bytes.extend(b.to_le_bytes());
                bytes.extend(content(text, a, b)?);
            }
            _ => return None,
        }
    }
    Some(bytes)
}

/// Where the strings of a table lie.
fn strings<'t, L: Layout>(table: &[u32], rows: usize, text: &'t [u8]) -> Vec<&'t [u8]> {
    L::rows(table)
        .all()
        .take(rows)
        .filter(|row| row[0] == kind::STRING)
        .filter_map(|[_, a, b, _]| content(text, a, b))
        .collect()
}

/// A shortest message with the table's meaning, found by composing a message
/// for every choice of ways and reading each. As many positions as there are
/// strings are enough: more can't be in use, and which ones doesn't matter to
/// the length. For tables of a handful of strings, within the limits.
pub fn shortest_by_reading<L: Layout>(table: &[u32], rows: usize, text: &[u8]) -> Option<Vec<u8>> {
    let count = strings::<L>(table, rows, text).len();
    let mut ways = vec![Way::Regular];
    ways.extend((0..count).map(|position| Way::Recorded(position as u8)));
    ways.extend((0..count).map(|position| Way::Recalled(position as u8)));

    let mut best: Option<Vec<u8>> = None;
    let mut back = vec![0; ROW_WORDS * rows];
    let mut choice = vec![0; count];
    loop {
        let chosen: Vec<Way> = choice.iter().map(|&way: &usize| ways[way]).collect();
        let message = compose::<L>(table, rows, text, &chosen)?;
        if best.as_ref().is_none_or(|best| message.len() < best.len())
            && let Read::Accepted { rows: read, used } =
                read_within::<L>(&message, &mut back, NESTING_LIMIT)
            && used == message.len()
            && same_meaning::<L>((table, rows, text), (&back, read, &message))
        {
            best = Some(message);
        }
        // The next choice, counting with the ways as digits.
        let Some(digit) = choice.iter().position(|&way| way + 1 < ways.len()) else {
            return best;
        };
        choice[..digit].fill(0);
        choice[digit] += 1;
    }
}

/// The length of a shortest message, found by following every choice of ways
/// with the codebook it leads to. Reaches a few strings further.
pub fn shortest_by_counting<L: Layout>(table: &[u32], rows: usize, text: &[u8]) -> Option<usize> {
    let strings = strings::<L>(table, rows, text);
    let regular = compose::<L>(table, rows, text, &[])?.len();
    let others = regular - strings.iter().map(|text| 5 + text.len()).sum::<usize>();
    let mut codebook = vec![None; strings.len()];
    Some(others + least(&strings, &mut codebook))
}

/// The fewest bytes in which these strings can be sent from this codebook on.
fn least<'t>(strings: &[&'t [u8]], codebook: &mut Vec<Option<&'t [u8]>>) -> usize {
    let Some((&text, later)) = strings.split_first() else {
        return 0;
    };
    let mut best = 5 + text.len() + least(later, codebook);
    for position in 0..codebook.len() {
        if codebook[position] == Some(text) {
            best = best.min(2 + least(later, codebook));
        }
        let before = codebook[position].replace(text);
        best = best.min(6 + text.len() + least(later, codebook));
        codebook[position] = before;
    }
    best
}
