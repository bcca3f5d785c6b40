//! When two tables, each with its own bytes, mean the same.

use crate::layout::{Layout, Rows};
use crate::rules::kind;

/// Whether the first `rows` rows of both tables, with their bytes, mean the
/// same. Rows that are not there, or content outside the bytes, mean nothing.
pub fn same_meaning<L: Layout>(
    (left, left_rows, left_bytes): (&[u32], usize, &[u8]),
    (right, right_rows, right_bytes): (&[u32], usize, &[u8]),
) -> bool {
    let left = L::rows(left).first(left_rows);
    let right = L::rows(right).first(right_rows);
    let (Some(left), Some(right)) = (left, right) else {
        return false;
    };
    left.len() == right.len()
        && left.all().zip(right.all()).all(|([kind, a, b, end], r)| {
            if [kind, b, end] != [r[0], r[2], r[3]] {
                return false;
            }
            match kind {
                kind::INTEGER | kind::BOOLEAN => a == r[1],
                kind::DOUBLE | kind::DATE_TIME | kind::BINARY | kind::STRING => {
                    match (content(left_bytes, a, b), content(right_bytes, r[1], b)) {
                        (Some(left), Some(right)) => left == right,
                        _ => false,
                    }
                }
                _ => true,
            }
        })
}

/// The `length` bytes at `offset`, if they are there.
pub fn content(bytes: &[u8], offset: u32, length: u32) -> Option<&[u8]> {
    bytes
        .get(offset as usize..)
        .and_then(|rest| rest.get(..length as usize))
}
