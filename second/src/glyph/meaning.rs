//! When two tables of hyperglyph or glyph, each with its own bytes, mean the
//! same: as tables of Binmode do, a plain dict's pair order aside.

use crate::layout::{Layout, Rows};
use crate::rules::kind;

/// An object by what it means, a plain dict's pairs in the order of their
/// meaning.
#[derive(Debug, PartialEq, Eq, PartialOrd, Ord)]
struct Meaning<'t> {
    kind: u32,
    number: u32,
    content: &'t [u8],
    children: Vec<Meaning<'t>>,
}

/// Whether the rows of both tables, with their bytes, mean the same. Both are
/// writable.
pub fn same_meaning<L: Layout>(
    (left, left_bytes): (&[u32], &[u8]),
    (right, right_bytes): (&[u32], &[u8]),
) -> bool {
    meaning(L::rows(left), left_bytes, 0) == meaning(L::rows(right), right_bytes, 0)
}

fn meaning(rows: impl Rows, bytes: &[u8], row: usize) -> Meaning<'_> {
    let [kind, a, b, end] = rows.at(row);
    let (number, content) = match kind {
        kind::STRING | kind::BINARY => (0, &bytes[a as usize..][..b as usize]),
        _ => (a, &[][..]),
    };
    let mut children = Vec::new();
    let mut next = row + 1;
    while next < end as usize {
        children.push(meaning(rows, bytes, next));
        let [.., end] = rows.at(next);
        next = end as usize;
    }
    if kind == kind::STRUCT {
        children = sorted(children);
    }
    Meaning {
        kind,
        number,
        content,
        children,
    }
}

/// Keys and values, pair by pair.
fn sorted(children: Vec<Meaning>) -> Vec<Meaning> {
    let mut children = children.into_iter();
    let mut pairs = Vec::new();
    while let Some(pair) = children.next().zip(children.next()) {
        pairs.push(pair);
    }
    pairs.sort();
    pairs.into_iter().flat_map(<[Meaning; 2]>::from).collect()
}
