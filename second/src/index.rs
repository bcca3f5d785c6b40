//! An index of a Struct's members, and keys looked up through a list of
//! entries, written from document 02 (request E8) only.

use crate::layout::{Layout, Rows};
use crate::lookup::{self, Member, answer, sought};
use crate::meaning::content;
use crate::rules::{kind, refusal};
use crate::writer::writable;

/// The list is shorter than the member count.
pub const SHORT_LIST: u8 = 21;

/// A member's key row and value row; zeros if the entry is unused.
#[derive(Clone, Copy, Debug, Default, PartialEq, Eq)]
pub struct Entry {
    pub key: u32,
    pub value: u32,
}

/// The key row and the value row of each member of the Struct in a row.
pub fn members(rows: impl Rows, row: usize) -> Option<Vec<Entry>> {
    let [kind, _, pairs, _] = rows.get(row)?;
    let mut at = row as u32 + 1;
    let mut member = |_| {
        let entry = Entry {
            key: at,
            value: at + 1,
        };
        at = rows.at(at as usize + 1)[3];
        entry
    };
    (kind == kind::STRUCT).then(|| (0..pairs).map(&mut member).collect())
}

/// The whole list of `length` entries, or the number of a refusal; then all
/// entries are zero.
pub fn fill<L: Layout>(
    table: &[u32],
    rows: usize,
    text: &[u8],
    row: usize,
    length: usize,
) -> Result<Vec<Entry>, u8> {
    let rows = writable::<L>(table, rows, text).ok_or(refusal::TABLE)?;
    let mut list = members(rows, row).ok_or(sought::NO_MEMBER)?;
    if length < list.len() {
        return Err(SHORT_LIST);
    }
    let key = |entry: &Entry| {
        let [_, offset, size, _] = rows.at(entry.key as usize);
        content(text, offset, size).expect("a writable table's text")
    };
    list.sort_by_key(key);
    list.resize(length, Entry::default());
    Ok(list)
}

/// The answers that document 02 allows for a key looked up through a list:
/// that of the search from the front; and 18, unless the list is the Struct's
/// own index. The first is allowed only if an entry names the key's two rows.
#[derive(PartialEq)]
pub struct Allowed {
    pub front: Option<Result<Member, u8>>,
    pub absent: bool,
}

pub fn allowed<L: Layout>(
    table: &[u32],
    rows: usize,
    text: &[u8],
    row: usize,
    list: &[Entry],
    key: &[u8],
) -> Allowed {
    let stated = rows;
    let Some(rows) = writable::<L>(table, rows, text) else {
        let front = Some(Err(refusal::TABLE));
        return Allowed {
            front,
            absent: false,
        };
    };
    let value = lookup::find(rows, text, row, key);
    let named = value.is_some_and(|value| {
        let (key, value) = (value as u32 - 1, value as u32);
        list.contains(&Entry { key, value })
    });
    let front = value.map(|value| answer(rows, text, value));
    let own = fill::<L>(table, stated, text, row, list.len()).is_ok_and(|index| index == list);
    Allowed {
        front: front.filter(|_| named),
        absent: !own || value.is_none(),
    }
}

/// Keys looked up through a list by halves, the table judged once. This is how
/// it is done here; of a foreign list others may find more, or less.
pub fn find<L: Layout>(
    table: &[u32],
    rows: usize,
    text: &[u8],
    row: usize,
    list: &[Entry],
    keys: &[&[u8]],
) -> Vec<Result<Member, u8>> {
    let Some(rows) = writable::<L>(table, rows, text) else {
        return vec![Err(refusal::TABLE); keys.len()];
    };
    let used = list.partition_point(|entry| entry.key != 0);
    let members = members(rows, row).unwrap_or_default();
    let of = |entry: &Entry| {
        let [_, offset, size, _] = rows.get(entry.key as usize).unwrap_or_default();
        content(text, offset, size).unwrap_or_default()
    };
    let one = |key: &&[u8]| {
        let at = list[..used].binary_search_by(|entry| of(entry).cmp(key));
        let entry = at.ok().map(|at| list[at]);
        let entry = entry.filter(|entry| members.contains(entry));
        let value = entry.ok_or(sought::NO_MEMBER)?.value;
        answer(rows, text, value as usize)
    };
    keys.iter().map(one).collect()
}

#[cfg(test)]
mod tests {
    use super::*;
    use crate::layout::ByRows;
    use crate::reader::{Read, read};

    /// A Response of a Struct of Booleans with these keys, and of one Struct in
    /// it that has the first of them too.
    fn card(keys: &[&str]) -> (Vec<u32>, usize, Vec<u8>) {
        let string = |text: &str| {
            let length = (text.len() as u32).to_le_bytes();
            [b"U", &length[..], text.as_bytes()].concat()
        };
        let mut message = b"binmode-rpc:RS".to_vec();
        message.extend((keys.len() as u32 + 1).to_le_bytes());
        for key in keys {
            message.extend(string(key));
            message.push(b't');
        }
        message.extend([string("~"), b"S\x01\0\0\0".to_vec(), string(keys[0])].concat());
        message.push(b'f');
        let mut table = vec![0; 400];
        let Read::Accepted { rows, .. } = read::<ByRows>(&message, &mut table) else {
            panic!("{message:?}");
        };
        (table, rows, message)
    }

    fn entries(keys: &[u32]) -> Vec<Entry> {
        let entry = |&key: &u32| Entry {
            key,
            value: if key == 0 { 0 } else { key + 1 },
        };
        keys.iter().map(entry).collect()
    }

    #[test]
    fn byte_order() {
        let (table, rows, text) = card(&["b", "ab", "", "a", "é", "B"]);
        let filled = fill::<ByRows>(&table, rows, &text, 1, 9);
        // "", B, a, ab, b, ~, é
        assert_eq!(filled, Ok(entries(&[6, 12, 8, 4, 2, 14, 10, 0, 0])));
        assert_eq!(fill::<ByRows>(&table, rows, &text, 1, 7).unwrap().len(), 7);
        assert_eq!(fill::<ByRows>(&table, rows, &text, 1, 6), Err(21));
        assert_eq!(fill::<ByRows>(&table, rows, &text, 2, 0), Err(18));
        assert_eq!(fill::<ByRows>(&table, rows, &text, 99, 0), Err(18));
        assert_eq!(fill::<ByRows>(&table, rows + 1, &text, 1, 0), Err(11));
        assert_eq!(
            fill::<ByRows>(&table, rows, &text, 15, 1),
            Ok(entries(&[16]))
        );
    }

    #[test]
    fn foreign_lists() {
        let (table, rows, text) = card(&["b", "a"]);
        let of = |list: &[Entry], key: &str| {
            let of = allowed::<ByRows>(&table, rows, &text, 1, list, key.as_bytes());
            (of.front.is_some(), of.absent)
        };
        let index = fill::<ByRows>(&table, rows, &text, 1, 4).unwrap();
        assert_eq!(of(&index, "a"), (true, false));
        assert_eq!(of(&index, "x"), (false, true));
        assert_eq!(of(&entries(&[2, 4, 6, 0]), "a"), (true, true));
        // The nested Struct's `b`, other rows, and none at all.
        assert_eq!(of(&entries(&[8]), "b"), (false, true));
        assert_eq!(of(&[Entry { key: 2, value: 5 }], "b"), (false, true));
        assert_eq!(of(&[], "b"), (false, true));
    }

    #[test]
    fn through_an_index() {
        let (table, rows, text) = card(&["b", "ab", "", "a", "B"]);
        let index = fill::<ByRows>(&table, rows, &text, 1, 8).unwrap();
        let keys: [&[u8]; 7] = [b"b", b"ab", b"", b"a", b"B", b"~", b"x"];
        let found = find::<ByRows>(&table, rows, &text, 1, &index, &keys);
        for (key, found) in keys.iter().zip(found) {
            assert_eq!(
                found,
                crate::lookup::lookup::<ByRows>(&table, rows, &text, 1, key)
            );
        }
        assert_eq!(
            find::<ByRows>(&table, rows + 1, &text, 1, &index, &keys),
            [Err(11); 7]
        );
    }
}
