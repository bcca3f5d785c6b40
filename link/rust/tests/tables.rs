//! Tables that no one read: every item, child and member is reached in a
//! bounded number of steps, and nothing outside the bytes.

use binmode::{Item, Kind, Table, read, set_row};

/// Small numbers from a seed.
struct Random(u64);

impl Random {
    fn below(&mut self, bound: u64) -> u32 {
        self.0 = self
            .0
            .wrapping_mul(6_364_136_223_846_793_005)
            .wrapping_add(1);
        ((self.0 >> 33) % bound) as u32
    }
}

fn visit(item: Item) {
    let rows = item.table().rows;
    assert!(item.children().count() <= rows);
    assert!(item.members().count() <= rows);
    for child in item.children() {
        assert!(item.row() < child.row());
    }
    assert!(
        item.bytes()
            .is_none_or(|bytes| bytes.len() <= item.table().text.len())
    );
    let _ = (item.text(), item.integer(), item.boolean());
    let _ = (
        item.lookup("a"),
        item.position(),
        item.text_or_default(item, "a"),
    );
}

#[test]
fn any_table() {
    let mut random = Random(1);
    for _ in 0..20_000 {
        let mut words = [0; 42];
        for word in &mut words {
            *word = match random.below(8) {
                0 => u32::MAX - random.below(3),
                1 => random.below(20),
                _ => random.below(13),
            };
        }
        let rows = random.below(14) as usize;
        let table = Table {
            words: &words,
            rows,
            text: b"abc",
        };
        table.items().for_each(visit);
        for row in 0..rows + 2 {
            let item = table.item(row);
            assert!(item.is_none() || row < rows.min(10));
            item.into_iter().for_each(visit);
        }
        assert!(table.write(&mut [1; 64]).is_err() || rows > 0);
    }
}

#[test]
fn rows_as_set() {
    let mut words = [7; 14];
    assert!(set_row(&mut words, 0, [2, 0, 1, 3]));
    assert!(set_row(&mut words, 1, [9, 0, 1, 3]));
    assert!(set_row(&mut words, 2, [11, 1, 2, 3]));
    assert!(!set_row(&mut words, 3, [4, 0, 0, 4]));
    // Four columns of three words, and two words that are no row's.
    assert_eq!(words, [2, 9, 11, 0, 0, 1, 1, 1, 2, 3, 3, 3, 7, 7]);
    let table = Table {
        words: &words,
        rows: 3,
        text: b"abc",
    };
    let mut output = [0; 40];
    let message = table.write(&mut output).expect("a writable table");
    assert_eq!(message, b"binmode-rpc:RA\x01\0\0\0U\x02\0\0\0bc");
    let mut again = [7; 14];
    let message = read(message, &mut again).expect("a message");
    let columns = [0, 1, 2, 3].map(|word| message.table().column(word));
    assert_eq!(columns, [[2, 9, 11], [0, 0, 23], [1, 1, 2], [3, 3, 3]]);
    let kinds: Vec<Kind> = message.items().map(Item::kind).collect();
    assert_eq!(kinds, [Kind::Response, Kind::Array, Kind::String]);
    assert_eq!(message.item(2).and_then(Item::text), Some("bc"));
}
