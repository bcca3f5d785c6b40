//! Job defaults behind the card, written from document 02 (request E9) only.

use crate::layout::{Layout, Rows};
use crate::lookup::{find, sought};
use crate::rules::{kind, refusal};
use crate::writer::writable;

/// What a text is asked of, the card or the defaults: a table with a stated
/// number of rows, the bytes its contents lie in, and the Struct's row.
#[derive(Clone, Copy, Debug)]
pub struct Asked<'t> {
    pub table: &'t [u32],
    pub rows: usize,
    pub text: &'t [u8],
    pub row: usize,
}

/// Whose bytes a text lies in.
#[derive(Clone, Copy, Debug, PartialEq, Eq)]
pub enum Source {
    Card,
    Defaults,
}

/// A text by where it lies.
#[derive(Clone, Copy, Debug, PartialEq, Eq)]
pub struct Text {
    pub source: Source,
    pub offset: u32,
    pub length: u32,
}

/// The card's text if the card's Struct has the key, otherwise the defaults';
/// or the number of a refusal.
pub fn default_text<L: Layout>(card: Asked, defaults: Asked, key: &[u8]) -> Result<Text, u8> {
    let own = judged::<L>(card)?;
    let other = judged::<L>(defaults)?;
    for (rows, row) in [(own, card.row), (other, defaults.row)] {
        if rows.get(row).is_none_or(|row| row[0] != kind::STRUCT) {
            return Err(sought::NO_MEMBER);
        }
    }
    let (source, value) = match find(own, card.text, card.row, key) {
        Some(value) => (Source::Card, own.at(value)),
        None => {
            let value = find(other, defaults.text, defaults.row, key);
            (Source::Defaults, other.at(value.ok_or(sought::NO_MEMBER)?))
        }
    };
    match value {
        [kind::STRING, offset, length, _] => Ok(Text {
            source,
            offset,
            length,
        }),
        _ => Err(sought::NO_MEMBER),
    }
}

fn judged<L: Layout>(asked: Asked<'_>) -> Result<L::Rows<'_>, u8> {
    writable::<L>(asked.table, asked.rows, asked.text).ok_or(refusal::TABLE)
}

#[cfg(test)]
mod tests {
    use super::*;
    use crate::layout::ByRows;
    use crate::reader::{Read, read};

    /// A Response of a Struct with these members, read.
    struct Message {
        table: Vec<u32>,
        rows: usize,
        text: Vec<u8>,
    }

    impl Message {
        fn of(members: &[(&str, &[u8])]) -> Self {
            let mut text = b"binmode-rpc:RS".to_vec();
            text.extend((members.len() as u32).to_le_bytes());
            for (key, value) in members {
                text.push(b'U');
                text.extend((key.len() as u32).to_le_bytes());
                text.extend(key.as_bytes());
                text.extend(*value);
            }
            let mut table = vec![0; 400];
            let Read::Accepted { rows, .. } = read::<ByRows>(&text, &mut table) else {
                panic!("{text:?}");
            };
            Message { table, rows, text }
        }

        fn asked(&self, row: usize) -> Asked<'_> {
            Asked {
                table: &self.table,
                rows: self.rows,
                text: &self.text,
                row,
            }
        }

        /// The text at this place.
        fn at(&self, text: Text) -> &[u8] {
            &self.text[text.offset as usize..][..text.length as usize]
        }
    }

    #[test]
    fn the_card_first() {
        let card = Message::of(&[("a", b"U\x01\0\0\0c"), ("n", b"t"), ("e", b"U\0\0\0\0")]);
        let behind = Message::of(&[
            ("a", b"U\x01\0\0\0d"),
            ("n", b"U\x01\0\0\0d"),
            ("e", b"U\x01\0\0\0d"),
            ("b", b"U\x02\0\0\0de"),
            ("m", b"I\0\0\0\0"),
        ]);
        let text =
            |key: &str| default_text::<ByRows>(card.asked(1), behind.asked(1), key.as_bytes());
        for (key, source, bytes) in [
            ("a", Source::Card, &b"c"[..]),
            ("e", Source::Card, b""),
            ("b", Source::Defaults, b"de"),
        ] {
            let found = text(key).unwrap();
            let whose = if source == Source::Card {
                &card
            } else {
                &behind
            };
            assert_eq!((found.source, whose.at(found)), (source, bytes), "{key}");
        }
        // Neither has it; the card's is no String, or the defaults'.
        for key in ["c", "n", "m", "", "ab"] {
            assert_eq!(text(key), Err(18), "{key}");
        }
    }

    #[test]
    fn refusals_in_order() {
        let (card, behind) = (Message::of(&[("a", b"U\x01\0\0\0c")]), Message::of(&[]));
        let text =
            |card, behind| default_text::<ByRows>(card, behind, b"a").map(|text| text.source);
        assert_eq!(text(card.asked(1), behind.asked(1)), Ok(Source::Card));
        // Either row is no Struct, though the card has the key.
        for row in [0, 2, 4, usize::MAX] {
            assert_eq!(text(card.asked(1), behind.asked(row)), Err(18));
            assert_eq!(text(card.asked(row), behind.asked(1)), Err(18));
        }
        // 11 for either, before 18 for either.
        let none = Asked {
            rows: 0,
            ..card.asked(1)
        };
        assert_eq!(text(card.asked(1), none), Err(11));
        assert_eq!(text(card.asked(0), none), Err(11));
        assert_eq!(text(none, behind.asked(0)), Err(11));
    }
}
