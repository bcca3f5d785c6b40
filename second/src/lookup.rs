//! Members of a Struct, and the laser station's positions, written from
//! document 02 (requests E5 and E7) only. The keys of a writable table's
//! Structs are distinct, so that a member found is the only one.

use crate::layout::{Layout, Rows};
use crate::meaning::content;
use crate::rules::{kind, refusal};
use crate::writer::writable;

/// Refusals that only looking up gives.
pub mod sought {
    /// A row that is no Struct, an absent member or one of the wrong sort.
    pub const NO_MEMBER: u8 = 18;
    /// Too many digits in a decimal.
    pub const DIGITS: u8 = 19;
}

/// What a member is.
#[derive(Clone, Copy, Debug, PartialEq)]
pub enum Member {
    Whole(i32),
    Decimal(f64),
    YesOrNo(bool),
    /// Where the text lies.
    Text {
        offset: u32,
        length: u32,
    },
    /// The row of any other item.
    Row(usize),
}

/// Where the laser goes.
#[derive(Clone, Copy, Debug, Default, PartialEq)]
pub struct Position {
    pub x: f64,
    pub y: f64,
    pub turn: f64,
}

/// The member with this key of the Struct in a row of a table, whose
/// contents lie in `text`; or the number of a refusal.
pub fn lookup<L: Layout>(
    table: &[u32],
    rows: usize,
    text: &[u8],
    row: usize,
    key: &[u8],
) -> Result<Member, u8> {
    let rows = writable::<L>(table, rows, text).ok_or(refusal::TABLE)?;
    let value = find(rows, text, row, key).ok_or(sought::NO_MEMBER)?;
    answer(rows, text, value)
}

/// What the value in a row answers.
pub(crate) fn answer(rows: impl Rows, text: &[u8], value: usize) -> Result<Member, u8> {
    let [kind, a, b, _] = rows.at(value);
    Ok(match kind {
        kind::INTEGER => Member::Whole(a as i32),
        kind::DOUBLE => Member::Decimal(decimal(double(rows, text, value)?)?),
        kind::BOOLEAN => Member::YesOrNo(a == 1),
        kind::STRING => Member::Text {
            offset: a,
            length: b,
        },
        _ => Member::Row(value),
    })
}

/// The members x, y and turn of the Struct in a row, each a Double.
pub fn position<L: Layout>(
    table: &[u32],
    rows: usize,
    text: &[u8],
    row: usize,
) -> Result<Position, u8> {
    let rows = writable::<L>(table, rows, text).ok_or(refusal::TABLE)?;
    let mut texts = Vec::new();
    for key in ["x", "y", "turn"] {
        let value = find(rows, text, row, key.as_bytes()).ok_or(sought::NO_MEMBER)?;
        texts.push(double(rows, text, value)?);
    }
    Ok(Position {
        x: decimal(texts[0])?,
        y: decimal(texts[1])?,
        turn: decimal(texts[2])?,
    })
}

/// The row of the value that stands with this key in the Struct.
pub(crate) fn find(rows: impl Rows, text: &[u8], row: usize, key: &[u8]) -> Option<usize> {
    let [kind, _, pairs, _] = rows.get(row)?;
    if kind != kind::STRUCT {
        return None;
    }
    let mut at = row + 1;
    for _ in 0..pairs {
        let [_, offset, length, _] = rows.at(at);
        if content(text, offset, length)? == key {
            return Some(at + 1);
        }
        at = rows.at(at + 1)[3] as usize;
    }
    None
}

/// The text of a Double.
fn double<'t>(rows: impl Rows, text: &'t [u8], row: usize) -> Result<&'t str, u8> {
    let [kind, offset, length, _] = rows.at(row);
    let text = content(text, offset, length).filter(|_| kind == kind::DOUBLE);
    text.and_then(|text| std::str::from_utf8(text).ok())
        .ok_or(sought::NO_MEMBER)
}

/// Most digits in a decimal, leading zeros dropped, and most after its point.
pub const MOST_DIGITS: usize = 15;
pub const MOST_AFTER_POINT: usize = 22;

/// The number nearest to what the text of a Double says. With so few digits
/// both they and the power of ten are exact, so that one division comes out
/// as the nearest number too.
fn decimal(text: &str) -> Result<f64, u8> {
    let after_point = text.rsplit('.').next().map_or(0, str::len);
    let digits: String = text.chars().filter(char::is_ascii_digit).collect();
    if digits.trim_start_matches('0').len() > MOST_DIGITS || after_point > MOST_AFTER_POINT {
        return Err(sought::DIGITS);
    }
    text.parse().map_err(|_| refusal::TABLE)
}

#[cfg(test)]
mod tests {
    use super::*;
    use crate::layout::ByRows;
    use crate::reader::{Read, read};

    /// A Response of a Struct with these members, each a key and a Value's
    /// bytes; with a table of its own.
    fn card(members: &[(&str, &[u8])]) -> (Vec<u32>, usize, Vec<u8>) {
        let mut message = b"binmode-rpc:RS".to_vec();
        message.extend((members.len() as u32).to_le_bytes());
        for (key, value) in members {
            message.push(b'U');
            message.extend((key.len() as u32).to_le_bytes());
            message.extend(key.as_bytes());
            message.extend(*value);
        }
        let mut table = vec![0; 400];
        let Read::Accepted { rows, .. } = read::<ByRows>(&message, &mut table) else {
            panic!("{message:?}");
        };
        (table, rows, message)
    }

    fn found(members: &[(&str, &[u8])], key: &str) -> Result<Member, u8> {
        let (table, rows, text) = card(members);
        lookup::<ByRows>(&table, rows, &text, 1, key.as_bytes())
    }

    fn double_of(text: &str) -> Vec<u8> {
        [&[b'D', text.len() as u8], text.as_bytes()].concat()
    }

    #[test]
    fn sorts() {
        let members: [(&str, &[u8]); 10] = [
            ("", b"I\xfe\xff\xff\xff"),
            ("d", b"D\x04-2.5"),
            ("t", b"t"),
            ("f", b"f"),
            ("text", b"U\x02\0\0\0ab"),
            ("date", b"8\x1119980717T14:08:55"),
            ("binary", b"B\x01\0\0\0\xff"),
            ("array", b"A\x01\0\0\0t"),
            ("struct", b"S\x01\0\0\0U\x05\0\0\0innert"),
            ("other", b"OU\x01\0\0\0aB\0\0\0\0"),
        ];
        assert_eq!(found(&members, ""), Ok(Member::Whole(-2)));
        assert_eq!(found(&members, "d"), Ok(Member::Decimal(-2.5)));
        assert_eq!(found(&members, "t"), Ok(Member::YesOrNo(true)));
        assert_eq!(found(&members, "f"), Ok(Member::YesOrNo(false)));
        let text = Member::Text {
            offset: 68,
            length: 2,
        };
        assert_eq!(found(&members, "text"), Ok(text));
        for (key, row) in [
            ("date", 13),
            ("binary", 15),
            ("array", 17),
            ("struct", 20),
            ("other", 24),
        ] {
            assert_eq!(found(&members, key), Ok(Member::Row(row)), "{key}");
        }
        for key in ["a", "tex", "texts", "inner", "binmode-rpc:"] {
            assert_eq!(found(&members, key), Err(18), "{key}");
        }
    }

    #[test]
    fn a_key_twice() {
        let (mut table, rows, text) = card(&[("x", &double_of("1.0")), ("y", b"t")]);
        assert_eq!(
            lookup::<ByRows>(&table, rows, &text, 1, b"y"),
            Ok(Member::YesOrNo(true))
        );
        // The second key's row names the first one's text.
        table[17] = table[9];
        for key in [&b"x"[..], b"y"] {
            for row in [1, 9] {
                assert_eq!(lookup::<ByRows>(&table, rows, &text, row, key), Err(11));
                assert_eq!(position::<ByRows>(&table, rows, &text, row), Err(11));
            }
        }
    }

    #[test]
    fn digits() {
        let ends = |text: &str| match found(&[("x", &double_of(text))], "x") {
            Ok(Member::Decimal(number)) => number.to_bits(),
            answer => panic!("{text} {answer:?}"),
        };
        for (text, number) in [
            ("123456789.012345", 123456789.012345),
            ("12345678901234.5", 12345678901234.5),
            ("0000000000000000000000000000000001.5", 1.5),
            ("0.0000000000000000000001", 1e-22),
            ("0.0000000999999999999999", 999999999999999e-22),
            ("+0.0", 0.0),
            ("-0.0", -0.0),
            ("-00.10", -0.1),
        ] {
            assert_eq!(ends(text), f64::to_bits(number), "{text}");
        }
        for text in [
            "123456789012345.0",
            "1234567890123.450",
            "1000000000000000.0",
            "0.00000000000000000000001",
            "0.00000000000000000000000",
            "-1.0000000000000000000000",
        ] {
            assert_eq!(found(&[("x", &double_of(text))], "x"), Err(19), "{text}");
        }
    }

    #[test]
    fn one_division_is_the_nearest_number() {
        for power in 0..=MOST_AFTER_POINT {
            for digits in [1_u64, 3, 7, 123_456_789_012_345, 999_999_999_999_999] {
                let text = format!("{digits:0width$}", width = power + 1);
                let (whole, fraction) = text.split_at(text.len() - power);
                let divided = digits as f64 / 10_f64.powi(power as i32);
                let fraction = if power == 0 { "0" } else { fraction };
                let read: f64 = format!("{whole}.{fraction}").parse().unwrap();
                assert_eq!(read.to_bits(), divided.to_bits(), "{digits} {power}");
            }
        }
    }

    #[test]
    fn positions() {
        let at = |x: &str, y: &str, turn: &str, more: (&str, &[u8])| {
            let [x, y, turn] = [x, y, turn].map(double_of);
            let (table, rows, text) = card(&[("turn", &turn), more, ("y", &y), ("x", &x)]);
            position::<ByRows>(&table, rows, &text, 1)
        };
        let (other, many) = (("z", &b"t"[..]), "1234567890123456.0");
        let (x, y, turn) = (1.0, 2.5, -0.5);
        assert_eq!(at("1.0", "2.5", "-0.5", other), Ok(Position { x, y, turn }));
        assert_eq!(at(many, "2.5", "-0.5", other), Err(19));
        assert_eq!(at("1.0", many, "-0.5", other), Err(19));
        assert_eq!(at("1.0", "2.5", many, other), Err(19));
        // 18 over all of them comes before 19.
        let (wrong, many) = (&b"t"[..], &double_of(many)[..]);
        for members in [
            [("x", many), ("y", wrong), ("turn", many)],
            [("x", many), ("y", many), ("turn", wrong)],
            [("x", wrong), ("y", many), ("turn", many)],
            [("x", many), ("y", many), ("turns", many)],
        ] {
            let (table, rows, text) = card(&members);
            assert_eq!(position::<ByRows>(&table, rows, &text, 1), Err(18));
        }
        let (table, rows, text) = card(&[("x", many), ("y", b"D\x031.5")]);
        assert_eq!(position::<ByRows>(&table, rows, &text, 1), Err(18));
    }

    #[test]
    fn refusals_in_order() {
        let (mut table, rows, text) = card(&[("x", b"D\x031.5"), ("in", b"S\0\0\0\0")]);
        for (row, answer) in [
            (0, Err(18)),
            (2, Err(18)),
            (3, Err(18)),
            (5, Err(18)),
            (6, Err(18)),
        ] {
            assert_eq!(
                lookup::<ByRows>(&table, rows, &text, row, b"x"),
                answer,
                "{row}"
            );
            assert_eq!(position::<ByRows>(&table, rows, &text, row), Err(18));
        }
        assert_eq!(
            lookup::<ByRows>(&table, rows, &text, usize::MAX, b"x"),
            Err(18)
        );
        assert_eq!(
            lookup::<ByRows>(&table, rows, &text, 1, b"x"),
            Ok(Member::Decimal(1.5))
        );
        // A table that is not writable, or text bytes over the limit.
        assert_eq!(lookup::<ByRows>(&table, rows + 1, &text, 9, b"x"), Err(11));
        let mut long = text.clone();
        long.resize(65_536, 0);
        assert_eq!(lookup::<ByRows>(&table, rows, &long, 9, b"x"), Err(18));
        long.push(0);
        assert_eq!(lookup::<ByRows>(&table, rows, &long, 9, b"x"), Err(11));
        assert_eq!(position::<ByRows>(&table, rows, &long, 9), Err(11));
        table[3] += 1;
        assert_eq!(lookup::<ByRows>(&table, rows, &text, 9, b"x"), Err(11));
    }
}
