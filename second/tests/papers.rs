//! The messages of documents 01 and 002, and the rules' order, one by one; and
//! what document 02 says of Doubles and dates.

use second::papers::*;
use second::rules::*;
use second::{ByRows, Read, Write, read_within, same_meaning, write_within};

/// Reads into a table with room for 4,096 rows that held something before.
fn read_wide(message: &[u8]) -> (Read, Vec<u32>) {
    read_into(message, ROW_LIMIT * ROW_WORDS)
}

/// The answer and the rows; all other words have to be zero.
fn read_into(message: &[u8], words: usize) -> (Read, Vec<u32>) {
    let mut table = vec![u32::MAX; words];
    let answer = read_within::<ByRows>(message, &mut table, NESTING_LIMIT);
    let used = match answer {
        Read::Accepted { rows, .. } => rows * ROW_WORDS,
        Read::Refused { .. } => 0,
    };
    assert!(table[used..].iter().all(|&word| word == 0));
    table.truncate(used);
    (answer, table)
}

fn accepted(message: &[u8], used: usize, rows: &[[u32; 4]]) {
    let (answer, table) = read_wide(message);
    let count = rows.len();
    assert_eq!(answer, Read::Accepted { rows: count, used });
    assert_eq!(table, rows.concat());
}

fn refused_into(message: &[u8], words: usize, number: u8, place: usize) {
    let (answer, _) = read_into(message, words);
    assert_eq!(answer, Read::Refused { number, place }, "{message:?}");
}

fn refused(message: &[u8], number: u8, place: usize) {
    refused_into(message, ROW_LIMIT * ROW_WORDS, number, place);
}

/// The prefix, then this.
fn with_prefix(rest: &[u8]) -> Vec<u8> {
    [PREFIX, rest].concat()
}

/// Writes into an output that held something before.
fn write_into(table: &[u32], rows: usize, text: &[u8], room: usize) -> (Write, Vec<u8>) {
    let mut output = vec![0xaa; room];
    let answer = write_within::<ByRows>(table, rows, text, NESTING_LIMIT, &mut output);
    let length = match answer {
        Write::Accepted { length } => length,
        Write::Refused { .. } => 0,
    };
    assert!(output[length..].iter().all(|&byte| byte == 0));
    output.truncate(length);
    (answer, output)
}

fn unwritable(table: &[u32], rows: usize, text: &[u8]) {
    let (answer, _) = write_into(table, rows, text, 100);
    assert_eq!(answer, Write::Refused { number: 11 }, "{table:?}");
}

/// Reads and writes again.
fn rewritten(message: &[u8]) -> Vec<u8> {
    let (answer, table) = read_wide(message);
    let Read::Accepted { rows, .. } = answer else {
        panic!("{answer:?}");
    };
    let (answer, written) = write_into(&table, rows, message, BYTE_LIMIT + 5);
    let length = written.len();
    assert_eq!(answer, Write::Accepted { length });
    let (answer, back) = read_wide(&written);
    assert_eq!(answer, Read::Accepted { rows, used: length });
    assert!(same_meaning::<ByRows>(
        (&table, rows, message),
        (&back, rows, &written)
    ));
    written
}

#[test]
fn nothing_and_prefix() {
    refused(b"", 1, 0);
    refused(&bytes_of(OTHER_PREFIX), 2, 0);
    refused(b"binmode-rpc", 1, 0);
    refused(b"binmode-rpd", 2, 0);
    refused(b"x", 2, 0);
    refused(PREFIX, 1, 12);
}

#[test]
fn four() {
    let message = bytes_of(FOUR);
    accepted(&message, 18, &[[2, 0, 1, 2], [4, 4, 0, 2]]);
    assert_eq!(rewritten(&message), message);
}

#[test]
fn add() {
    let message = bytes_of(ADD);
    let rows = [
        [1, 0, 2, 5],
        [11, 18, 3, 2],
        [9, 0, 2, 5],
        [4, 2, 0, 4],
        [4, 2, 0, 5],
    ];
    accepted(&message, 36, &rows);
    assert_eq!(rewritten(&message), message);
}

#[test]
fn foo_bar_baz() {
    let message = bytes_of(FOO_BAR_BAZ);
    let rows = [
        [2, 0, 1, 8],
        [9, 0, 6, 8],
        [11, 24, 3, 3],
        [11, 33, 3, 4],
        [11, 24, 3, 5],
        [11, 44, 3, 6],
        [11, 44, 3, 7],
        [11, 33, 3, 8],
    ];
    accepted(&message, 51, &rows);
    let written = rewritten(&message);
    let mut expected = message.clone();
    expected[39] = 2;
    expected[48] = 2;
    assert_eq!(&expected[38..40], b">\x02");
    assert_eq!(&expected[47..49], b"<\x02");
    assert_eq!(written, expected);
}

#[test]
fn empty_recorded() {
    let message = bytes_of(EMPTY_RECORDED);
    let rows = [[2, 0, 1, 4], [9, 0, 2, 4], [11, 24, 0, 3], [11, 24, 0, 4]];
    accepted(&message, 26, &rows);
    assert_eq!(rewritten(&message), message);
}

#[test]
fn counter_examples() {
    refused(&bytes_of(UNSET_RECALL), 6, 13);
    refused(&bytes_of(STANDARD_NAME), 7, 13);
    refused(&bytes_of(LATIN_ONE), 5, 13);
    refused(&bytes_of(OVERLONG), 5, 13);
}

#[test]
fn huge_counts() {
    refused(&bytes_of(HUGE_COUNT), 1, 18);
    refused_into(&bytes_of(HUGE_COUNT), 8, 1, 18);
    refused_into(&bytes_of(HUGE_COUNT_WITH_ITEM), 8, 9, 18);
    refused(&bytes_of(HUGE_COUNT_WITH_ITEM), 1, 19);
}

/// So many Arrays in one another, the innermost empty.
fn nested(levels: usize) -> Vec<u8> {
    let mut message = with_prefix(b"R");
    for level in (0..levels).rev() {
        message.extend([b'A', (level > 0) as u8, 0, 0, 0]);
    }
    message
}

#[test]
fn nesting() {
    let message = nested(32);
    let (answer, table) = read_wide(&message);
    assert_eq!(
        answer,
        Read::Accepted {
            rows: 33,
            used: 173
        }
    );
    assert!(table.chunks(4).all(|row| row[3] == 33));
    assert_eq!(rewritten(&message), message);
    refused(&nested(33), 8, 173);
    // 8 before 9, and before the count.
    refused_into(&nested(33), 33 * 4, 8, 173);
    refused(&nested(33)[..174], 8, 173);
    refused(&nested(33)[..173], 1, 173);
    // A table with such a row too many.
    let mut table: Vec<u32> = vec![2, 0, 1, 34];
    for level in (0..33).rev() {
        table.extend([9, 0, (level > 0) as u32, 34]);
    }
    unwritable(&table, 34, b"");
}

#[test]
fn fault() {
    let message = bytes_of(FAULT);
    let rows = [
        [3, 0, 1, 6],
        [10, 0, 2, 6],
        [11, 24, 9, 3],
        [4, 1, 0, 4],
        [11, 43, 11, 5],
        [11, 59, 17, 6],
    ];
    accepted(&message, 76, &rows);
    assert_eq!(rewritten(&message), message);
}

#[test]
fn fault_turned() {
    let message = bytes_of(FAULT_TURNED);
    let rows = [
        [3, 0, 1, 6],
        [10, 0, 2, 6],
        [11, 24, 11, 3],
        [11, 41, 9, 4],
        [11, 41, 9, 5],
        [4, 1, 0, 6],
    ];
    accepted(&message, 57, &rows);
    assert_eq!(rewritten(&message).len(), message.len());
    // A table with a third member, and one with a value of another kind.
    let keys = b"faultCodefaultString";
    #[rustfmt::skip]
    let mut table = [
        3, 0, 1, 6, 10, 0, 2, 6, 11, 0, 9, 3, 4, 7, 0, 4, 11, 9, 11, 5, 11, 9, 0, 6,
    ];
    let (answer, _) = write_into(&table, 6, keys, 100);
    assert_eq!(answer, Write::Accepted { length: 59 });
    table[12] = kind::BOOLEAN;
    table[13] = 1;
    unwritable(&table, 6, keys);
    #[rustfmt::skip]
    let table = [
        3, 0, 1, 8, 10, 0, 3, 8, 11, 0, 9, 3, 4, 7, 0, 4, 11, 9, 11, 5, 11, 9, 0, 6, 11, 0, 0, 7, 5, 1, 0, 8,
    ];
    unwritable(&table, 8, keys);
}

#[test]
fn copyright() {
    let message = bytes_of(COPYRIGHT);
    accepted(&message, 52, &[[2, 0, 1, 2], [11, 18, 34, 2]]);
    assert_eq!(rewritten(&message), message);
}

#[test]
fn mixed() {
    refused(&bytes_of(MIXED), 1, 80);
    let message = bytes_of(MIXED_WITH_ONE_PAIR);
    let rows = [
        [2, 0, 1, 12],
        [9, 0, 8, 12],
        [4, 6, 0, 3],
        [5, 1, 0, 4],
        [5, 0, 0, 5],
        [6, 27, 4, 6],
        [7, 33, 17, 7],
        [11, 55, 3, 8],
        [8, 63, 3, 9],
        [10, 0, 1, 12],
        [11, 76, 3, 11],
        [5, 1, 0, 12],
    ];
    accepted(&message, 80, &rows);
    assert_eq!(rewritten(&message), message);
}

#[test]
fn order_within_an_item() {
    for (rest, words, number, place) in EDGES {
        refused_into(&with_prefix(rest), words, number, place);
    }
}

/// A Double or DateTime, accepted or refused with 17; the writer goes along.
fn judged(tag: u8, text: &str, is_right: bool) {
    let head = [b'R', tag, text.len() as u8];
    let message = with_prefix(&[&head, text.as_bytes()].concat());
    let kind = if tag == b'D' { 6 } else { 7 };
    let length = text.len() as u32;
    if is_right {
        accepted(
            &message,
            message.len(),
            &[[2, 0, 1, 2], [kind, 15, length, 2]],
        );
        assert_eq!(rewritten(&message), message);
    } else {
        refused(&message, 17, 13);
        unwritable(&[2, 0, 1, 2, kind, 15, length, 2], 2, &message);
    }
}

#[test]
fn doubles() {
    let longest = format!("+{}.1", "0".repeat(252));
    for text in [
        "2.75", "+2.75", "-2.75", "0.0", "-0.0", "00.00", "9.5", &longest,
    ] {
        judged(b'D', text, true);
    }
    for text in [
        "",
        "+",
        "-",
        ".",
        "2",
        "+2",
        "2.",
        ".75",
        "-.75",
        "+2.",
        "2..75",
        "2.7.5",
        "2.75.",
        "++2.75",
        "2+.75",
        "2.-75",
        "2.75-",
        " 2.75",
        "2.75 ",
        "2,75",
        "2.75e1",
        "inf",
        "NaN",
        "2.:5",
        "/.75",
        "2.75\0",
        "19980717T14:08:55",
    ] {
        judged(b'D', text, false);
    }
}

#[test]
fn dates() {
    for text in [
        "19980717T14:08:55",
        "00000101T00:00:00",
        "99991231T23:59:59",
        "00000229T00:00:00",
        "20000229T00:00:00",
        "19960229T00:00:00",
        "16000229T23:00:59",
        "19980131T00:59:00",
        "19980430T00:00:00",
        "19980831T00:00:00",
    ] {
        judged(b'8', text, true);
    }
    for text in [
        "",
        "19980717",
        "19980717T14:08",
        "19980717T14:08:5",
        "19980717T14:08:555",
        "19980717t14:08:55",
        "19980717 14:08:55",
        "19980717T14-08:55",
        "19980717T14:08.55",
        "1998-717T14:08:55",
        "199807 7T14:08:55",
        "+9980717T14:08:55",
        "1998071:T14:08:55",
        "19980717T14:08:5/",
        "19980017T14:08:55",
        "19981317T14:08:55",
        "19980700T14:08:55",
        "19980732T14:08:55",
        "19980230T14:08:55",
        "20000230T14:08:55",
        "19000229T14:08:55",
        "21000229T14:08:55",
        "19990229T14:08:55",
        "00010229T14:08:55",
        "01000229T14:08:55",
        "19980431T14:08:55",
        "19980631T14:08:55",
        "19980931T14:08:55",
        "19981131T14:08:55",
        "19980717T24:00:00",
        "19980717T14:60:00",
        "19980717T14:08:60",
        "19980717T99:99:99",
        "2.75",
    ] {
        judged(b'8', text, false);
    }
}

#[test]
fn every_month_of_the_calendar() {
    // Independent of the rule's count: thirty days have September, April, June
    // and November.
    for year in 0..10_000 {
        let leap = year % 4 == 0 && (year % 100 != 0 || year % 400 == 0);
        for month in 1..=12 {
            let days = match month {
                2 if leap => 29,
                2 => 28,
                4 | 6 | 9 | 11 => 30,
                _ => 31,
            };
            assert_eq!(days_of(year, month), days, "{year} {month}");
        }
    }
}

#[test]
fn others() {
    for name in STANDARD_NAMES {
        let mut message = with_prefix(b"ROU");
        message.extend((name.len() as u32).to_le_bytes());
        message.extend(name);
        refused(&message, 7, 13);
    }
    let message = with_prefix(b"ROU\0\0\0\0B\x01\0\0\0z");
    let rows = [[2, 0, 1, 4], [12, 0, 2, 4], [11, 19, 0, 3], [8, 24, 1, 4]];
    accepted(&message, 25, &rows);
    assert_eq!(rewritten(&message), message);
    // Others add no nesting.
    let mut deep = nested(32);
    deep[169] = 1;
    deep.extend(b"OU\0\0\0\0B\0\0\0\0");
    assert!(matches!(
        read_wide(&deep).0,
        Read::Accepted { rows: 36, .. }
    ));
}

#[test]
fn codebook() {
    // Setting a position again doesn't change strings already read; 255 works.
    let message = with_prefix(b"RA\x04\0\0\0>\xff\x01\0\0\0a<\xff>\xff\0\0\0\0<\xff");
    let rows = [
        [2, 0, 1, 6],
        [9, 0, 4, 6],
        [11, 24, 1, 3],
        [11, 24, 1, 4],
        [11, 33, 0, 5],
        [11, 33, 0, 6],
    ];
    accepted(&message, 35, &rows);
    // Nothing is kept from the message before.
    refused(&with_prefix(b"R<\xff"), 6, 13);
    // An empty text at the end stands there.
    accepted(
        &with_prefix(b"RU\0\0\0\0"),
        18,
        &[[2, 0, 1, 2], [11, 18, 0, 2]],
    );
}

#[test]
fn byte_limit() {
    let mut message = bytes_of(FOUR);
    message.resize(65_536, b'x');
    accepted(&message, 18, &[[2, 0, 1, 2], [4, 4, 0, 2]]);
    message.push(b'x');
    refused(&message, 10, 0);
    refused_into(&message, 0, 10, 0);
    refused(&vec![0; 65_537], 10, 0);
    // The largest content, up to the last byte.
    let mut message = with_prefix(b"RB");
    message.extend((65_536_u32 - 18).to_le_bytes());
    message.resize(65_536, 0);
    accepted(&message, 65_536, &[[2, 0, 1, 2], [8, 18, 65_518, 2]]);
    assert_eq!(rewritten(&message), message);
}

#[test]
fn row_limit() {
    for (rows, room) in [(4_096, 16_384), (4_096, 20_000), (4_095, 16_383), (5, 23)] {
        let count = rows as u32 - 2;
        let mut message = with_prefix(b"RA");
        message.extend(count.to_le_bytes());
        message.extend(vec![b't'; rows - 2]);
        let used = message.len();
        assert_eq!(read_into(&message, room).0, Read::Accepted { rows, used });
        message[14..18].copy_from_slice(&(count + 1).to_le_bytes());
        refused_into(&message, room, 1, used);
        message.push(b'I');
        refused_into(&message, room, 9, used);
    }
}

#[test]
fn bad_and_good_text() {
    for bad in second::generate::BAD_TEXTS {
        let mut message = with_prefix(b"RFS\x01\0\0\0U");
        message.extend((bad.len() as u32).to_le_bytes());
        message.extend(bad);
        refused(&message, 5, 19);
    }
    for good in [
        "\0",
        "\u{7f}",
        "\u{80}",
        "\u{7ff}",
        "\u{800}",
        "\u{d7ff}",
        "\u{e000}",
        "\u{ffff}",
        "\u{10000}",
        "\u{10ffff}",
    ] {
        let mut message = with_prefix(b"RU");
        message.extend((good.len() as u32).to_le_bytes());
        message.extend(good.as_bytes());
        assert_eq!(rewritten(&message), message);
    }
}

#[test]
fn writers_order() {
    let table = [2, 0, 1, 2, 8, 0, 65_518, 2];
    let text = vec![7; 65_537];
    let number = |rows, text: &[u8], room| match write_into(&table, rows, text, room).0 {
        Write::Accepted { .. } => 0,
        Write::Refused { number } => number,
    };
    assert_eq!(number(2, &text[..65_536], 65_536), 0);
    assert_eq!(number(2, &text[..65_536], 65_535), 13);
    assert_eq!(number(0, &text, 0), 10);
    assert_eq!(number(2, &text, 0), 10);
    assert_eq!(number(0, &text[..65_536], 0), 11);
    assert_eq!(number(2, &text[..65_517], 0), 11);
    let table = [2, 0, 1, 2, 8, 0, 65_519, 2];
    for room in [0, 70_000] {
        let (answer, _) = write_into(&table, 2, &text[..65_536], room);
        assert_eq!(answer, Write::Refused { number: 12 });
    }
}

#[test]
fn writable_words() {
    let good = [2, 0, 1, 2, 4, 4, 0, 2, 77];
    assert_eq!(
        write_into(&good, 2, b"", 20),
        (Write::Accepted { length: 18 }, bytes_of(FOUR))
    );
    unwritable(&good, 0, b"");
    unwritable(&good, 1, b"");
    unwritable(&good, 3, b"");
    unwritable(&good[..7], 2, b"");
    unwritable(&good, usize::MAX, b"");
    unwritable(&good, usize::MAX / 4 + 3, b"");
    for (place, word) in [
        (0, 1),
        (0, 3),
        (0, 0),
        (1, 1),
        (2, 2),
        (2, 0),
        (3, 1),
        (3, 3),
    ] {
        let mut bad = good;
        bad[place] = word;
        unwritable(&bad, 2, b"");
    }
    for (place, word) in [
        (4, 2),
        (4, 13),
        (4, 9),
        (6, 1),
        (7, 1),
        (7, 3),
        (7, u32::MAX),
    ] {
        let mut bad = good;
        bad[place] = word;
        unwritable(&bad, 2, b"");
    }
    let value = |kind, a, b| [2, 0, 1, 2, kind, a, b, 2];
    for (kind, a, b) in [
        (5, 2, 0),
        (5, 0, 1),
        (6, 0, 256),
        (7, 0, 256),
        (6, 299, 2),
        (6, 300, 1),
        (6, 301, 0),
        (8, 301, 0),
        (11, 301, 0),
        (11, 1, u32::MAX),
        (8, u32::MAX, 1),
        (8, u32::MAX, u32::MAX),
        (9, 1, 0),
        (9, 0, 1),
        (9, 0, u32::MAX),
        (10, 0, 1 << 31),
        (10, 1, 0),
        (12, 0, 2),
    ] {
        unwritable(&value(kind, a, b), 2, &[b'x'; 300]);
    }
    for (kind, a, b) in [(8, 300, 0), (11, 300, 0), (11, 0, 300)] {
        let (answer, _) = write_into(&value(kind, a, b), 2, &[b'x'; 300], 400);
        assert!(matches!(answer, Write::Accepted { .. }));
    }
    let longest = [&[b'7'; 200][..], b".", &[b'5'; 99]].concat();
    for (kind, a, b, text) in [
        (6, 0, 255, &longest[..]),
        (6, 198, 4, &longest),
        (7, 3, 17, b"at 19980717T14:08:55"),
    ] {
        let (answer, _) = write_into(&value(kind, a, b), 2, text, 400);
        assert!(matches!(answer, Write::Accepted { .. }));
    }
    unwritable(&value(6, 0, 256), 2, &longest);
    unwritable(&value(6, 0, 201), 2, &longest);
    unwritable(&value(7, 2, 17), 2, b"at 19980717T14:08:55");
    unwritable(&value(11, 0, 1), 2, b"\xc3\xa9");
    unwritable(&value(6, 0, 2), 2, b"\xc3\xa9");
    // Two rows of kind 2.
    unwritable(&[2, 0, 1, 3, 2, 0, 1, 3, 5, 0, 0, 3], 3, b"");
}

#[test]
fn past_all_positions() {
    // 300 texts, each twice: the first 256 get positions, the rest are `U`.
    let text: Vec<u8> = (0..300)
        .flat_map(|n| format!("{n:03}").into_bytes())
        .collect();
    let mut table = vec![2, 0, 1, 602, 9, 0, 600, 602];
    for row in 0..600 {
        table.extend([11, row % 300 * 3, 3, row + 3]);
    }
    let (answer, written) = write_into(&table, 602, &text, 70_000);
    let length = 18 + 256 * (9 + 2) + 44 * 2 * 8;
    assert_eq!(answer, Write::Accepted { length });
    assert_eq!(&written[18..27], b">\x00\x03\x00\x00\x00000");
    let (answer, back) = read_wide(&written);
    assert_eq!(
        answer,
        Read::Accepted {
            rows: 602,
            used: length
        }
    );
    assert!(same_meaning::<ByRows>(
        (&table, 602, &text),
        (&back, 602, &written)
    ));
}

#[test]
fn positions_again() {
    let [every, fits, too_long] = USED_AGAIN;
    // A message with as many texts as positions is its own written form; with
    // more texts the form is longer, and refused where it is over the limit.
    let message = positions_used_again(every.0, every.1);
    assert_eq!(rewritten(&message), message);
    let message = positions_used_again(fits.0, fits.1);
    assert_eq!(
        rewritten(&message).len(),
        18 + 256 * (106 + 2) + 44 * 2 * 105
    );
    let message = positions_used_again(too_long.0, too_long.1);
    let (answer, table) = read_wide(&message);
    let used = 18 + 300 * (206 + 2);
    assert_eq!(answer, Read::Accepted { rows: 602, used });
    let (answer, _) = write_into(&table, 602, &message, 2 * BYTE_LIMIT);
    assert_eq!(answer, Write::Refused { number: 12 });
}
