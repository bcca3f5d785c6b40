//! What document 02 (request E7) says of the keys of a Struct, sentence by
//! sentence.

use second::generate::*;
use second::lookup::{lookup, position};
use second::rules::*;
use second::{ByRows, Read, Write, read, read_within, write_within};

const WIDE: usize = ROW_LIMIT * ROW_WORDS;

fn read_wide(message: &[u8]) -> (Read, Vec<u32>) {
    let mut table = vec![u32::MAX; WIDE];
    let answer = read_within::<ByRows>(message, &mut table, NESTING_LIMIT);
    (answer, table)
}

fn answer(message: &[u8]) -> Read {
    let (answer, table) = read_wide(message);
    if matches!(answer, Read::Refused { .. }) {
        assert!(table.iter().all(|&word| word == 0));
    }
    answer
}

fn refused(number: u8, place: usize) -> Read {
    Read::Refused { number, place }
}

fn is_accepted(message: &[u8]) -> bool {
    matches!(answer(message), Read::Accepted { .. })
}

fn number(table: &Table) -> u8 {
    let mut output = vec![7; BYTE_LIMIT];
    let (words, rows, text) = (&table.words, table.rows, &table.text);
    match write_within::<ByRows>(words, rows, text, NESTING_LIMIT, &mut output) {
        Write::Accepted { .. } => 0,
        Write::Refused { number } => {
            assert!(output.iter().all(|&byte| byte == 0));
            number
        }
    }
}

fn in_full(text: &str) -> Vec<u8> {
    [
        &b"U"[..],
        &(text.len() as u32).to_le_bytes(),
        text.as_bytes(),
    ]
    .concat()
}

fn recorded(position: u8, text: &str) -> Vec<u8> {
    [&[b'>', position], &in_full(text)[1..]].concat()
}

fn structure(pairs: &[(Vec<u8>, Vec<u8>)]) -> Vec<u8> {
    let mut bytes = [&b"S"[..], &(pairs.len() as u32).to_le_bytes()].concat();
    for (key, value) in pairs {
        bytes.extend([&key[..], value].concat());
    }
    bytes
}

fn array(values: &[Vec<u8>]) -> Vec<u8> {
    [
        &b"A"[..],
        &(values.len() as u32).to_le_bytes(),
        &values.concat(),
    ]
    .concat()
}

fn response(value: &[u8]) -> Vec<u8> {
    [PREFIX, &b"R"[..], value].concat()
}

fn yes() -> Vec<u8> {
    b"t".to_vec()
}

/// Each way to send a text whose positions 1 and 2 have been set to it.
fn ways(text: &str) -> Vec<Vec<u8>> {
    vec![
        in_full(text),
        recorded(1, text),
        recorded(200, text),
        vec![b'<', 1],
        vec![b'<', 2],
    ]
}

/// An Array that sets positions 1 and 2 to this text, with the Struct behind.
fn with_positions(text: &str, structure: Vec<u8>) -> Vec<u8> {
    response(&array(&[recorded(1, text), recorded(2, text), structure]))
}

#[test]
fn however_each_was_sent() {
    for text in ["pan", "", "\u{e9}"] {
        for first in ways(text) {
            for second in ways(text) {
                let rest = [second.clone(), yes()].concat();
                let pairs = [(first.clone(), yes()), (second, yes())];
                let message = with_positions(text, structure(&pairs));
                let place = message.len() - rest.len();
                assert_eq!(answer(&message), refused(20, place));
            }
            let pairs = [(first.clone(), yes()), (in_full("pen"), yes())];
            assert!(is_accepted(&with_positions(text, structure(&pairs))));
        }
    }
}

#[test]
fn compared_as_bytes() {
    let near = [
        "pan",
        "Pan",
        "pan ",
        " pan",
        "pa",
        "pan\0",
        "",
        "\0",
        "p\u{e1}n",
        "pa\u{301}n",
    ];
    let pairs: Vec<_> = near.iter().map(|key| (in_full(key), yes())).collect();
    assert!(is_accepted(&response(&structure(&pairs))));
    // The two ways to write a letter with its accent are different bytes.
    for again in near {
        let mut pairs = pairs.clone();
        pairs.push((in_full(again), yes()));
        let message = response(&structure(&pairs));
        let place = message.len() - 1 - 5 - again.len();
        assert_eq!(answer(&message), refused(20, place));
    }
}

#[test]
fn keys_of_different_structs_do_not_meet() {
    let pan = || in_full("pan");
    let inner = structure(&[(pan(), yes())]);
    let in_array = array(&[inner.clone(), inner.clone()]);
    for value in [&inner, &in_array] {
        assert!(is_accepted(&response(&structure(&[(
            pan(),
            value.clone()
        )]))));
        // The outer keys are still known behind the inner Struct.
        let pairs = [(pan(), value.clone()), (pan(), yes())];
        let message = response(&structure(&pairs));
        assert_eq!(answer(&message), refused(20, message.len() - 9));
        let pairs = [(in_full("x"), value.clone()), (pan(), value.clone())];
        assert!(is_accepted(&response(&structure(&pairs))));
    }
    assert!(is_accepted(&response(&in_array)));
    // In a nested Struct, 32 deep.
    let mut deep = structure(&[(pan(), yes()), (pan(), yes())]);
    for _ in 1..NESTING_LIMIT {
        deep = structure(&[(pan(), deep)]);
    }
    let message = response(&deep);
    assert_eq!(answer(&message), refused(20, message.len() - 9));
}

#[test]
fn a_key_and_another_string_do_not_meet() {
    let pan = || in_full("pan");
    let other = [&b"O"[..], &pan(), b"B\0\0\0\0"].concat();
    for value in [pan(), other, array(&[pan(), pan()])] {
        let pairs = [(pan(), value.clone()), (in_full("x"), value)];
        let card = structure(&pairs);
        assert!(is_accepted(&response(&card)));
        let call = [PREFIX, &b"C"[..], &pan(), &array(&[card])].concat();
        assert!(is_accepted(&call));
    }
}

#[test]
fn before_what_the_value_would_give() {
    let values: [&[u8]; 12] = [
        b"",
        b"X",
        b"I\0",
        b"<\x09",
        b"U\x01\0\0\0\xff",
        b"D\x012",
        b"D\x01\x80",
        b"OU\x02\0\0\0i4",
        b"S\x02\0\0\0U\0\0\0\0tU\0\0\0\0t",
        b"B\xff\xff\xff\xff",
        b"t",
        b"tU\x03\0\0\0pan",
    ];
    for value in values {
        let pairs = [(in_full("pan"), yes()), (in_full("pan"), value.to_vec())];
        let message = response(&structure(&pairs));
        assert_eq!(answer(&message), refused(20, 27), "{value:?}");
        // Rows for the Response, the Struct, the pair and the second key.
        let read_into = |rows| read::<ByRows>(&message, &mut vec![7; rows * ROW_WORDS]);
        assert_eq!(read_into(5), refused(20, 27));
        assert_eq!(read_into(4), refused(9, 27));
        assert_eq!(read_into(3), refused(9, 26));
    }
}

#[test]
fn as_soon_as_the_second_key_is_read() {
    let mut random = Random::new(14);
    let mut seen = 0;
    for _ in 0..6_000 {
        let message = damaged(&mut random);
        let Read::Refused { number: 20, place } = answer(&message) else {
            continue;
        };
        seen += 1;
        let head = match message[place] {
            b'U' => 5,
            b'>' => 6,
            tag => {
                assert_eq!(tag, b'<');
                2
            }
        };
        let mut end = place + head;
        if let Some(length) = message[place..end].last_chunk::<4>().filter(|_| head > 2) {
            end += u32::from_le_bytes(*length) as usize;
        }
        assert_eq!(answer(&message[..end]), refused(20, place));
        for cut in place..end {
            assert_eq!(answer(&message[..cut]), refused(1, place));
        }
    }
    assert!(seen > 200, "{seen}");
}

#[test]
fn after_what_the_second_key_gives() {
    let pairs = |second: &[u8]| {
        let first = recorded(1, "pan");
        response(&structure(&[(first, yes()), (second.to_vec(), yes())]))
    };
    for (second, number) in [
        (&b"U\x03\0\0\0pan"[..], 20),
        (b"<\x01", 20),
        (b"<\x02", 6),
        (b"U\x04\0\0\0pan\xff", 5),
        (b">\x01\x04\0\0\0pan\xff", 5),
        (b"I\x03\0\0\0", 3),
        (b"t", 3),
        (b"U\x05\0\0\0pan", 1),
    ] {
        assert_eq!(answer(&pairs(second)), refused(number, 28), "{second:?}");
    }
}

#[test]
fn before_fourteen() {
    let fault = |pairs: &[(Vec<u8>, Vec<u8>)]| [PREFIX, &b"RF"[..], &structure(pairs)].concat();
    let code = || (in_full("faultCode"), b"I\x01\0\0\0".to_vec());
    let text = || (in_full("faultString"), in_full("no"));
    assert!(is_accepted(&fault(&[code(), text()])));
    assert_eq!(answer(&fault(&[code(), code()])), refused(20, 38));
    assert_eq!(answer(&fault(&[text(), text()])), refused(20, 42));
    assert_eq!(answer(&fault(&[code(), text(), code()])), refused(20, 61));
    assert_eq!(answer(&fault(&[code(), text(), text()])), refused(20, 61));
    let more = (in_full("more"), yes());
    assert_eq!(answer(&fault(&[code(), text(), more])), refused(14, 14));
}

#[test]
fn two_thousand_keys() {
    let keys: Vec<String> = (0..2_000).map(|key| format!("member {key}")).collect();
    let pairs =
        |keys: &[String]| -> Vec<_> { keys.iter().map(|key| (in_full(key), yes())).collect() };
    let message = response(&structure(&pairs(&keys)));
    assert!(is_accepted(&message));
    for (first, second) in [
        (0, 1_999),
        (0, 1),
        (1_998, 1_999),
        (7, 8),
        (8, 9),
        (0, 8),
        (1_000, 1_500),
    ] {
        let mut keys = keys.clone();
        keys[second] = keys[first].clone();
        let before = structure(&pairs(&keys[..second])).len();
        let message = response(&structure(&pairs(&keys)));
        assert_eq!(
            answer(&message),
            refused(20, 13 + before),
            "{first} {second}"
        );
    }
}

#[test]
fn every_two_of_forty() {
    for second in 0..40 {
        for first in 0..second {
            let name = |key| format!("{:x}", if key == second { first } else { key });
            let pairs: Vec<_> = (0..40).map(|key| (in_full(&name(key)), yes())).collect();
            let before = structure(&pairs[..second]).len();
            let message = response(&structure(&pairs));
            assert_eq!(answer(&message), refused(20, 13 + before));
        }
    }
}

/// Whether a Struct of the table has two equal keys, by comparing each with
/// each. The table is sound but for that.
fn has_a_key_twice(table: &Table) -> bool {
    let (rows, _) = table.words.as_chunks::<ROW_WORDS>();
    let text = |row: usize| &table.text[rows[row][1] as usize..][..rows[row][2] as usize];
    (0..table.rows)
        .filter(|&row| rows[row][0] == kind::STRUCT)
        .any(|row| {
            let mut keys = Vec::new();
            let mut key = row + 1;
            for _ in 0..rows[row][2] {
                keys.push(text(key));
                key = rows[key + 1][3] as usize;
            }
            (0..keys.len()).any(|key| keys[..key].contains(&keys[key]))
        })
}

#[test]
fn every_table_read_or_writable() {
    let mut random = Random::new(15);
    let (mut twice, mut structs_with_two) = (0, 0);
    for _ in 0..3_000 {
        let mut table = match random.below(3) {
            0 => writable(&mut random),
            1 => structs(&mut random),
            _ => {
                let text = valid(&mut random);
                let (answer, words) = read_wide(&text);
                let Read::Accepted { rows, .. } = answer else {
                    panic!("{answer:?}");
                };
                Table { words, rows, text }
            }
        };
        assert!(!has_a_key_twice(&table));
        assert!([0, 12].contains(&number(&table)));
        let before = table.words.clone();
        key_again(&mut random, &mut table);
        structs_with_two += usize::from(table.words != before);
        if has_a_key_twice(&table) {
            twice += 1;
            assert_eq!(number(&table), 11);
            for row in [0, 1, table.rows] {
                let (words, rows, text) = (&table.words, table.rows, &table.text);
                assert_eq!(lookup::<ByRows>(words, rows, text, row, b"x"), Err(11));
                assert_eq!(position::<ByRows>(words, rows, text, row), Err(11));
            }
        }
    }
    assert!(twice > 500 && twice >= structs_with_two, "{twice}");
}

#[test]
fn tables_by_hand() {
    // Two keys and a Struct inside with one; `a` stands at 0 and at 3.
    let keyed = |first: u32, second: u32, inner: u32| Table {
        words: [
            [2, 0, 1, 8],
            [10, 0, 2, 8],
            [11, first, 1, 3],
            [10, 0, 1, 6],
            [11, inner, 1, 5],
            [11, 0, 1, 6],
            [11, second, 1, 7],
            [5, 1, 0, 8],
        ]
        .concat(),
        rows: 8,
        text: b"abca".to_vec(),
    };
    for inner in 0..4 {
        for first in 0..4 {
            for second in 0..4 {
                let equal = first % 3 == second % 3;
                let right = if equal { 11 } else { 0 };
                assert_eq!(number(&keyed(first, second, inner)), right);
            }
        }
    }
}
