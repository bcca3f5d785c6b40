//! Hyperglyph and glyph: the papers' messages, and what has to hold of every
//! message and table.

use second::generate::*;
use second::glyph::Edition::{Glyph, Hyperglyph};
use second::glyph::{Edition, papers, read, read_within, same_meaning, write, write_within};
use second::rules::*;
use second::{ByColumns, ByRows, Read, Write};

const WIDE: usize = ROW_LIMIT * ROW_WORDS;

fn answer(message: &[u8], words: usize, edition: Edition, limit: usize) -> Read {
    read_rows(message, words, edition, limit).0
}

/// Reads into a table of so many words that held something before, checks that
/// all of it is settled, and that the layouts agree; gives the rows too.
fn read_rows(message: &[u8], words: usize, edition: Edition, limit: usize) -> (Read, Vec<u32>) {
    let mut table = vec![0xdead_beef; words];
    let answer = read_within::<ByRows>(message, &mut table, edition, limit);
    let mut columns = vec![0xbeef_dead; words];
    let by_columns = read_within::<ByColumns>(message, &mut columns, edition, limit);
    assert_eq!(by_columns, answer);
    assert_eq!(second::layout::rows_of(&columns), table);
    let filled = match answer {
        Read::Accepted { rows, .. } => rows * ROW_WORDS,
        Read::Refused { place, .. } => {
            assert!(place <= message.len());
            0
        }
    };
    assert!(table[filled..].iter().all(|&word| word == 0));
    table.truncate(filled);
    (answer, table)
}

fn rows(message: &[u8], edition: Edition) -> Vec<u32> {
    read_rows(message, WIDE, edition, NESTING_LIMIT).1
}

/// What a message is written as, once it is read.
fn written(message: &[u8], edition: Edition) -> Vec<u8> {
    let table = rows(message, edition);
    let mut output = vec![0xaa; BYTE_LIMIT];
    let (count, limit) = (table.len() / ROW_WORDS, NESTING_LIMIT);
    match write_within::<ByRows>(&table, count, message, edition, limit, &mut output) {
        Write::Accepted { length } => {
            assert!(output[length..].iter().all(|&byte| byte == 0));
            output.truncate(length);
            output
        }
        Write::Refused { number } => panic!("refused with {number}"),
    }
}

#[test]
fn the_papers_messages() {
    let alike = papers::EXAMPLES.iter().chain(papers::DECIDED);
    let cases = alike.map(|&(message, expected)| (message, expected, expected));
    let old = papers::OLD_EXAMPLES.iter();
    let not_new = Read::Refused {
        number: 3,
        place: 0,
    };
    let old = old.map(|&(message, expected)| (message, not_new, expected));
    for (message, new, old) in cases
        .chain(old)
        .chain(papers::DECIDED_APART.iter().copied())
    {
        let text = String::from_utf8_lossy(message);
        assert_eq!(answer(message, WIDE, Hyperglyph, 32), new, "1.0: {text}");
        assert_eq!(answer(message, WIDE, Glyph, 32), old, "0.5: {text}");
    }
}

#[test]
fn rows_of_every_kind() {
    let message = b" L i-2; T;F;N; u2:ab; b03:123;u;b;Du1:k;O;;;";
    #[rustfmt::skip]
    let expected = [
        9, 0, 9, 12,
        4, 0xffff_fffe, 0, 2,
        5, 1, 0, 3,
        5, 0, 0, 4,
        13, 0, 0, 5,
        11, 18, 2, 6,
        8, 26, 3, 7,
        11, 31, 0, 8,
        8, 33, 0, 9,
        10, 0, 1, 12,
        11, 38, 1, 11,
        14, 0, 0, 12,
    ];
    for edition in Edition::BOTH {
        assert_eq!(rows(message, edition), expected);
    }
    let three = b"Xu1:a;Du;T;;L;;";
    let expected = |kind| {
        let root = [kind, 0, 3, 6];
        let rest = [
            11, 4, 1, 2, 10, 0, 1, 5, 11, 8, 0, 4, 5, 1, 0, 5, 9, 0, 0, 6,
        ];
        [&root[..], &rest].concat()
    };
    assert_eq!(rows(three, Hyperglyph), expected(15));
    assert_eq!(rows(three, Glyph), expected(16));
    assert_eq!(rows(b"Hu1:a;Du;T;;L;;", Glyph), expected(15));
    // The sign, and the empty text with a length: at its `;`.
    assert_eq!(rows(b"i-0;", Glyph), [4, 0, 0, 1]);
    assert_eq!(rows(b"i-2147483648;", Glyph), [4, 0x8000_0000, 0, 1]);
    assert_eq!(rows(b" u00:;", Glyph), [11, 5, 0, 1]);
}

#[test]
fn limits_and_rooms() {
    let refused = |number, place| Read::Refused { number, place };
    for edition in Edition::BOTH {
        for limit in [0, 33, usize::MAX, 1 << 32] {
            assert_eq!(answer(b"T;", 16, edition, limit), refused(23, 0));
            let long = [b' '; BYTE_LIMIT + 1];
            assert_eq!(answer(&long, 16, edition, limit), refused(23, 0));
            assert_eq!(answer(&long, 16, edition, 1), refused(10, 0));
            let longest = &long[1..];
            assert_eq!(answer(longest, 16, edition, 1), refused(1, BYTE_LIMIT));
        }
        assert_eq!(answer(b"LLL;;;", WIDE, edition, 2), refused(8, 2));
        // 3 and 1 before 8 and 9, 8 before 9, 9 before what is inside.
        assert_eq!(answer(b"LTx;", 4, edition, 2), refused(9, 1));
        assert_eq!(answer(b"Lx;", 4, edition, 2), refused(3, 1));
        assert_eq!(answer(b"L", 4, edition, 2), refused(1, 1));
        assert_eq!(answer(b"LL;;", 4, edition, 1), refused(8, 1));
        assert_eq!(answer(b"LL;;", 4, edition, 2), refused(9, 1));
        assert_eq!(
            answer(b"L;", 4, edition, 1),
            Read::Accepted { rows: 1, used: 2 }
        );
        assert_eq!(answer(b"T;", 3, edition, 1), refused(9, 0));
        assert_eq!(answer(b"Du1:a;T;u1:a;T;;", 12, edition, 1), refused(9, 8));
        assert_eq!(answer(b"Du1:a;T;u1:a;T;;", 16, edition, 1), refused(20, 8));
        assert_eq!(answer(b"Di1;T;;", 4, edition, 1), refused(3, 1));
        // The attributes are one deeper than the extension, or the node.
        assert_eq!(answer(b"Xu1:a;D;N;;", 16, edition, 1), refused(8, 6));
        assert!(matches!(
            answer(b"Xu1:a;D;N;;", 16, edition, 2),
            Read::Accepted { .. }
        ));
        let nested = |levels| [b"L".repeat(levels), b";".repeat(levels)].concat();
        assert_eq!(answer(&nested(32), 124, edition, 32), refused(9, 31));
        let whole = Read::Accepted { rows: 32, used: 64 };
        assert_eq!(answer(&nested(32), 128, edition, 32), whole);
        assert_eq!(answer(&nested(33), WIDE, edition, 32), refused(8, 32));
        let mut table = [0; 64];
        let at_eight = read::<ByRows>(&nested(9), &mut table, edition);
        assert_eq!(at_eight, refused(8, 8));
    }
    assert_eq!(answer(b"Xu1:a;LL;;N;;", 64, Hyperglyph, 1), refused(3, 6));
    assert_eq!(answer(b"Xu1:a;LL;;N;;", 64, Glyph, 1), refused(8, 6));
}

#[test]
fn the_written_form() {
    let cases: &[(&[u8], &[u8])] = &[
        (b"i+000123;", b"i123;"),
        (b"i-0;", b"i0;"),
        (b"i-00010;", b"i-10;"),
        (b"i-2147483648;", b"i-2147483648;"),
        (b"i2147483647;", b"i2147483647;"),
        (b"u00:;", b"u;"),
        (b"b0:;", b"b;"),
        (b"u0003:foo;", b"u3:foo;"),
        (b"b010:0123456789;", b"b10:0123456789;"),
        (b" L i01; T;F; N; ; ", b"Li1;T;F;N;;"),
        (b"Du1:b;i1;u1:a;i2;;", b"Du1:a;i2;u1:b;i1;;"),
        (b"Ou1:b;i1;u1:a;i2;;", b"Ou1:b;i1;u1:a;i2;;"),
        // A beginning first, and not by length, nor by what is written.
        (
            b"Du2:ab;N;u2:\xc3\xa9;N;u1:b;N;u1:a;N;u;N;;",
            b"Du;N;u1:a;N;u2:ab;N;u1:b;N;u2:\xc3\xa9;N;;",
        ),
        (
            b"Du1:b;Du1:d;T;u1:c;F;;u1:a;Li1;i2;;;",
            b"Du1:a;Li1;i2;;u1:b;Du1:c;F;u1:d;T;;;",
        ),
        (
            b"X u1:x; D u1:b;N;u1:a;N; ; N; ;",
            b"Xu1:x;Du1:a;N;u1:b;N;;N;;",
        ),
    ];
    for edition in Edition::BOTH {
        for &(message, form) in cases {
            let given = String::from_utf8_lossy(message);
            assert_eq!(written(message, edition), form, "{given}");
        }
    }
    assert_eq!(written(b"H u;O;N; ;", Glyph), b"Hu;O;N;;");
    assert_eq!(
        written(b"XN; F; Du1:b;i1;u1:a;N;;;", Glyph),
        b"XN;F;Du1:a;N;u1:b;i1;;;"
    );
}

/// The answer of writing these rows at a limit.
fn tried(table: &[u32], text: &[u8], edition: Edition, limit: usize, room: usize) -> Write {
    let mut output = vec![0xaa; room];
    let rows = table.len() / ROW_WORDS;
    let answer = write_within::<ByRows>(table, rows, text, edition, limit, &mut output);
    let columns = second::layout::columns_of(table);
    let mut other = vec![0x55; room];
    let by_columns = write_within::<ByColumns>(&columns, rows, text, edition, limit, &mut other);
    assert_eq!((by_columns, &other), (answer, &output));
    let length = match answer {
        Write::Accepted { length } => length,
        Write::Refused { .. } => 0,
    };
    assert!(output[length..].iter().all(|&byte| byte == 0));
    answer
}

#[test]
fn tables_refused() {
    let refused = |number| Write::Refused { number };
    let unwritable: &[&[u32]] = &[
        &[],
        // Binmode's own kinds, and none's.
        &[1, 0, 2, 3, 11, 0, 0, 2, 9, 0, 0, 3],
        &[2, 0, 1, 2, 4, 4, 0, 2],
        &[6, 0, 1, 1],
        &[7, 0, 1, 1],
        &[12, 0, 2, 3, 11, 0, 1, 2, 8, 0, 0, 3],
        &[0, 0, 0, 1],
        &[17, 0, 0, 1],
        // Words and ends.
        &[4, 7, 1, 1],
        &[4, 7, 0, 2],
        &[4, 7, 0, 0],
        &[5, 2, 0, 1],
        &[5, 1, 1, 1],
        &[13, 1, 0, 1],
        &[13, 0, 1, 1],
        &[13, 0, 0, 1, 13, 0, 0, 2],
        &[9, 1, 0, 1],
        &[9, 0, 1, 1],
        &[9, 0, 1, 3, 13, 0, 0, 2, 13, 0, 0, 3],
        &[9, 0, u32::MAX, 1],
        // Content outside the text, and bad UTF-8.
        &[11, 3, 1, 1],
        &[11, u32::MAX, 1, 1],
        &[8, 0, 4, 1],
        &[8, 4, 0, 1],
        &[11, 2, 1, 1],
        // Keys of another kind, twice, or without a value.
        &[10, 0, 1, 3, 8, 0, 1, 2, 13, 0, 0, 3],
        &[14, 0, 1, 3, 13, 0, 0, 2, 13, 0, 0, 3],
        &[
            10, 0, 2, 5, 11, 0, 1, 2, 13, 0, 0, 3, 11, 0, 1, 4, 13, 0, 0, 5,
        ],
        &[
            14, 0, 2, 5, 11, 0, 0, 2, 13, 0, 0, 3, 11, 3, 0, 4, 13, 0, 0, 5,
        ],
        &[10, 0, 1, 2, 11, 0, 1, 2],
        // An extension's children.
        &[15, 0, 3, 4, 13, 0, 0, 2, 10, 0, 0, 3, 13, 0, 0, 4],
        &[15, 0, 3, 4, 11, 0, 1, 2, 9, 0, 0, 3, 13, 0, 0, 4],
        &[15, 0, 2, 3, 11, 0, 1, 2, 10, 0, 0, 3],
        &[
            15, 0, 4, 5, 11, 0, 1, 2, 10, 0, 0, 3, 13, 0, 0, 4, 13, 0, 0, 5,
        ],
        &[15, 1, 3, 4, 11, 0, 1, 2, 10, 0, 0, 3, 13, 0, 0, 4],
        &[16, 0, 2, 3, 13, 0, 0, 2, 13, 0, 0, 3],
        &[16, 1, 3, 4, 13, 0, 0, 2, 13, 0, 0, 3, 13, 0, 0, 4],
    ];
    for edition in Edition::BOTH {
        for table in unwritable {
            let answer = tried(table, b"ab\xff", edition, 32, 99);
            assert_eq!(answer, refused(11), "{table:?}");
            assert_eq!(tried(table, b"ab\xff", edition, 33, 99), refused(23));
            assert_eq!(
                tried(table, &[0; BYTE_LIMIT + 1], edition, 1, 99),
                refused(10)
            );
        }
        // An extension that is one, and its attributes one deeper.
        let extension = [15, 0, 3, 4, 11, 0, 1, 2, 14, 0, 0, 3, 13, 0, 0, 4];
        assert_eq!(tried(&extension, b"a", edition, 1, 99), refused(11));
        let length = 11;
        assert_eq!(
            tried(&extension, b"a", edition, 2, 11),
            Write::Accepted { length }
        );
        assert_eq!(tried(&extension, b"a", edition, 2, 10), refused(13));
    }
    let node = [16, 0, 3, 4, 13, 0, 0, 2, 13, 0, 0, 3, 13, 0, 0, 4];
    assert_eq!(tried(&node, b"", Hyperglyph, 8, 99), refused(11));
    assert_eq!(
        tried(&node, b"", Glyph, 8, 99),
        Write::Accepted { length: 8 }
    );
    let mut output = [1; 4];
    let nested = [9, 0, 1, 2, 9, 0, 0, 2];
    let answer = write::<ByRows>(&nested, 2, b"", Glyph, &mut output);
    assert_eq!((answer, output), (Write::Accepted { length: 4 }, *b"LL;;"));
}

#[test]
fn longest_forms() {
    let text = vec![b'x'; BYTE_LIMIT];
    // `u65528:` and `;` take eight bytes.
    for (length, expected) in [
        (65_528, Write::Accepted { length: 65_536 }),
        (65_529, Write::Refused { number: 12 }),
        (65_536, Write::Refused { number: 12 }),
    ] {
        for kind in [kind::STRING, kind::BINARY] {
            let answer = tried(&[kind, 0, length, 1], &text, Glyph, 1, 70_000);
            assert_eq!(answer, expected);
            let short = tried(&[kind, 0, length, 1], &text, Glyph, 1, 65_535);
            let number = if length == 65_528 { 13 } else { 12 };
            assert_eq!(short, Write::Refused { number });
        }
    }
    // All rows there are, and one too many.
    let list = |count: usize| [&b"L"[..], &b"T;".repeat(count), b";"].concat();
    let whole = answer(&list(ROW_LIMIT - 1), 20_000, Hyperglyph, 1);
    assert!(matches!(
        whole,
        Read::Accepted {
            rows: ROW_LIMIT,
            ..
        }
    ));
    let over = answer(&list(ROW_LIMIT), 20_000, Hyperglyph, 1);
    let place = 2 * ROW_LIMIT - 1;
    assert_eq!(over, Read::Refused { number: 9, place });
    assert_eq!(
        written(&list(ROW_LIMIT - 1), Hyperglyph),
        list(ROW_LIMIT - 1)
    );
}

#[test]
fn meanings() {
    let same = |left: &[u8], right: &[u8]| {
        let (of_left, of_right) = (rows(left, Glyph), rows(right, Glyph));
        same_meaning::<ByRows>((&of_left, left), (&of_right, right))
    };
    assert!(same(b"Du1:a;T;u1:b;F;;", b"D u1:b;F; u01:a;T;;"));
    assert!(same(b"LDu;L;u1:b;F;;;", b"LDu1:b;F; u0:;L;;;"));
    assert!(!same(b"Du1:a;T;u1:b;F;;", b"Du1:b;T;u1:a;F;;"));
    assert!(!same(b"Ou1:a;T;u1:b;F;;", b"Ou1:b;F;u1:a;T;;"));
    assert!(!same(b"Du1:a;T;;", b"Ou1:a;T;;"));
    assert!(!same(b"Lu1:a;T;;", b"LT;u1:a;;"));
    assert!(!same(b"u1:a;", b"b1:a;"));
    assert!(!same(b"i1;", b"i-1;"));
    assert!(!same(b"LL;L;;", b"LLL;;;"));
    assert!(!same(b"Xu;D;N;;", b"Hu;D;N;;"));
}

/// Reads at every limit and in tables of some sizes: an answer that is not of
/// the limit or the room stays.
fn stays(random: &mut Random, message: &[u8], edition: Edition) {
    let whole = read_rows(message, WIDE, edition, NESTING_LIMIT);
    let limit = random.between(1, NESTING_LIMIT);
    let words = random.between(0, 200);
    let (answer, table) = read_rows(message, words, edition, limit);
    if !matches!(answer, Read::Refused { number: 8 | 9, .. }) {
        assert_eq!((answer, table), whole);
    }
}

#[test]
fn generated_messages() {
    let mut random = Random::new(14);
    let mut given = [0; 26];
    for _ in 0..30_000 {
        let edition = *random.pick(&Edition::BOTH);
        let message = glyph_message(&mut random, edition);
        let other = if random.one_in(6) { Glyph } else { edition };
        stays(&mut random, &message, other);
        match answer(&message, WIDE, other, NESTING_LIMIT) {
            Read::Accepted { .. } => given[0] += 1,
            Read::Refused { number, .. } => given[usize::from(number)] += 1,
        }
    }
    for number in [0, 1, 3, 5, 8, 9, 10, 20, 25] {
        assert!(
            given[number] >= 20,
            "{number} is given too seldom: {given:?}"
        );
    }
}

#[test]
fn valid_messages_come_back() {
    let mut random = Random::new(15);
    for _ in 0..8_000 {
        let edition = *random.pick(&Edition::BOTH);
        let message = glyph_valid(&mut random, edition);
        let (answer, table) = read_rows(&message, WIDE, edition, NESTING_LIMIT);
        let Read::Accepted { used, .. } = answer else {
            panic!("{answer:?}: {}", String::from_utf8_lossy(&message));
        };
        let form = written(&message, edition);
        assert!(form.len() <= used);
        let again = rows(&form, edition);
        assert!(same_meaning::<ByRows>((&table, &message), (&again, &form)));
        assert_eq!(written(&form, edition), form);
    }
}

#[test]
fn just_as_deep() {
    let mut random = Random::new(16);
    for edition in Edition::BOTH {
        for levels in 1..=NESTING_LIMIT {
            for _ in 0..10 {
                let message = glyph_deep(&mut random, edition, levels);
                let at = |limit| answer(&message, WIDE, edition, limit);
                assert!(matches!(at(levels), Read::Accepted { .. }));
                let number = if levels == 1 { 23 } else { 8 };
                assert!(matches!(at(levels - 1), Read::Refused { number: n, .. } if n == number));
            }
        }
    }
}

#[test]
fn generated_tables() {
    let mut random = Random::new(17);
    let mut given = [0; 26];
    for _ in 0..20_000 {
        let edition = *random.pick(&Edition::BOTH);
        let table = glyph_table(&mut random, edition);
        let mut output = vec![0xaa; BYTE_LIMIT];
        let (words, rows, text) = (&table.words, table.rows, &table.text);
        match write_within::<ByRows>(words, rows, text, edition, NESTING_LIMIT, &mut output) {
            Write::Accepted { length } => {
                given[0] += 1;
                let form = &output[..length];
                let (answer, again) = read_rows(form, WIDE, edition, NESTING_LIMIT);
                assert_eq!(answer, Read::Accepted { rows, used: length });
                let table = &words[..rows * ROW_WORDS];
                assert!(same_meaning::<ByRows>((table, text), (&again, form)));
            }
            Write::Refused { number } => given[usize::from(number)] += 1,
        }
    }
    for number in [0, 10, 11, 12] {
        assert!(
            given[number] >= 20,
            "{number} is given too seldom: {given:?}"
        );
    }
}
