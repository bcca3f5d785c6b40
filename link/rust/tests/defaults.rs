//! The cases of a text with job defaults behind it: what document 02 says of
//! each, held against the library.

use binmode::{Reason, Source, Table, read, set_row};

/// A Response of a Struct with these members.
fn response(members: &[(&str, &[u8])]) -> Vec<u8> {
    let mut bytes = b"binmode-rpc:RS".to_vec();
    bytes.extend((members.len() as u32).to_le_bytes());
    for (key, value) in members {
        bytes.extend(b"U");
        bytes.extend((key.len() as u32).to_le_bytes());
        bytes.extend(key.as_bytes());
        bytes.extend(*value);
    }
    bytes
}

/// The row of the Struct, and of its first member's value, which is a String.
const STRUCT: usize = 1;
const VALUE: usize = 3;

const CARD: &[(&str, &[u8])] = &[
    ("both", b"U\x01\0\0\0c"),
    ("empty", b"U\0\0\0\0"),
    ("number", b"I\x07\0\0\0"),
];
const DEFAULTS: &[(&str, &[u8])] = &[
    ("both", b"U\x01\0\0\0d"),
    ("empty", b"U\x01\0\0\0d"),
    ("number", b"U\x01\0\0\0d"),
    ("behind", b"U\x02\0\0\0de"),
    ("yes", b"t"),
];

/// What a text is asked of, and the answer.
struct Case {
    key: &'static str,
    card: Asked,
    defaults: Asked,
    gives: Result<(Source, &'static str), Reason>,
}

/// The row that is named, and whether the table is as it was read.
#[derive(Clone, Copy)]
struct Asked {
    row: usize,
    writable: bool,
}

const GOOD: Asked = Asked {
    row: STRUCT,
    writable: true,
};
const NO_STRUCT: Asked = Asked {
    row: VALUE,
    writable: true,
};
const UNWRITABLE: Asked = Asked {
    row: STRUCT,
    writable: false,
};

#[rustfmt::skip]
const CASES: &[Case] = &[
    // 'the card's if the card's Struct has the key, otherwise the defaults''
    Case { key: "both", card: GOOD, defaults: GOOD, gives: Ok((Source::Card, "c")) },
    Case { key: "empty", card: GOOD, defaults: GOOD, gives: Ok((Source::Card, "")) },
    Case { key: "behind", card: GOOD, defaults: GOOD, gives: Ok((Source::Defaults, "de")) },
    // 'or if the one found is no String': the card's member decides
    Case { key: "number", card: GOOD, defaults: GOOD, gives: Err(Reason::NoMember) },
    Case { key: "yes", card: GOOD, defaults: GOOD, gives: Err(Reason::NoMember) },
    // 'if neither has the key'
    Case { key: "", card: GOOD, defaults: GOOD, gives: Err(Reason::NoMember) },
    Case { key: "bot", card: GOOD, defaults: GOOD, gives: Err(Reason::NoMember) },
    Case { key: "bothe", card: GOOD, defaults: GOOD, gives: Err(Reason::NoMember) },
    // 'if either row is no Struct'
    Case { key: "both", card: NO_STRUCT, defaults: GOOD, gives: Err(Reason::NoMember) },
    Case { key: "both", card: GOOD, defaults: NO_STRUCT, gives: Err(Reason::NoMember) },
    // '11 for the card, then for the defaults', before all of these
    Case { key: "both", card: UNWRITABLE, defaults: GOOD, gives: Err(Reason::NotWritable) },
    Case { key: "both", card: GOOD, defaults: UNWRITABLE, gives: Err(Reason::NotWritable) },
    Case { key: "yes", card: NO_STRUCT, defaults: UNWRITABLE, gives: Err(Reason::NotWritable) },
    Case { key: "both", card: UNWRITABLE, defaults: NO_STRUCT, gives: Err(Reason::NotWritable) },
];

#[test]
fn cases() {
    let (card, defaults) = (response(CARD), response(DEFAULTS));
    for case in CASES {
        let (mut own, mut behind) = ([0; 80], [0; 80]);
        let own = asked(&card, &mut own, case.card);
        let behind = asked(&defaults, &mut behind, case.defaults);
        let item = own.item(case.card.row).expect("a row");
        let other = behind.item(case.defaults.row).expect("a row");
        let answer = item.text_or_default(other, case.key);
        match (answer, case.gives) {
            (Ok((text, source)), Ok((whose, told))) => {
                assert_eq!((source, text), (whose, told), "{}", case.key);
                let bytes = match source {
                    Source::Card => own.text,
                    Source::Defaults => behind.text,
                };
                assert!(bytes.as_ptr_range().contains(&text.as_ptr()), "{}", case.key);
            }
            (Err(refusal), Err(reason)) => {
                assert_eq!((refusal.reason, refusal.place), (reason, 0), "{}", case.key);
            }
            (answer, told) => panic!("{}: {answer:?}, not {told:?}", case.key),
        }
    }
}

/// A message's table, or the same with a last row that says it ends elsewhere.
fn asked<'t>(bytes: &'t [u8], words: &'t mut [u32], asked: Asked) -> Table<'t> {
    let message = read(bytes, words).expect("a message");
    let rows = message.rows();
    let mut last = message.item(rows - 1).expect("a row").words();
    if !asked.writable {
        last[3] += 1;
    }
    assert!(set_row(words, rows - 1, last));
    Table {
        words,
        rows,
        text: bytes,
    }
}
