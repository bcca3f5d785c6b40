//! The messages that the benchmarks time.
#![allow(dead_code, reason = "each benchmark takes some of them")]

use second::rules::PREFIX;

/// A Response whose Value is these bytes.
fn response(value: Vec<u8>) -> Vec<u8> {
    [PREFIX, &b"R"[..], &value].concat()
}

fn field(tag: u8, value: usize) -> Vec<u8> {
    let mut bytes = vec![tag];
    bytes.extend((value as u32).to_le_bytes());
    bytes
}

fn string(text: &str) -> Vec<u8> {
    [field(b'U', text.len()), text.into()].concat()
}

fn date(text: &str) -> Vec<u8> {
    [&[b'8', text.len() as u8], text.as_bytes()].concat()
}

fn double(text: &str) -> Vec<u8> {
    [&[b'D', text.len() as u8], text.as_bytes()].concat()
}

pub fn text(text: &str) -> Vec<u8> {
    response(string(text))
}

pub fn array(count: usize, item: fn(usize) -> Vec<u8>) -> Vec<u8> {
    let mut value = field(b'A', count);
    (0..count).for_each(|index| value.extend(item(index)));
    response(value)
}

pub fn integer(index: usize) -> Vec<u8> {
    field(b'I', index.wrapping_mul(0x9e37_79b9))
}

pub fn boolean(index: usize) -> Vec<u8> {
    vec![if index.is_multiple_of(3) { b't' } else { b'f' }]
}

pub fn decimal(index: usize) -> Vec<u8> {
    double(&format!("-{index}.25"))
}

pub fn day(index: usize) -> Vec<u8> {
    date(&format!("{}07{:02}T14:08:55", 1900 + index % 200, 1 + index % 31))
}

pub fn binary(index: usize) -> Vec<u8> {
    [field(b'B', 8), index.to_le_bytes().to_vec()].concat()
}

pub fn other(index: usize) -> Vec<u8> {
    [b"O".to_vec(), string("chip"), binary(index)].concat()
}

/// An Array of one Boolean.
pub fn small_array(index: usize) -> Vec<u8> {
    [field(b'A', 1), boolean(index)].concat()
}

/// The draft's call of `add` with two Integers.
pub fn add_call() -> Vec<u8> {
    let arguments = [field(b'A', 2), field(b'I', 2), field(b'I', 2)].concat();
    [PREFIX, &b"C"[..], &string("add"), &arguments].concat()
}

pub fn different(index: usize) -> Vec<u8> {
    string(&format!("text{index:04}"))
}

pub fn equal(_: usize) -> Vec<u8> {
    string("the same")
}

/// 65,000 bytes, or one or two fewer.
pub fn mixed_text() -> String {
    let mut text = String::new();
    for character in "\u{e9}\u{20ac}\u{1f600}\u{3b1}\u{4e2d}\u{10348}"
        .chars()
        .cycle()
    {
        if text.len() + character.len_utf8() > 65_000 {
            return text;
        }
        text.push(character);
    }
    text
}

/// A card whose members' names all differ, as they have to since a Struct's
/// keys are distinct (document 02, request E7): ten names, numbered. Some of
/// its values are equal.
pub fn card(members: usize) -> Vec<u8> {
    let mut value = field(b'S', members);
    for member in 0..members {
        let turn = member / 10;
        let (name, item) = match member % 10 {
            0 => ("holder", string(&format!("HOLDER {turn}"))),
            1 => ("number", string(&format!("5{turn:07}"))),
            2 => ("issuer", string("First Bank")),
            3 => ("expires", date("19991231T23:59:59")),
            4 => ("serial", integer(turn)),
            5 => ("active", b"t".to_vec()),
            6 => ("limit", double("2.750")),
            7 => (
                "track",
                [field(b'B', 4), b"\0\x01\xff\xfe".to_vec()].concat(),
            ),
            8 => ("currency", string("EUR")),
            _ => ("position", integer(turn * 40)),
        };
        value.extend([string(&format!("{name} {turn}")), item].concat());
    }
    response(value)
}

/// A card whose members' names are tags of two letters, and whose values are
/// Integers and Booleans: about ten bytes a member.
pub fn tagged_card(members: usize) -> Vec<u8> {
    let mut value = field(b'S', members);
    for member in 0..members {
        let letter = |place: usize| char::from(b'A' + (place % 26) as u8);
        let item = match member % 3 {
            0 => integer(member),
            _ => b"t".to_vec(),
        };
        value.extend(string(&format!(
            "{}{}",
            letter(member / 26),
            letter(member)
        )));
        value.extend(item);
    }
    response(value)
}

/// A card of which each sixth member is a date, and each sixth a Double; its
/// names are numbered too.
pub fn dated_card(members: usize) -> Vec<u8> {
    let mut value = field(b'S', members);
    for member in 0..members {
        let turn = member / 6;
        let (name, item) = match member % 6 {
            0 => ("holder", string(&format!("HOLDER {turn}"))),
            1 => (
                "issued",
                date(&format!("199807{:02}T14:08:55", 1 + turn % 31)),
            ),
            2 => ("serial", integer(turn)),
            3 => ("limit", double(&format!("{turn}.750"))),
            4 => ("active", b"t".to_vec()),
            _ => ("currency", string("EUR")),
        };
        value.extend([string(&format!("{name} {turn}")), item].concat());
    }
    response(value)
}

/// Small Structs inside so many Arrays, all with the same two keys.
pub fn nested_structs(levels: usize, structs: usize) -> Vec<u8> {
    let mut value = field(b'A', 1).repeat(levels - 1);
    value.extend(field(b'A', structs));
    for index in 0..structs {
        value.extend(field(b'S', 2));
        value.extend([string("id"), integer(index)].concat());
        value.extend([string("on"), b"f".to_vec()].concat());
    }
    response(value)
}
