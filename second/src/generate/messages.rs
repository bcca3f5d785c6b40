//! Messages: good ones, ones just over a limit, and damaged ones.

use super::Random;
use super::ascii::{doubtful, good};
use crate::rules::*;

/// Bad UTF-8 of each sort.
pub const BAD_TEXTS: [&[u8]; 30] = [
    // More bytes than needed.
    b"\xc0\x80",
    b"\xc0\x8a",
    b"\xc1\xbf",
    b"\xe0\x80\x80",
    b"\xe0\x9f\xbf",
    b"\xf0\x80\x80\x80",
    b"\xf0\x8f\xbf\xbf",
    // Surrogates.
    b"\xed\xa0\x80",
    b"\xed\xad\xbf",
    b"\xed\xbf\xbf",
    // Above U+10FFFF.
    b"\xf4\x90\x80\x80",
    b"\xf5\x80\x80\x80",
    b"\xf7\xbf\xbf\xbf",
    b"\xf8\x88\x80\x80\x80",
    b"\xfe",
    b"\xff",
    // Tails without a head.
    b"\x80",
    b"\xa9",
    b"\xbf",
    b"\xc2\x80\x80",
    // Heads without all tails.
    b"\xc2",
    b"\xdf",
    b"\xe0\xa0",
    b"\xe2",
    b"\xe2\x82",
    b"\xed\x9f",
    b"\xf0\x90",
    b"\xf0\x9f\x98",
    b"\xf4\x8f\xbf",
    b"\xc3(",
];

/// Any message: good, just over a limit, or damaged.
pub fn message(random: &mut Random) -> Vec<u8> {
    match random.below(20) {
        0..9 => valid(random),
        9 => beyond(random),
        _ => damaged(random),
    }
}

/// A message that is accepted if the table has room for 4,096 rows.
pub fn valid(random: &mut Random) -> Vec<u8> {
    match random.below(40) {
        0 => long(random, 65_530, BYTE_LIMIT),
        1 => many_rows(random, 4_090, ROW_LIMIT),
        2..6 => deep(random, 30, NESTING_LIMIT),
        6..9 => strings(random),
        9 => positions_used_again(random),
        10..12 => card(random, false),
        12 => cards(random, false),
        _ => {
            let mut builder = Builder::new(random);
            builder.tree();
            builder.finish()
        }
    }
}

/// A message refused for a limit only: 8, 9 or 10.
pub fn beyond(random: &mut Random) -> Vec<u8> {
    match random.below(3) {
        0 => long(random, BYTE_LIMIT + 1, BYTE_LIMIT + 5),
        1 => many_rows(random, ROW_LIMIT + 1, ROW_LIMIT + 6),
        _ => deep(random, NESTING_LIMIT + 1, NESTING_LIMIT + 2),
    }
}

/// A message with something wrong in it; now and then it is still a good one.
pub fn damaged(random: &mut Random) -> Vec<u8> {
    match random.below(40) {
        0 | 1 => return card(random, true),
        2 => return cards(random, true),
        _ => {}
    }
    if random.one_in(2) {
        let flaw = *random.pick(&Flaw::ALL);
        let mut builder = Builder::new(random);
        builder.flaw = Some(flaw);
        builder.tree();
        return builder.finish();
    }
    let mut builder = Builder::new(random);
    builder.tree();
    let fields = std::mem::take(&mut builder.fields);
    let mut bytes = builder.finish();
    for _ in 0..random.between(1, 2) {
        damage(random, &mut bytes, &fields);
    }
    bytes
}

/// Damages the bytes at one place; `fields` are where counts and lengths stand.
fn damage(random: &mut Random, bytes: &mut Vec<u8>, fields: &[usize]) {
    const TAGS: &[u8] = b"CRFItfD8BASOU><";
    let place = random.below(bytes.len() + 1);
    // Mostly behind the prefix.
    let place = if random.one_in(12) {
        place
    } else {
        place.max(12).min(bytes.len())
    };
    match random.below(9) {
        0 => bytes.truncate(place),
        1 => bytes.insert(place, random.byte()),
        2 => bytes.insert(place, *random.pick(TAGS)),
        3 => {
            let end = (place + random.between(1, 6)).min(bytes.len());
            bytes.drain(place..end);
        }
        4 => bytes
            .iter_mut()
            .skip(place)
            .take(1)
            .for_each(|byte| *byte = random.byte()),
        5 => bytes
            .iter_mut()
            .skip(place)
            .take(1)
            .for_each(|byte| *byte = *random.pick(TAGS)),
        6 => {
            let bit = 1 << random.below(8);
            bytes
                .iter_mut()
                .skip(place)
                .take(1)
                .for_each(|byte| *byte ^= bit);
        }
        _ => {
            if fields.is_empty() {
                return;
            }
            let at = *random.pick(fields);
            if let Some(field) = bytes.get_mut(at..).and_then(<[u8]>::first_chunk_mut) {
                let value = u32::from_le_bytes(*field);
                *field = near_or_huge(random, value).to_le_bytes();
            }
        }
    }
}

/// A number off by one from this one, or of a size that tempts to overflow.
pub(super) fn near_or_huge(random: &mut Random, value: u32) -> u32 {
    match random.below(12) {
        0..3 => value.wrapping_add(1),
        3..6 => value.wrapping_sub(1),
        6 => 0,
        7 => u32::MAX - random.below(30) as u32,
        8 => value ^ (1 << random.below(32)),
        9 => *random.pick(&[
            1 << 31,
            (1 << 31) - 1,
            1 << 16,
            65_535,
            65_537,
            1 << 30,
            1 << 24,
        ]),
        10 => random.below(20) as u32,
        _ => random.word() as u32,
    }
}

/// What a builder may do wrong once.
#[derive(Clone, Copy, PartialEq, Eq)]
enum Flaw {
    BadText,
    NotAscii,
    DoubleOrDate,
    StandardName,
    UnsetRecall,
    WrongTag,
    Members,
    Key,
    Prefix,
    Cut,
}

impl Flaw {
    const ALL: [Flaw; 10] = [
        Flaw::BadText,
        Flaw::NotAscii,
        Flaw::DoubleOrDate,
        Flaw::StandardName,
        Flaw::UnsetRecall,
        Flaw::WrongTag,
        Flaw::Members,
        Flaw::Key,
        Flaw::Prefix,
        Flaw::Cut,
    ];
}

struct Builder<'r> {
    random: &'r mut Random,
    bytes: Vec<u8>,
    codebook: Vec<Option<Vec<u8>>>,
    /// Texts to take strings from, so that they repeat.
    pool: Vec<Vec<u8>>,
    /// Where the four-byte counts and lengths stand.
    fields: Vec<usize>,
    /// Items after which no more Arrays and Structs are begun.
    items: usize,
    flaw: Option<Flaw>,
}

impl<'r> Builder<'r> {
    fn new(random: &'r mut Random) -> Self {
        let mut pool: Vec<Vec<u8>> = [&b""[..], b"a", b"foo", b"faultCode", b"\xc3\xa9", b"i4"]
            .iter()
            .map(|text| text.to_vec())
            .collect();
        pool.push(random.pick(&STANDARD_NAMES).to_vec());
        for _ in 0..random.below(6) {
            let text = random.text(20);
            pool.push(text);
        }
        Builder {
            items: random.between(1, 40),
            random,
            bytes: PREFIX.to_vec(),
            codebook: vec![None; POSITIONS],
            pool,
            fields: Vec::new(),
            flaw: None,
        }
    }

    /// The bytes, with trailing ones now and then.
    fn finish(mut self) -> Vec<u8> {
        if self.random.one_in(4) {
            let count = self.random.between(1, 20);
            self.bytes.extend(self.random.bytes(count));
        }
        if self.flaw == Some(Flaw::Prefix) {
            let place = self.random.below(PREFIX.len());
            self.bytes[place] ^= 1 << self.random.below(8);
            if self.random.one_in(3) {
                self.bytes.truncate(self.random.below(PREFIX.len() + 1));
            }
        }
        if self.flaw == Some(Flaw::Cut) {
            self.bytes.truncate(self.random.below(self.bytes.len()));
        }
        self.bytes
    }

    /// Whether to do this wrong here.
    fn goes_wrong(&mut self, flaw: Flaw) -> bool {
        let wrong = self.flaw == Some(flaw) && self.random.one_in(2);
        if wrong {
            self.flaw = None;
        }
        wrong
    }

    /// A Call or Response of any sort.
    fn tree(&mut self) {
        if self.flaw == Some(Flaw::Members) {
            self.bytes.extend(b"RF");
            return self.wrong_members();
        }
        let sorts = if self.flaw == Some(Flaw::Key) { 9 } else { 6 };
        match self.random.below(sorts) {
            0 | 1 => {
                self.bytes.push(b'C');
                self.string();
                self.array(0);
            }
            2 => {
                self.bytes.extend(b"RF");
                self.fault_members();
            }
            3 => {
                self.bytes.push(b'R');
                self.value(0);
            }
            4 => {
                self.bytes.push(b'R');
                self.array(0);
            }
            _ => {
                self.bytes.push(b'R');
                self.structure(0);
            }
        }
    }

    fn value(&mut self, nesting: usize) {
        if self.goes_wrong(Flaw::WrongTag) {
            self.bytes.push(*self.random.pick(b"CRFXiu;=79\0\x80\xff"));
        }
        self.items = self.items.saturating_sub(1);
        match self.flaw {
            Some(Flaw::StandardName) if self.random.one_in(3) => return self.other(),
            Some(Flaw::NotAscii | Flaw::DoubleOrDate) if self.random.one_in(3) => {
                let tag = *self.random.pick(b"D8");
                return self.ascii(tag);
            }
            _ => {}
        }
        let leaves_only = self.items == 0 || nesting >= NESTING_LIMIT;
        match self.random.below(if leaves_only { 9 } else { 14 }) {
            0 => self.integer(),
            1 => self.bytes.push(*self.random.pick(b"tf")),
            2 => self.ascii(b'D'),
            3 => self.ascii(b'8'),
            4 => self.binary(),
            5..8 => self.string(),
            8 => self.other(),
            9..12 => self.array(nesting),
            _ => self.structure(nesting),
        }
    }

    fn field(&mut self, value: usize) {
        self.fields.push(self.bytes.len());
        self.bytes.extend((value as u32).to_le_bytes());
    }

    fn integer(&mut self) {
        self.bytes.push(b'I');
        let bits = match self.random.below(3) {
            0 => self.random.below(10) as u32,
            1 => *self.random.pick(&[u32::MAX, 1 << 31, (1 << 31) - 1, 0]),
            _ => self.random.word() as u32,
        };
        self.bytes.extend(bits.to_le_bytes());
    }

    fn ascii(&mut self, tag: u8) {
        let mut content = if self.goes_wrong(Flaw::DoubleOrDate) {
            doubtful(self.random, tag)
        } else {
            good(self.random, tag)
        };
        if self.goes_wrong(Flaw::NotAscii) {
            // Wrong in the other way too, now and then.
            if self.random.one_in(3) {
                content = doubtful(self.random, tag);
            }
            content.resize(content.len().max(1), 0);
            let place = self.random.below(content.len());
            content[place] = *self.random.pick(b"\x80\xa9\xc3\xff");
        }
        self.bytes.extend([tag, content.len() as u8]);
        self.bytes.extend(content);
    }

    fn binary(&mut self) {
        let count = self.random.below(24);
        self.bytes.push(b'B');
        self.field(count);
        self.bytes.extend(self.random.bytes(count));
    }

    fn other(&mut self) {
        self.bytes.push(b'O');
        if self.goes_wrong(Flaw::StandardName) {
            let name = self.random.pick(&STANDARD_NAMES).to_vec();
            self.send(name);
        } else {
            let name = match self.random.below(3) {
                0 => self.random.pick(&NEAR_NAMES).to_vec(),
                _ => self.random.pick(&self.pool).clone(),
            };
            let standard = is_standard_name(&name);
            self.send(if standard { b"nil".to_vec() } else { name });
        }
        self.binary();
    }

    fn array(&mut self, nesting: usize) {
        let count = self.random.below(6);
        self.bytes.push(b'A');
        self.field(count);
        for _ in 0..count {
            self.value(nesting + 1);
        }
    }

    fn structure(&mut self, nesting: usize) {
        let pairs = self.random.below(5);
        self.bytes.push(b'S');
        self.field(pairs);
        let mut keys = Vec::new();
        for _ in 0..pairs {
            if self.goes_wrong(Flaw::WrongTag) {
                self.bytes.push(*self.random.pick(b"IABSt\0"));
            }
            self.key(&mut keys);
            self.value(nesting + 1);
        }
    }

    /// A key that is none of these, and is noted among them; or one of them
    /// again, behind which another thing may be wrong too.
    fn key(&mut self, keys: &mut Vec<Vec<u8>>) {
        if self.string_goes_wrong() {
            return;
        }
        if !keys.is_empty() && self.goes_wrong(Flaw::Key) {
            if self.random.one_in(2) {
                self.flaw = Some(*self.random.pick(&Flaw::ALL));
            }
            let again = self.random.pick(keys).clone();
            return self.send(again);
        }
        let key = loop {
            let text = self.text();
            if !keys.contains(&text) {
                break text;
            }
        };
        keys.push(key.clone());
        self.send(key);
    }

    /// A fault's Struct, in either order. The message is a key now and then, so
    /// that the other key can be recalled from it.
    fn fault_members(&mut self) {
        self.bytes.push(b'S');
        self.field(2);
        let code_first = self.random.one_in(2);
        for turn in [true, false] {
            if turn == code_first {
                self.send(FAULT_MEMBERS[0].0.into());
                self.integer();
            } else {
                self.send(FAULT_MEMBERS[1].0.into());
                match self.random.below(3) {
                    0 => self.send(FAULT_MEMBERS[0].0.into()),
                    _ => self.string(),
                }
            }
        }
    }

    /// A fault's Struct with one, three or other members, other keys or kinds,
    /// or the same key twice; now and then it comes out right.
    fn wrong_members(&mut self) {
        if self.random.one_in(8) {
            let levels = self.random.between(1, NESTING_LIMIT + 1);
            return self.nest(Some(b'S'), levels);
        }
        if self.random.one_in(8) {
            return self.structure(0);
        }
        let pairs = *self.random.pick(&[0, 1, 2, 2, 2, 2, 2, 3, 3, 4]);
        self.bytes.push(b'S');
        self.field(pairs);
        let code_first = self.random.one_in(2);
        for pair in 0..pairs {
            let (mut name, mut kind) = FAULT_MEMBERS[(pair + code_first as usize) % 2];
            match self.random.below(6) {
                _ if pair >= 2 => name = *self.random.pick(&NEAR_KEYS),
                0 => name = *self.random.pick(&NEAR_KEYS),
                1 => {
                    kind = *self
                        .random
                        .pick(&[kind::INTEGER, kind::STRING, kind::BOOLEAN])
                }
                _ => {}
            }
            self.send(name.into());
            match kind {
                kind::INTEGER => self.integer(),
                kind::STRING => self.string(),
                _ => self.value(1),
            }
        }
    }

    fn string(&mut self) {
        if !self.string_goes_wrong() {
            let text = self.text();
            self.send(text);
        }
    }

    /// A text to send as a string.
    fn text(&mut self) -> Vec<u8> {
        match self.random.below(3) {
            0 => self.random.text(12),
            _ => self.random.pick(&self.pool).clone(),
        }
    }

    /// Whether a string went wrong here, and was sent so.
    fn string_goes_wrong(&mut self) -> bool {
        if self.goes_wrong(Flaw::UnsetRecall) {
            let unset: Vec<u8> = (0..=u8::MAX)
                .filter(|&position| self.codebook[position as usize].is_none())
                .collect();
            self.bytes.push(b'<');
            self.bytes.push(*self.random.pick(&unset));
            return true;
        }
        if self.goes_wrong(Flaw::BadText) {
            let mut text = self.random.text(5);
            text.extend(*self.random.pick(&BAD_TEXTS));
            if self.random.one_in(2) {
                text.extend(self.random.text(5));
            }
            self.spell(text);
            return true;
        }
        false
    }

    /// Sends this text; recalls it only from a position that holds it.
    fn send(&mut self, text: Vec<u8>) {
        let holding = (0..=u8::MAX)
            .find(|&position| self.codebook[position as usize].as_ref() == Some(&text));
        match holding {
            Some(position) if !self.random.one_in(4) => self.bytes.extend([b'<', position]),
            _ => self.spell(text),
        }
    }

    /// Sends this text byte for byte, recorded or not.
    fn spell(&mut self, text: Vec<u8>) {
        if self.random.one_in(3) {
            self.bytes.push(b'U');
        } else {
            let position = match self.random.below(4) {
                0 => 0,
                1 => 255,
                2 => self.random.below(4) as u8,
                _ => self.random.byte(),
            };
            self.bytes.extend([b'>', position]);
            self.codebook[position as usize] = Some(text.clone());
        }
        self.field(text.len());
        self.bytes.extend(text);
    }

    /// An Array or Struct with so many levels, itself counted.
    fn nest(&mut self, tag: Option<u8>, levels: usize) {
        let tag = tag.unwrap_or(*self.random.pick(b"AAS"));
        self.bytes.push(tag);
        if levels == 1 && self.random.one_in(2) {
            return self.field(0);
        }
        let count = if self.random.one_in(6) { 2 } else { 1 };
        self.field(count);
        let deep = self.random.below(count);
        let mut keys = Vec::new();
        for item in 0..count {
            if tag == b'S' {
                self.key(&mut keys);
            }
            if item == deep && levels > 1 {
                self.nest(None, levels - 1);
            } else {
                self.value(NESTING_LIMIT);
            }
        }
    }
}

/// Names that are almost standard.
const NEAR_NAMES: [&[u8]; 10] = [
    b"",
    b"i",
    b"i8",
    b"I4",
    b"int ",
    b"strin",
    b"strings",
    b"dateTime.iso8602",
    b"base6",
    b"nil",
];

/// Keys that are a fault's, or almost.
const NEAR_KEYS: [&[u8]; 10] = [
    b"faultCode",
    b"faultString",
    b"",
    b"fault",
    b"faultcode",
    b"faultCod",
    b"faultCode ",
    b"faultStrin",
    b"faultStrings",
    b"faultCode\0\0",
];

/// Nested between these depths.
pub fn deep(random: &mut Random, least: usize, most: usize) -> Vec<u8> {
    let levels = random.between(least, most);
    let mut builder = Builder::new(random);
    match builder.random.below(3) {
        0 => {
            builder.bytes.push(b'C');
            builder.string();
            builder.nest(Some(b'A'), levels);
        }
        _ => {
            builder.bytes.push(b'R');
            builder.nest(None, levels);
        }
    }
    builder.finish()
}

/// Between so many bytes in all, trailing ones counted.
fn long(random: &mut Random, least: usize, most: usize) -> Vec<u8> {
    let total = random.between(least, most);
    let trailing = *random.pick(&[0, 0, 1, 9]);
    let mut builder = Builder::new(random);
    builder.items = 0;
    builder.bytes.push(b'R');
    builder.bytes.push(b'A');
    builder.field(2);
    builder.value(0);
    let room = total - trailing - builder.bytes.len();
    match builder.random.below(3) {
        0 => {
            builder.bytes.push(b'B');
            builder.field(room - 5);
            builder.bytes.extend(builder.random.bytes(room - 5));
        }
        1 => {
            builder.bytes.extend([b'>', 255]);
            builder.field(room - 6);
            builder.bytes.extend(vec![b'x'; room - 6]);
        }
        _ => {
            builder.bytes.push(b'U');
            builder.field(room - 5);
            let odd = (room - 5) % 2;
            builder.bytes.extend(vec![b'x'; odd]);
            builder
                .bytes
                .extend("\u{e9}".repeat((room - 5) / 2).into_bytes());
        }
    }
    let mut bytes = builder.bytes;
    bytes.extend(vec![b'I'; trailing]);
    bytes
}

/// Between so many rows.
fn many_rows(random: &mut Random, least: usize, most: usize) -> Vec<u8> {
    let rows = random.between(least, most);
    let mut builder = Builder::new(random);
    builder.bytes.push(b'R');
    builder.bytes.push(b'A');
    builder.field(rows - 2);
    builder.bytes.extend([b'>', 0]);
    builder.field(3);
    builder.bytes.extend(b"abc");
    for _ in 3..rows {
        match builder.random.below(5) {
            0 => builder.integer(),
            1 => builder.bytes.extend([b'<', 0]),
            2 => builder.bytes.extend(b"D\x031.5"),
            3 => builder.bytes.extend(b"B\0\0\0\0"),
            _ => builder.bytes.push(*builder.random.pick(b"tf")),
        }
    }
    builder.finish()
}

/// Many strings, from few texts or many, so that positions are used again.
fn strings(random: &mut Random) -> Vec<u8> {
    let texts = random.between(1, 400);
    let count = random.between(1, 800);
    let mut builder = Builder::new(random);
    builder.pool = (0..texts)
        .map(|text| format!("{text:x}").into_bytes())
        .collect();
    builder.bytes.push(b'R');
    builder.bytes.push(b'A');
    builder.field(count);
    for _ in 0..count {
        builder.string();
    }
    builder.finish()
}

/// A card of up to 2,000 members, whose keys are sent in full, recorded or
/// recalled and differ; or with one of them again: the first as the last, one
/// beside the other, or anywhere, and now and then with a bad value behind it.
/// Values are keys too, of the card or of a Struct inside it.
pub fn card(random: &mut Random, again: bool) -> Vec<u8> {
    let pairs = *random.pick(&[2, 3, 7, 8, 9, 10, 11, 40, 300, 300, 2_000]);
    let mut inner = random.below(40);
    let names = random.below(if pairs > 300 { 3 } else { 4 });
    let name = |member: usize| match names {
        0 if member == 0 => Vec::new(),
        0 => format!("{member:x}").into_bytes(),
        1 => format!("{member:04}").into_bytes(),
        2 => format!("m\u{e9}mber {member}").into_bytes(),
        _ => format!("account.of.the.holder.{member:05}.balance").into_bytes(),
    };
    let second = match random.below(3) {
        0 => pairs - 1,
        _ => random.between(1, pairs - 1),
    };
    let first = match random.below(3) {
        0 => 0,
        1 => second - 1,
        _ => random.below(second),
    };
    let mut builder = Builder::new(random);
    builder.bytes.extend(b"RS");
    builder.field(pairs);
    for member in 0..pairs {
        let is_again = again && member == second;
        builder.send(name(if is_again { first } else { member }));
        if is_again && builder.random.one_in(4) {
            builder.bytes.push(*builder.random.pick(b"CFX\0\xff"));
        }
        match builder.random.below(12) {
            // The next key, which can then be recalled; or any.
            0..3 => builder.send(name(member + 1)),
            3 => builder.send(name(member)),
            4 => builder.integer(),
            5 if inner > 0 => {
                inner -= 1;
                builder.bytes.push(b'S');
                builder.field(1);
                builder.send(name(member));
                builder.bytes.push(b't');
            }
            _ => builder.bytes.push(*builder.random.pick(b"tf")),
        }
    }
    builder.finish()
}

/// An Array of up to 800 small Structs with the same keys, of which one may
/// have a key again.
fn cards(random: &mut Random, again: bool) -> Vec<u8> {
    let names: [&[u8]; 3] = [b"id", b"on", b""];
    let count = *random.pick(&[2, 10, 100, 800]);
    let wrong = random.below(count);
    let mut builder = Builder::new(random);
    builder.bytes.extend(b"RA");
    builder.field(count);
    for card in 0..count {
        let pairs = builder.random.between(2, if count < 800 { 3 } else { 2 });
        builder.bytes.push(b'S');
        builder.field(pairs);
        let from = builder.random.below(3);
        let second = builder.random.between(1, pairs - 1);
        for pair in 0..pairs {
            let is_again = again && card == wrong && pair == second;
            let name = if is_again { from } else { from + pair };
            builder.send(names[name % 3].into());
            match builder.random.below(6) {
                value @ 0..3 => builder.send(names[value].into()),
                _ => builder.bytes.push(b't'),
            }
        }
    }
    builder.finish()
}

/// More than 256 texts, each recorded and recalled at the same position, in
/// about as many bytes as may be: the written form can be too long.
fn positions_used_again(random: &mut Random) -> Vec<u8> {
    let texts = random.between(250, 330);
    let length = (BYTE_LIMIT - 100) / texts - 8 - random.below(60);
    let mut builder = Builder::new(random);
    builder.bytes.push(b'R');
    builder.bytes.push(b'A');
    builder.field(2 * texts);
    for text in 0..texts {
        let position = if texts.is_multiple_of(2) {
            0
        } else {
            text as u8
        };
        builder.bytes.extend([b'>', position]);
        builder.field(length);
        builder
            .bytes
            .extend(format!("{text:0length$}").into_bytes());
        builder.bytes.extend([b'<', position]);
    }
    builder.finish()
}
