//! Writes those of the example files that are too long to write by hand:
//! `samples DIR`. The cards look like what a data house sends, and every
//! name and number in them is made up.

use second::job::{job, record};
use second::rules::{PREFIX, ROW_LIMIT};
use std::path::Path;
use std::process::ExitCode;

fn main() -> ExitCode {
    let words: Vec<_> = std::env::args_os().skip(1).collect();
    let [folder] = &words[..] else {
        eprintln!("usage: samples DIR");
        return ExitCode::FAILURE;
    };
    match write_all(Path::new(folder)) {
        Ok(()) => ExitCode::SUCCESS,
        Err(error) => {
            eprintln!("samples: {error}");
            ExitCode::FAILURE
        }
    }
}

fn write_all(folder: &Path) -> std::io::Result<()> {
    let write = |name: &str, bytes: Vec<u8>| std::fs::write(folder.join(name), bytes);
    write("refused-unexpected-byte.bin", unexpected_byte())?;
    write("refused-no-row.bin", no_row())?;
    write("refused-too-long.bin", too_long())?;
    write("transit-card.bin", transit_card())?;
    write("shop-batch.bin", shop_batch())?;
    write("jobs/many-cards.job", many_cards())
}

/// A message as its sender builds it: texts that it knows to come again are
/// recorded the first time and recalled from then on.
struct Sender {
    bytes: Vec<u8>,
    codebook: Vec<String>,
}

impl Sender {
    fn new(tags: &str) -> Self {
        let bytes = [PREFIX.as_slice(), tags.as_bytes()].concat();
        let codebook = Vec::new();
        Sender { bytes, codebook }
    }

    /// A tag and the four bytes of a number.
    fn counted(&mut self, tag: u8, number: usize) {
        self.bytes.push(tag);
        self.bytes.extend((number as u32).to_le_bytes());
    }

    fn text(&mut self, text: &str) {
        self.counted(b'U', text.len());
        self.bytes.extend(text.as_bytes());
    }

    fn again(&mut self, text: &str) {
        if let Some(position) = self.codebook.iter().position(|known| known == text) {
            self.bytes.extend([b'<', position as u8]);
            return;
        }
        self.bytes.extend([b'>', self.codebook.len() as u8]);
        self.bytes.extend((text.len() as u32).to_le_bytes());
        self.bytes.extend(text.as_bytes());
        self.codebook.push(text.into());
    }

    fn binary(&mut self, bytes: &[u8]) {
        self.counted(b'B', bytes.len());
        self.bytes.extend(bytes);
    }

    fn short(&mut self, tag: u8, text: &str) {
        self.bytes.extend([tag, text.len() as u8]);
        self.bytes.extend(text.as_bytes());
    }

    fn value(&mut self, value: Value) {
        match value {
            Value::Text(text) => self.text(&text),
            Value::Again(text) => self.again(&text),
            Value::Integer(number) => self.counted(b'I', number as usize),
            Value::Yes(yes) => self.bytes.push(if yes { b't' } else { b'f' }),
            Value::Double(text) => self.short(b'D', &text),
            Value::Date(text) => self.short(b'8', &text),
            Value::Binary(bytes) => self.binary(&bytes),
        }
    }

    fn members(&mut self, members: Members) {
        self.counted(b'S', members.len());
        for (key, value) in members {
            self.text(&key);
            self.value(value);
        }
    }
}

enum Value {
    Text(String),
    Again(String),
    Integer(i32),
    Yes(bool),
    Double(String),
    Date(String),
    Binary(Vec<u8>),
}

use Value::*;

type Members = Vec<(String, Value)>;

/// Bytes that look like a picture's or a key's.
fn noise(count: usize, seed: usize) -> Vec<u8> {
    (0..count)
        .map(|i| ((i + seed) * (i + 89) % 251) as u8)
        .collect()
}

fn pick<'a>(from: &[&'a str], number: usize) -> &'a str {
    from[number % from.len()]
}

/// The second Integer of an Array begins with `i`.
fn unexpected_byte() -> Vec<u8> {
    let mut sender = Sender::new("R");
    sender.counted(b'A', 2);
    sender.counted(b'I', 1998);
    sender.counted(b'i', 1999);
    sender.bytes
}

/// One row more than there may be.
fn no_row() -> Vec<u8> {
    let mut sender = Sender::new("R");
    sender.counted(b'A', ROW_LIMIT - 1);
    sender.bytes.extend(vec![b't'; ROW_LIMIT - 1]);
    sender.bytes
}

/// A card whose photo alone has 65,500 bytes.
fn too_long() -> Vec<u8> {
    let mut sender = Sender::new("C");
    sender.text("personalise");
    sender.counted(b'A', 1);
    let photo = Binary(noise(65_500, 1));
    sender.members(vec![
        ("holder".into(), Text("ADA LOVELACE".into())),
        ("photo".into(), photo),
    ]);
    sender.bytes
}

const TOWNS: [&str; 5] = ["Linz", "Wels", "Steyr", "Gmunden", "Bad Ischl"];

/// A card of 300 members, all in one Struct.
fn transit_card() -> Vec<u8> {
    let mut sender = Sender::new("C");
    sender.text("personalise");
    sender.counted(b'A', 1);
    let mut members = holder();
    members.extend(of_card());
    members.extend((1..=20).flat_map(product));
    members.extend((1..=12).flat_map(journey));
    members.extend((1..=8).flat_map(mark));
    assert_eq!(members.len(), 300);
    sender.members(members);
    sender.bytes
}

fn holder() -> Members {
    let member = |name: &str, value| (format!("holder.{name}"), value);
    vec![
        member("name", Text("M\u{fc}ller, Zo\u{eb}".into())),
        member("street", Text("Landstra\u{df}e 17".into())),
        member("town", Again("Linz".into())),
        member("postcode", Text("4020".into())),
        member("country", Text("AT".into())),
        member("language", Text("de".into())),
        member("born", Date("19790228T00:00:00".into())),
        member("since", Date("20010130T09:30:00".into())),
        member("reduced", Yes(false)),
        member("photo", Binary(noise(96, 3))),
    ]
}

fn of_card() -> Members {
    let member = |name: &str, value| (format!("card.{name}"), value);
    vec![
        member("number", Text("5000 0000 0001 7290".into())),
        member("serial", Integer(1_000_729)),
        member("issued", Date("20010130T09:31:12".into())),
        member("expires", Date("20060131T23:59:59".into())),
        member("batch", Text("B-0117".into())),
        member("chip", Text("transit-2".into())),
        member("key-version", Integer(7)),
        member("blocked", Yes(false)),
        member("replaces", Text("".into())),
        member("checksum", Binary(noise(20, 7))),
    ]
}

fn product(number: usize) -> Members {
    let names = ["day ticket", "week ticket", "month ticket", "strip of ten"];
    let month = 1 + number % 12;
    let member = |name: &str, value| (format!("product.{number:02}.{name}"), value);
    vec![
        member("name", Again(pick(&names, number).into())),
        member("zones", Again(pick(&["A", "A-B", "A-C"], number).into())),
        member("from", Date(format!("2001{month:02}01T00:00:00"))),
        member("until", Date(format!("2001{month:02}28T23:59:59"))),
        member(
            "price",
            Double(format!("{}.{:02}", number, number * 5 % 100)),
        ),
        member("trips", Integer(number as i32 % 4 * 10)),
        member("transferable", Yes(number.is_multiple_of(3))),
        member("seller", Again(pick(&TOWNS, number).into())),
    ]
}

fn journey(number: usize) -> Members {
    let member = |name: &str, value| (format!("journey.{number:02}.{name}"), value);
    vec![
        member(
            "at",
            Date(format!("200101{:02}T07:{:02}:00", number, 3 * number)),
        ),
        member("station", Again(pick(&TOWNS, number).into())),
        member("line", Text(format!("S{}", 1 + number % 4))),
        member("fare", Double(format!("-1.{:02}", 10 * number % 100))),
        member("zones", Integer(1 + number as i32 % 3)),
        member("exit", Yes(number.is_multiple_of(2))),
        member("balance", Double(format!("{}.40", 30 - number))),
        member("device", Integer(-40_000 - number as i32)),
    ]
}

/// Where the laser puts a mark.
fn mark(number: usize) -> Members {
    let member = |name: &str, value| (format!("mark.{number:02}.{name}"), Double(value));
    vec![
        member("x", format!("{}.25", 4 * number)),
        member("y", format!("-{}.5", number)),
        member("turn", format!("{}.0", number * 90 % 360)),
    ]
}

/// A job of 150 cards behind a record of another kind. Card 57 has a date
/// that is none, card 112 recalls a position that only other cards set, and
/// card 113 is card 111 again.
fn many_cards() -> Vec<u8> {
    let mut cards: Vec<Vec<u8>> = (0..150).map(card).collect();
    cards[112] = unset(112);
    cards[113] = cards[111].clone();
    let cards: Vec<&[u8]> = cards.iter().map(Vec::as_slice).collect();
    [record(9, b"job 0117"), job(&cards)].concat()
}

fn card(number: usize) -> Vec<u8> {
    let first = ["ADA", "GRACE", "EM\u{c9}LIE", "SOFIA", "MARYAM", "EMMY"];
    let last = [
        "LOVELACE",
        "HOPPER",
        "DU CH\u{c2}TELET",
        "KOVALEVSKAYA",
        "MIRZAKHANI",
        "NOETHER",
        "GERMAIN",
    ];
    let expires = match number {
        57 => "20060230T00:00:00",
        _ => "20060131T00:00:00",
    };
    let mut sender = Sender::new("C");
    sender.text("personalise");
    sender.counted(b'A', 1);
    sender.members(vec![
        (
            "holder".into(),
            Text(format!("{} {}", pick(&first, number), pick(&last, number))),
        ),
        (
            "number".into(),
            Text(format!(
                "5000 0000 {:04} {:04}",
                number,
                number * 37 % 10_000
            )),
        ),
        ("expires".into(), Date(expires.into())),
        ("issued".into(), Date("20010130T09:31:12".into())),
        ("serial".into(), Integer(2_000 + number as i32)),
        ("home".into(), Again(pick(&TOWNS, number).into())),
        ("seller".into(), Again(pick(&TOWNS, number * number).into())),
        (
            "credit".into(),
            Double(format!("{}.{:02}", number % 60, number * 13 % 100)),
        ),
        ("active".into(), Yes(!number.is_multiple_of(7))),
        ("photo".into(), Binary(noise(40, number))),
    ]);
    sender.bytes
}

/// A card whose second town is recalled from a position that it never set.
fn unset(number: usize) -> Vec<u8> {
    let mut sender = Sender::new("C");
    sender.text("personalise");
    sender.counted(b'A', 1);
    sender.counted(b'S', 2);
    sender.text("serial");
    sender.counted(b'I', 2_000 + number);
    sender.text("home");
    sender.bytes.extend([b'<', 1]);
    sender.bytes
}

/// Cards of ten shops, one shop after the other. The members' names come all
/// over; a shop's own texts, 40 of them, come again and again while its turn
/// lasts: more than 256 texts in all.
fn shop_batch() -> Vec<u8> {
    const SHOPS: usize = 10;
    const CARDS: usize = 24;
    let mut batch = Sender::new("R");
    batch.counted(b'A', SHOPS * CARDS);
    let mut number = 1_usize;
    for shop in 0..SHOPS {
        for _ in 0..CARDS {
            batch.counted(b'S', 5);
            for (name, texts) in [
                ("tariff", 12),
                ("branch", 10),
                ("greeting", 8),
                ("colour", 6),
                ("valid in zone", 4),
            ] {
                number = (number * 1_103_515_245 + 12_345) % 2_147_483_648;
                batch.text(name);
                batch.text(&format!("shop {shop}: {name} {}", number / 65_536 % texts));
            }
        }
    }
    batch.bytes
}
