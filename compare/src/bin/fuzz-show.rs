//! Feeds `show` with messages and job files, and `show-glyphs` with messages of
//! hyperglyph and glyph, good, damaged and hostile: `fuzz-show SHOW SHOW_GLYPHS
//! SEED COUNT`. Ends with 1 if one prints a byte that a terminal might obey, ends
//! with another status than it should, or shows anything else than what is made
//! of the message here, by the Rust wrapper.

use binmode::{
    Item, Job, Kind, MOST_NESTING, Message, Refusal, TABLE_WORDS, read_glyph, read_hyperglyph,
    read_within,
};
use second::generate::{Random, damaged, glyph_message, message};
use second::glyph::Edition;
use second::job::{job, record};
use second::rules::PREFIX;
use std::fmt::Write as _;
use std::io::Write as _;
use std::path::{Path, PathBuf};
use std::process::{Command, ExitCode, Output, Stdio};

fn main() -> ExitCode {
    let words: Vec<String> = std::env::args().skip(1).collect();
    let numbers = match &words[..] {
        [_, _, seed, count] => seed.parse().ok().zip(count.parse().ok()),
        _ => None,
    };
    let Some((seed, count)) = numbers else {
        eprintln!("usage: fuzz-show SHOW SHOW_GLYPHS SEED COUNT");
        return ExitCode::from(2);
    };
    let file = std::env::temp_dir().join(format!("fuzz-show.{}", std::process::id()));
    let [show, show_glyphs] = [&words[0], &words[1]].map(|program| Fuzz {
        program: program.into(),
        file: file.clone(),
    });
    let random = &mut Random::new(seed);
    let tried = show.run(random, count);
    let tried = tried.and_then(|refused| Ok([refused, show_glyphs.run_glyphs(random, count)?]));
    let _ = std::fs::remove_file(&file);
    match tried {
        Ok(refused) => {
            for (program, refused) in ["show", "show-glyphs"].iter().zip(refused) {
                println!(
                    "{program}: {count} messages, {refused} of them refused, no byte but printable ASCII and line ends"
                );
            }
            ExitCode::SUCCESS
        }
        Err(fault) => {
            println!("{fault}");
            ExitCode::FAILURE
        }
    }
}

struct Fuzz {
    program: PathBuf,
    file: PathBuf,
}

impl Fuzz {
    /// How many were refused.
    fn run(&self, random: &mut Random, count: usize) -> Result<usize, String> {
        self.names()?;
        let mut refused = 0;
        for turn in 0..count {
            let bytes = match random.below(3) {
                0 => message(random),
                1 => damaged(random),
                _ => hostile(random),
            };
            let expected = match turn % 4 {
                0 => self.card(random, &bytes)?,
                1 => self.named(&bytes)?,
                _ => self.piped(&bytes)?,
            };
            refused += usize::from(expected.refused);
        }
        Ok(refused)
    }

    /// The same of messages of hyperglyph and glyph.
    fn run_glyphs(&self, random: &mut Random, count: usize) -> Result<usize, String> {
        let mut refused = 0;
        for turn in 0..count {
            let edition = *random.pick(&Edition::BOTH);
            let bytes = match random.below(3) {
                0 => hostile_glyphs(random),
                _ => glyph_message(random, edition),
            };
            let name = match edition {
                Edition::Hyperglyph => "1.0",
                Edition::Glyph => "0.5",
            };
            let expected = of_glyphs(&bytes, edition);
            if turn % 2 == 0 {
                self.see(&[name.as_ref()], &bytes, &expected)?;
            } else {
                self.store(&bytes)?;
                self.see(&[name.as_ref(), self.file.as_ref()], b"", &expected)?;
            }
            refused += usize::from(expected.refused);
        }
        Ok(refused)
    }

    fn piped(&self, bytes: &[u8]) -> Result<Expected, String> {
        let expected = of_message(bytes);
        self.see(&[], bytes, &expected)?;
        Ok(expected)
    }

    fn named(&self, bytes: &[u8]) -> Result<Expected, String> {
        self.store(bytes)?;
        let expected = of_message(bytes);
        self.see(&[self.file.as_ref()], b"", &expected)?;
        Ok(expected)
    }

    /// A card of a job file, which may lack it or be cut.
    fn card(&self, random: &mut Random, bytes: &[u8]) -> Result<Expected, String> {
        let mut file = [
            record(9, &random.bytes(5)),
            job(&[bytes, b"binmode-rpc:Rt"]),
        ]
        .concat();
        if random.one_in(4) {
            file.truncate(random.below(file.len() + 1));
        }
        self.store(&file)?;
        let number = random.below(3);
        let expected = of_card(&file, number);
        let word = number.to_string();
        self.see(&[self.file.as_ref(), word.as_ref()], b"", &expected)?;
        Ok(expected)
    }

    fn store(&self, bytes: &[u8]) -> Result<(), String> {
        std::fs::write(&self.file, bytes).map_err(|error| error.to_string())
    }

    /// Names that a terminal would obey, of files that are not there.
    fn names(&self) -> Result<(), String> {
        for name in ["\u{1b}[2J", "\r\n", "\u{9b}2J", "\u{202e}x"] {
            let output = self.output(&[name.as_ref()], b"")?;
            let said = !output.stderr.is_empty() && output.stdout.is_empty();
            if !said || output.status.code() != Some(2) || !is_tame(&output.stderr) {
                return Err(format!("show {name:?}: {output:?}"));
            }
        }
        Ok(())
    }

    fn output(&self, words: &[&Path], input: &[u8]) -> Result<Output, String> {
        let fail = |error: std::io::Error| format!("{}: {error}", self.program.display());
        let mut program = Command::new(&self.program)
            .args(words)
            .stdin(Stdio::piped())
            .stdout(Stdio::piped())
            .stderr(Stdio::piped())
            .spawn()
            .map_err(fail)?;
        // It may stop reading when it has seen enough.
        let _ = program.stdin.take().map(|mut pipe| pipe.write_all(input));
        program.wait_with_output().map_err(fail)
    }

    fn see(&self, words: &[&Path], input: &[u8], expected: &Expected) -> Result<(), String> {
        let output = self.output(words, input)?;
        let status = Some(i32::from(expected.refused));
        let shown = String::from_utf8_lossy(&output.stdout);
        if !is_tame(&output.stdout) {
            return Err(format!("a byte that is not printable:\n{shown:?}"));
        }
        let text = &expected.text;
        if shown != *text {
            return Err(format!("shown:\n{shown}\nexpected:\n{text}"));
        }
        if !output.stderr.is_empty() || output.status.code() != status {
            return Err(format!("{}: {output:?}", output.status));
        }
        Ok(())
    }
}

fn is_tame(bytes: &[u8]) -> bool {
    bytes.iter().all(|byte| matches!(byte, b'\n' | 32..127))
}

/// A text that a terminal obeys.
fn hostile_text(random: &mut Random) -> String {
    const TEXTS: [&str; 12] = [
        "\u{1b}[2J\u{1b}[H",
        "\u{1b}]0;title\u{7}",
        "\u{9b}31m",
        "\u{90}q\u{9c}",
        "\r\u{8}\u{8}over",
        "line\nfault\ttab",
        "\u{202e}evil",
        "\u{feff}\u{200b}",
        "\0\u{7f}\u{80}\u{9f}",
        "\"quoted\\\"",
        "\u{1f4b3}\u{10ffff}",
        "plain",
    ];
    let count = random.below(60);
    (0..1 + count / 20 * count)
        .map(|_| *random.pick(&TEXTS))
        .collect()
}

/// A hyperglyph or glyph message whose keys, texts and names are such.
fn hostile_glyphs(random: &mut Random) -> Vec<u8> {
    let mut text = |letter: char| {
        let text = hostile_text(random);
        format!("{letter}{}:{text};", text.len())
    };
    let (name, key, value, bytes) = (text('u'), text('u'), text('u'), text('b'));
    let message = match random.below(3) {
        0 => format!("X{name}D{key}{value};{bytes};"),
        1 => format!("H{name}O{key}{value};{bytes};"),
        _ => format!("L{name}{bytes}O{key}{value};N;;\n"),
    };
    let mut message = message.into_bytes();
    if random.one_in(4) {
        message.truncate(random.below(message.len()));
    }
    message
}

/// A message whose keys, texts and names are what a terminal obeys.
fn hostile(random: &mut Random) -> Vec<u8> {
    let mut text = |bytes: &mut Vec<u8>, tag: u8| {
        let text = hostile_text(random);
        bytes.push(tag);
        bytes.extend((text.len() as u32).to_le_bytes());
        bytes.extend(text.as_bytes());
    };
    let mut bytes = [PREFIX, &b"C"[..]].concat();
    text(&mut bytes, b'U');
    bytes.extend(b"A\x04\0\0\0");
    text(&mut bytes, b'U');
    text(&mut bytes, b'B');
    bytes.push(b'O');
    text(&mut bytes, b'U');
    text(&mut bytes, b'B');
    bytes.extend(b"S\x01\0\0\0");
    text(&mut bytes, b'U');
    text(&mut bytes, b'U');
    if random.one_in(4) {
        bytes.truncate(random.between(12, bytes.len()));
    }
    bytes
}

/// What is to be shown.
struct Expected {
    text: String,
    refused: bool,
}

fn of_refusal(bytes: &[u8], refusal: Refusal) -> Expected {
    let text = format!("{refusal}\n{}", around(bytes, refusal.place));
    let refused = true;
    Expected { text, refused }
}

/// The bytes around a place, sixteen in a line, with a mark under it.
fn around(bytes: &[u8], place: usize) -> String {
    let (line, column) = (place / 16, place % 16);
    let mut text = String::new();
    for from in (line.saturating_sub(2)..line + 2).map(|line| 16 * line) {
        if from > place && from >= bytes.len() {
            continue;
        }
        let part = bytes.iter().skip(from).take(16);
        let digits: String = part.clone().map(|byte| format!(" {byte:02x}")).collect();
        let printed = |&byte: &u8| match byte {
            32..127 => char::from(byte),
            _ => '.',
        };
        let characters: String = part.map(printed).collect();
        let _ = writeln!(text, "{from:>8} {digits:48}  {characters}");
        if from == 16 * line {
            let (blank, after) = (10 + 3 * column, 47 - 2 * column);
            let _ = writeln!(text, "{:blank$}^^{:after$}^", "", "");
        }
    }
    text
}

fn of_message(bytes: &[u8]) -> Expected {
    let mut table = vec![0; TABLE_WORDS];
    let read = read_within(bytes, &mut table, MOST_NESTING);
    of_read(bytes, read, " that are ignored")
}

fn of_glyphs(bytes: &[u8], edition: Edition) -> Expected {
    let mut table = vec![0; TABLE_WORDS];
    let read = match edition {
        Edition::Hyperglyph => read_hyperglyph(bytes, &mut table, MOST_NESTING),
        Edition::Glyph => read_glyph(bytes, &mut table, MOST_NESTING),
    };
    of_read(bytes, read, ", all blanks")
}

fn of_read(bytes: &[u8], read: Result<Message, Refusal>, words: &str) -> Expected {
    let message = match read {
        Ok(message) => message,
        Err(refusal) => return of_refusal(bytes, refusal),
    };
    let used = message.bytes().len();
    let mut text = format!("accepted: {} rows, {used} bytes", message.rows());
    if used < bytes.len() {
        let behind = bytes.len() - used;
        let _ = write!(text, ", and {behind} behind them{words}");
    }
    text.push('\n');
    tree(&mut text, None, message.root(), 0);
    let refused = false;
    Expected { text, refused }
}

fn of_card(file: &[u8], number: usize) -> Expected {
    let mut cards = Job::new(file).cards();
    match cards.nth(number) {
        Some(Ok(card)) => {
            let (length, start) = (card.bytes.len(), card.start);
            let mut expected = of_message(card.bytes);
            let first = format!("card {number}: {length} bytes at {start} of the file\n");
            expected.text.insert_str(0, &first);
            expected
        }
        // `nth` may have gone past the refusal.
        _ => match Job::new(file).read_card(number, &mut [0; 4]) {
            Err(refusal) => of_refusal(file, refusal),
            Ok(_) => unreachable!("the wrapper's cards are the library's"),
        },
    }
}

fn tree(text: &mut String, key: Option<&str>, item: Item, depth: usize) {
    let _ = write!(
        text,
        "{:>5}  {:indent$}",
        item.row(),
        "",
        indent = 2 * depth
    );
    if let Some(key) = key {
        let _ = write!(text, "{}: ", quoted(key));
    }
    let _ = write!(text, "{}", item.kind());
    let _ = writeln!(text, "{}", value(item));
    match item.kind() {
        Kind::Struct | Kind::OrderedDict => {
            for (key, value) in item.members() {
                tree(text, Some(key), value, depth + 1);
            }
        }
        Kind::Other => {}
        Kind::Call | Kind::Extension => {
            for child in item.children().skip(1) {
                tree(text, None, child, depth + 1);
            }
        }
        _ => {
            for child in item.children() {
                tree(text, None, child, depth + 1);
            }
        }
    }
}

fn value(item: Item) -> String {
    let [_, _, count, _] = item.words();
    match item.kind() {
        Kind::Integer => format!(" {}", item.integer().expect("an Integer")),
        Kind::Boolean => format!(" {}", item.boolean().expect("a Boolean")),
        Kind::Double | Kind::DateTime => format!(" {}", item.text().expect("a text")),
        Kind::String => format!(" {}", quoted(item.text().expect("a text"))),
        Kind::Binary => format!(" {}", hexadecimal(item.bytes().expect("bytes"))),
        Kind::Array | Kind::Struct | Kind::OrderedDict => format!(" of {count}"),
        Kind::Call | Kind::Extension => {
            let name = item.children().next().and_then(Item::text);
            format!(" of {}", quoted(name.expect("a method or a name")))
        }
        Kind::Other => {
            let name = item.children().next().and_then(Item::text);
            let bytes = item.children().nth(1).and_then(Item::bytes);
            let name = quoted(name.expect("a name"));
            format!(" {name}, {}", hexadecimal(bytes.expect("bytes")))
        }
        _ => String::new(),
    }
}

/// A text of at most 240 bytes, or as many as its last character needs.
fn quoted(text: &str) -> String {
    let mut ends = text.char_indices().map(|(at, _)| at);
    let end = ends.find(|&at| at >= 240).unwrap_or(text.len());
    let mut shown = String::from("\"");
    for character in text[..end].chars() {
        match character {
            '"' | '\\' => shown.extend(['\\', character]),
            '\n' => shown.push_str("\\n"),
            '\r' => shown.push_str("\\r"),
            '\t' => shown.push_str("\\t"),
            ' '..='~' => shown.push(character),
            other => {
                let _ = write!(shown, "\\u{{{:x}}}", u32::from(other));
            }
        }
    }
    shown.push('"');
    if end < text.len() {
        let _ = write!(shown, " .. {} bytes in all", text.len());
    }
    shown
}

/// At most 32 bytes.
fn hexadecimal(bytes: &[u8]) -> String {
    let mut shown = format!("{} bytes", bytes.len());
    for (at, byte) in bytes.iter().take(32).enumerate() {
        let _ = write!(shown, "{}{byte:02x}", if at == 0 { ": " } else { " " });
    }
    if bytes.len() > 32 {
        shown.push_str(" ..");
    }
    shown
}
