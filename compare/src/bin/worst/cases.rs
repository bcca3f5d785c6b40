//! What is timed: tables and messages, by name. A table that can be written
//! gives a message too, and a message a table.

use crate::library;
use crate::sent::{GLYPHS, MESSAGES};
use crate::table::Table;
use crate::tables::{OF_KEYS, OF_STRINGS};
use second::glyph::Edition;
use second::rules::{BYTE_LIMIT, NESTING_LIMIT};

/// What is made, with its name.
pub type List<T> = &'static [(&'static str, fn() -> T)];

/// In which format a table or message is.
#[derive(Clone, Copy, PartialEq, Eq)]
pub enum Format {
    Binmode,
    Hyperglyph,
    Glyph,
}

pub struct Case {
    table: Option<Table>,
    /// The table for both editions of glyph.
    glyphs: Option<Table>,
    /// The message in each format.
    messages: [Option<Vec<u8>>; 3],
}

#[derive(Clone, Copy)]
enum Made {
    Table(fn() -> Table),
    Message(fn() -> Vec<u8>),
    Glyphs(fn() -> Vec<u8>),
}

/// A case that is not made yet.
#[derive(Clone, Copy)]
pub struct Named {
    pub name: &'static str,
    made: Made,
}

/// All whose names have the word in them.
pub fn named(word: &str) -> Vec<Named> {
    let tables = OF_STRINGS.iter().chain(OF_KEYS);
    let tables = tables.map(|&(name, make)| (name, Made::Table(make)));
    let messages = MESSAGES
        .iter()
        .map(|&(name, make)| (name, Made::Message(make)));
    let glyphs = GLYPHS
        .iter()
        .map(|&(name, make)| (name, Made::Glyphs(make)));
    tables
        .chain(messages)
        .chain(glyphs)
        .filter(|(name, _)| name.contains(word))
        .map(|(name, made)| Named { name, made })
        .collect()
}

impl Named {
    pub fn make(&self) -> Case {
        match self.made {
            Made::Table(make) => Case::of_table(make()),
            Made::Message(make) => Case::of_message(make()),
            Made::Glyphs(make) => Case::of_glyphs(make()),
        }
    }
}

impl Case {
    fn of_table(table: Table) -> Self {
        let glyphs = table.inner();
        let [message, hyperglyph, glyph] = if table.fits() {
            [
                written(&table),
                written_as(&glyphs, Edition::Hyperglyph),
                written_as(&glyphs, Edition::Glyph),
            ]
        } else {
            [None, None, None]
        };
        Case {
            table: Some(table),
            glyphs: Some(glyphs),
            messages: [message, hyperglyph, glyph],
        }
    }

    fn of_message(message: Vec<u8>) -> Self {
        let table = Table::of_message(&message).expect("a message that is accepted");
        let mut case = Case::of_table(table);
        case.messages[0] = Some(message);
        case
    }

    fn of_glyphs(message: Vec<u8>) -> Self {
        let table = Table::of_glyphs(&message, Edition::Hyperglyph);
        Case {
            table: None,
            glyphs: Some(table.expect("a message that is accepted")),
            messages: [None, Some(message.clone()), Some(message)],
        }
    }

    pub fn table(&self, format: Format) -> Option<&Table> {
        match format {
            Format::Binmode => self.table.as_ref(),
            Format::Hyperglyph | Format::Glyph => self.glyphs.as_ref(),
        }
    }

    pub fn message(&self, format: Format) -> Option<&[u8]> {
        self.messages[format as usize].as_deref()
    }
}

fn written(table: &Table) -> Option<Vec<u8>> {
    let mut output = vec![0; BYTE_LIMIT];
    let limit = Some(NESTING_LIMIT);
    let answer = library::write(&table.words, table.rows, &table.text, limit, &mut output);
    output.truncate(answer.length);
    (answer.number == 0).then_some(output)
}

fn written_as(table: &Table, edition: Edition) -> Option<Vec<u8>> {
    let mut output = vec![0; BYTE_LIMIT];
    let (words, rows, text) = (&table.words, table.rows, &table.text);
    let answer = library::write_glyph(words, rows, text, edition, NESTING_LIMIT, &mut output);
    output.truncate(answer.length);
    (answer.number == 0).then_some(output)
}
