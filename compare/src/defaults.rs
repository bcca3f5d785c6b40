//! Texts of cards with defaults behind them, by the library and by the second
//! implementation. What the library reports on is rubbish before the call.

use crate::both;
use crate::gather::gathered_table;
use crate::lent::{Lent, rubbish};
use crate::reading::Compared;
use crate::tally::Run;
use binmode::sys;
use second::defaults::{Asked, Source, Text};
use second::generate::{Random, Table, damage, key, row, structs, table};
use second::hex;
use second::layout::columns_of;
use second::rules::{ROW_WORDS, kind};
use std::ops::Range;

/// What the library reports of a text.
#[derive(Clone, Copy, Debug, PartialEq, Eq)]
struct Reported {
    refusal: u8,
    source: u8,
    offset: usize,
    length: usize,
}

fn by_library(rubbish: u32, card: Asked, defaults: Asked, key: &[u8]) -> Reported {
    let (mut source, mut offset, mut length) = (rubbish as u8, rubbish as usize, rubbish as usize);
    // SAFETY: the slices and the three numbers are valid for the call, and
    // those that are written overlap nothing.
    let refusal = unsafe {
        sys::binmode_default_text(
            card.table.as_ptr(),
            card.table.len(),
            card.rows,
            card.text.as_ptr(),
            card.text.len(),
            card.row,
            defaults.table.as_ptr(),
            defaults.table.len(),
            defaults.rows,
            defaults.text.as_ptr(),
            defaults.text.len(),
            defaults.row,
            key.as_ptr(),
            key.len(),
            &mut source,
            &mut offset,
            &mut length,
        )
    };
    Reported {
        refusal,
        source,
        offset,
        length,
    }
}

/// The second implementation's answer as the numbers of `link/binmode.h`.
fn reported(answer: Result<Text, u8>) -> Reported {
    match answer {
        Ok(text) => Reported {
            refusal: 0,
            source: u8::from(text.source == Source::Defaults),
            offset: text.offset as usize,
            length: text.length as usize,
        },
        Err(refusal) => Reported {
            refusal,
            source: 0,
            offset: 0,
            length: 0,
        },
    }
}

/// A table in buffers with rubbish around them.
struct Shelf {
    words: Lent<u32>,
    text: Lent<u8>,
}

impl Shelf {
    fn new() -> Self {
        Shelf {
            words: Lent::new(0),
            text: Lent::new(0),
        }
    }

    fn lend(&mut self, rubbish: u32, table: &Table) {
        let words = self.words.lend(table.words.len(), rubbish);
        words.copy_from_slice(&columns_of(&table.words));
        let text = self.text.lend(table.text.len(), rubbish as u8);
        text.copy_from_slice(&table.text);
    }

    fn asked(&self, rows: usize, row: usize) -> Asked<'_> {
        Asked {
            table: self.words.content(),
            rows,
            text: self.text.content(),
            row,
        }
    }

    fn is_untouched(&self, table: &Table) -> bool {
        let same =
            self.words.content() == columns_of(&table.words) && self.text.content() == table.text;
        same && self.words.is_whole() && self.text.is_whole()
    }
}

pub struct Texts {
    card: Shelf,
    defaults: Shelf,
    key: Lent<u8>,
}

impl Texts {
    pub fn new() -> Self {
        Texts {
            card: Shelf::new(),
            defaults: Shelf::new(),
            key: Lent::new(0),
        }
    }

    /// Two generated tables, good or not, with several rows and keys of either.
    pub fn round(&mut self, run: &mut Run) -> Compared {
        let card = any_table(&mut run.random);
        let defaults = any_table(&mut run.random);
        for _ in 0..4 {
            let random = &mut run.random;
            let rows = (row(random, &card), row(random, &defaults));
            let key = match random.below(2) {
                0 => key(random, &card, rows.0),
                _ => key(random, &defaults, rows.1),
            };
            self.ask(run, (&card, rows.0), (&defaults, rows.1), &key)?;
        }
        Ok(())
    }

    /// One call of each.
    fn ask(
        &mut self,
        run: &mut Run,
        (card, row): (&Table, usize),
        (defaults, defaults_row): (&Table, usize),
        key: &[u8],
    ) -> Compared {
        if run.tally.is_over() {
            return Ok(());
        }
        let rubbish = rubbish(&mut run.random);
        self.card.lend(rubbish, card);
        self.defaults.lend(rubbish, defaults);
        let given = self.key.lend(key.len(), rubbish as u8);
        given.copy_from_slice(key);
        let own = self.card.asked(card.rows, row);
        let other = self.defaults.asked(defaults.rows, defaults_row);
        let by_library = by_library(rubbish, own, other, self.key.content());
        let text = both::default_text(own, other, key);
        let by_second = reported(text);
        let by_wrapper = wrapped(own, other, key);
        let expected = text.map(|text| part(own, other, text));
        let same_part = by_wrapper.is_none_or(|part| part == expected);
        let untouched = self.card.is_untouched(card)
            && self.defaults.is_untouched(defaults)
            && self.key.content() == key
            && self.key.is_whole();
        if by_library == by_second && same_part && untouched {
            run.tally.asked_text(by_library.refusal);
            return Ok(());
        }
        Err(format!(
            "a text with defaults behind it differs, or what was lent was changed\n\
             card, row {row}\n{card}\n\
             defaults, row {defaults_row}\n{defaults}\n\
             key {key}\n\
             library {by_library:?}\n\
             second  {by_second:?}",
            card = shown(card),
            defaults = shown(defaults),
            key = hex::encode(key),
        ))
    }
}

/// Where the Rust wrapper's text lies, and that it is the defaults'; none if
/// it has no item of either row to ask.
fn wrapped(
    card: Asked,
    defaults: Asked,
    key: &[u8],
) -> Option<Result<(Range<*const u8>, bool), u8>> {
    let (text, source) = match item(card)?.text_or_default(item(defaults)?, key) {
        Ok(found) => found,
        Err(refusal) => return Some(Err(refusal.reason.number())),
    };
    let is_default = source == binmode::Source::Defaults;
    Some(Ok((text.as_bytes().as_ptr_range(), is_default)))
}

/// The item that is asked, as the Rust wrapper has it.
fn item(asked: Asked) -> Option<binmode::Item> {
    let Asked {
        table: words,
        rows,
        text,
        row,
    } = asked;
    binmode::Table { words, rows, text }.item(row)
}

/// Where the second implementation's text lies, and that it is the defaults'.
fn part(card: Asked, defaults: Asked, text: Text) -> (Range<*const u8>, bool) {
    let from_defaults = text.source == Source::Defaults;
    let bytes = if from_defaults {
        defaults.text
    } else {
        card.text
    };
    let part = &bytes[text.offset as usize..][..text.length as usize];
    (part.as_ptr_range(), from_defaults)
}

fn any_table(random: &mut Random) -> Table {
    let mut table = match random.below(60) {
        0 => gathered_table(random),
        1..5 => table(random),
        _ => structs(random),
    };
    if !random.one_in(4) {
        with_texts(random, &mut table);
    }
    if random.one_in(10) {
        damage(random, &mut table);
    }
    table
}

/// Most of the values that are no Strings made Strings; a Double and a date
/// keep their content.
fn with_texts(random: &mut Random, table: &mut Table) {
    let empty = table.text.is_empty();
    let (rows, _) = table.words.as_chunks_mut::<ROW_WORDS>();
    for row in rows {
        match row[0] {
            kind::INTEGER | kind::BOOLEAN if !random.one_in(4) && !empty => {
                [row[0], row[1], row[2]] = [kind::STRING, 0, 1];
            }
            kind::DOUBLE | kind::DATE_TIME if !random.one_in(4) => row[0] = kind::STRING,
            _ => {}
        }
    }
}

fn shown(table: &Table) -> String {
    let text = hex::encode(&table.text);
    format!("table {:?}\nrows {}\ntext {text}", table.words, table.rows)
}
