//! Tables of hyperglyph 1.0 and glyph 0.5 written, by the library and by the
//! second implementation: whole, from a station's share, and read again.

use crate::both;
use crate::lent::{Lent, rubbish};
use crate::library::{self, Written};
use crate::limits::{HUGE, any_limit};
use crate::reading::Compared;
use crate::station_calls::Whose;
use crate::stations::station_of;
use crate::tally::Run;
use crate::writing::reported;
use second::generate::{
    Random, Table, glyph_deep, glyph_message, glyph_table, key_again, output_length,
    table as binmode_table,
};
use second::glyph::{Edition, papers, read_within, same_meaning, write_within};
use second::layout::{columns_of, rows_of};
use second::rules::{BYTE_LIMIT, NESTING_LIMIT, ROW_LIMIT, ROW_WORDS, USUAL_LIMIT, kind};
use second::stations::{NOT_SPLIT, share};
use second::{ByRows, Read, Write, hex};

/// Tables up to here have each of their words damaged.
const FEW_ROWS: usize = 12;

pub struct GlyphWriting {
    words: Lent<u32>,
    text: Lent<u8>,
    library: Lent<u8>,
    second: Lent<u8>,
    wide: Vec<u8>,
}

impl GlyphWriting {
    pub fn new() -> Self {
        GlyphWriting {
            words: Lent::new(0),
            text: Lent::new(0),
            library: Lent::new(0),
            second: Lent::new(0),
            wide: vec![0; BYTE_LIMIT],
        }
    }

    /// Calls with this table, an output of so many bytes and any limit of
    /// nesting.
    fn call(&mut self, run: &mut Run, table: &Table, room: usize, edition: Edition) -> Compared {
        let limit = any_limit(&mut run.random).unwrap_or(USUAL_LIMIT);
        self.call_at(run, table, room, edition, limit)
    }

    /// One call of each, if any are left; what is written is read again, and
    /// that is written again, now and then.
    fn call_at(
        &mut self,
        run: &mut Run,
        table: &Table,
        room: usize,
        edition: Edition,
        limit: usize,
    ) -> Compared {
        if run.tally.is_over() {
            return Ok(());
        }
        let given = (table, edition, limit, room);
        let answer = self.compare(&mut run.random, given)?;
        run.tally.wrote_glyph(answer.number);
        if answer.number != 0 || !run.random.one_in(4) {
            return Ok(());
        }
        let form = self.library.content()[..answer.length].to_vec();
        is_read_back(table, &form, edition, limit)
            .ok_or_else(|| told("what is written is not read back", given))
    }

    /// One call of each; gives the answer.
    fn compare(&mut self, random: &mut Random, given: Given) -> Result<Written, String> {
        let (table, edition, limit, room) = given;
        let rubbish = rubbish(random);
        let words = self.words.lend(table.words.len(), rubbish);
        words.copy_from_slice(&columns_of(&table.words));
        let text = self.text.lend(table.text.len(), rubbish as u8);
        text.copy_from_slice(&table.text);
        let output = self.library.lend(room, rubbish as u8);
        let by_library = library::write_glyph(words, table.rows, text, edition, limit, output);
        let output = self.second.lend(room, !rubbish as u8);
        let by_second = both::write_glyph(table, edition, limit, output);
        let by_second = reported(by_second);
        let mut difference = self.difference(table, by_library, by_second);
        if difference.is_none() && random.one_in(8) && !self.is_wrapped_alike(given, by_second) {
            difference = Some("the wrapper");
        }
        match difference {
            None => Ok(by_library),
            Some(difference) => Err(told(
                &format!("{difference}\nlibrary {by_library:?}\nsecond  {by_second:?}"),
                given,
            )),
        }
    }

    fn difference(&self, table: &Table, library: Written, second: Written) -> Option<&'static str> {
        if library != second {
            return Some("the answers");
        }
        if self.library.content() != self.second.content() {
            return Some("the outputs");
        }
        if !self.library.is_whole() {
            return Some("the library wrote outside the output");
        }
        let table_is_whole =
            self.words.content() == columns_of(&table.words) && self.words.is_whole();
        if !table_is_whole || self.text.content() != table.text || !self.text.is_whole() {
            return Some("the library wrote to the table or the text");
        }
        None
    }

    /// Whether the Rust wrapper gives the same bytes, or the same refusal.
    fn is_wrapped_alike(&self, (table, edition, limit, room): Given, second: Written) -> bool {
        let words = columns_of(&table.words);
        let wrapped = binmode::Table {
            words: &words,
            rows: table.rows,
            text: &table.text,
        };
        let mut output = vec![0; room];
        let written = match edition {
            Edition::Hyperglyph => wrapped.write_hyperglyph(limit, &mut output),
            Edition::Glyph => wrapped.write_glyph(limit, &mut output),
        };
        match written {
            Ok(form) => second.number == 0 && *form == self.second.content()[..second.length],
            Err(refusal) => (refusal.reason.number(), refusal.place) == (second.number, 0),
        }
    }

    /// A table written from a station's share of one that holds it once or
    /// twice, or from that of no station.
    fn at_station(
        &mut self,
        run: &mut Run,
        table: &Table,
        room: usize,
        edition: Edition,
    ) -> Compared {
        if run.tally.is_over() {
            return Ok(());
        }
        let limit = any_limit(&mut run.random).unwrap_or(USUAL_LIMIT);
        let own = columns_of(&table.words[..table.words.len() / ROW_WORDS * ROW_WORDS]);
        let rows = own.len() / ROW_WORDS;
        let split = if run.random.one_in(12) { 0 } else { rows };
        let station = *run.random.pick(&[4, 4, 4, 5, 5, 5, 6]);
        let whose = Whose { split, station };
        let rubbish = rubbish(&mut run.random);
        let spare = vec![rubbish; run.random.below(ROW_WORDS)];
        let words = [&own[..], &own, &spare].concat();
        let lent = self.words.lend(words.len(), rubbish);
        lent.copy_from_slice(&words);
        let output = self.library.lend(room, rubbish as u8);
        let by_library = whose.write_glyph(lent, table.rows, &table.text, edition, limit, output);
        let output = self.second.lend(room, rubbish as u8);
        let own = station_of(station).ok_or(NOT_SPLIT);
        let by_second = match own.and_then(|station| share(&words, split, station)) {
            Ok(share) => {
                let words = rows_of(share);
                let (rows, text) = (table.rows, table.text.clone());
                let own = Table { words, rows, text };
                reported(both::write_glyph(&own, edition, limit, output))
            }
            Err(number) => Written { number, length: 0 },
        };
        run.tally.at_station(by_library.number);
        let same_output = self.library.content() == self.second.content();
        let is_whole = self.library.is_whole() && self.words.is_whole();
        if by_library == by_second && same_output && is_whole && self.words.content() == words {
            return Ok(());
        }
        let differs = format!("for {whose:?}\nlibrary {by_library:?}\nsecond  {by_second:?}");
        Err(told(&differs, (table, edition, limit, room)))
    }

    /// The tables of the papers' messages, with outputs of every length up to
    /// the need and over.
    pub fn papers(&mut self, run: &mut Run) -> Compared {
        let alike = [papers::EXAMPLES, papers::OLD_EXAMPLES, papers::DECIDED].concat();
        let alike = alike.iter().map(|&(message, _)| message);
        let apart = papers::DECIDED_APART.iter();
        for message in alike.chain(apart.map(|&(message, ..)| message)) {
            for (of, edition) in pairs_of_editions() {
                let table = read_table(message.to_vec(), of);
                let need = self.need(&mut run.random, &table, edition);
                let least = if table.rows == 0 { need } else { 0 };
                for room in least..need + 3 {
                    self.call_at(run, &table, room, edition, NESTING_LIMIT)?;
                }
                self.at_station(run, &table, need, edition)?;
            }
        }
        Ok(())
    }

    /// Every limit from 0 to 40, and huge ones, with tables that are nested one
    /// level less deep, as deep and one deeper.
    pub fn every_limit(&mut self, run: &mut Run) -> Compared {
        for limit in (0..=40).chain(HUGE) {
            let about = limit.min(NESTING_LIMIT + 1);
            for levels in about.saturating_sub(1)..=(about + 1).min(NESTING_LIMIT) {
                for edition in Edition::BOTH {
                    let message = glyph_deep(&mut run.random, edition, levels);
                    let table = read_table(message, edition);
                    let need = self.need(&mut run.random, &table, edition);
                    for room in [need, need.saturating_sub(1), need + 9] {
                        self.call_at(run, &table, room, edition, limit)?;
                    }
                }
            }
        }
        Ok(())
    }

    /// A message read and written again, into as many bytes as it used: that
    /// is not refused, and what is written is read back.
    fn rewritten(&mut self, run: &mut Run, edition: Edition) -> Compared {
        let text = glyph_message(&mut run.random, edition);
        let limit = run.random.between(1, NESTING_LIMIT);
        let mut words = vec![0; ROW_LIMIT * ROW_WORDS];
        let read = library::read_glyph(&text, &mut words, edition, limit);
        if read.number != 0 || run.tally.is_over() {
            return Ok(());
        }
        let (words, rows) = (rows_of(&words), read.rows);
        let table = Table { words, rows, text };
        let given = (&table, edition, limit, read.used);
        let answer = self.compare(&mut run.random, given)?;
        run.tally.wrote_glyph(answer.number);
        let form = &self.library.content()[..answer.length];
        let is_written = answer.number == 0 && is_read_back(&table, form, edition, limit).is_some();
        is_written
            .then_some(())
            .ok_or_else(|| told("what was read is not written and read back", given))
    }

    /// A generated table, good or not, with several outputs.
    pub fn round(&mut self, run: &mut Run) -> Compared {
        let edition = *run.random.pick(&Edition::BOTH);
        let table = any_table(&mut run.random, edition);
        let need = self.need(&mut run.random, &table, edition);
        let room = output_length(&mut run.random, need);
        self.call(run, &table, room, edition)?;
        self.call(run, &table, need, edition)?;
        self.at_station(run, &table, need, edition)?;
        self.rewritten(run, edition)?;
        match run.random.below(60) {
            0 => self.every_word(run, &table, edition),
            1 => self.every_length(run, &table, need, edition),
            2 => self.every_number_of_rows(run, &table, need, edition),
            _ => Ok(()),
        }
    }

    /// How many bytes a table needs; a few, if it is refused.
    fn need(&mut self, random: &mut Random, table: &Table, edition: Edition) -> usize {
        let (words, rows, text) = (&table.words, table.rows, &table.text);
        match write_within::<ByRows>(words, rows, text, edition, NESTING_LIMIT, &mut self.wide) {
            Write::Accepted { length } => length,
            Write::Refused { .. } => random.below(60),
        }
    }

    /// A small table with each of its words damaged in several ways.
    fn every_word(&mut self, run: &mut Run, good: &Table, edition: Edition) -> Compared {
        if good.rows > FEW_ROWS {
            return Ok(());
        }
        let mut table = good.clone();
        for (place, &word) in good.words.iter().enumerate() {
            let near = [word.wrapping_sub(1), word.wrapping_add(1), word ^ 1 << 16];
            let far = [0, 1, 3, 1 << 31, u32::MAX, u32::MAX - word];
            let kinds = 4..if place % ROW_WORDS == 0 { 18 } else { 4 };
            for value in near.into_iter().chain(far).chain(kinds) {
                table.words[place] = value;
                self.call(run, &table, 200, edition)?;
            }
            table.words[place] = word;
        }
        Ok(())
    }

    fn every_length(
        &mut self,
        run: &mut Run,
        table: &Table,
        need: usize,
        edition: Edition,
    ) -> Compared {
        if need > 300 {
            return Ok(());
        }
        for room in 0..need + 4 {
            self.call(run, table, room, edition)?;
        }
        Ok(())
    }

    /// Every stated number of rows, and those that tempt to overflow.
    fn every_number_of_rows(
        &mut self,
        run: &mut Run,
        good: &Table,
        need: usize,
        edition: Edition,
    ) -> Compared {
        let mut table = good.clone();
        let beside = [ROW_LIMIT, ROW_LIMIT + 1, usize::MAX];
        let wrapping = [1 << 32, 1 << 62, 1 << 63].map(|far: usize| far.wrapping_add(good.rows));
        for rows in (0..good.rows.min(40) + 3).chain(beside).chain(wrapping) {
            table.rows = rows;
            self.call(run, &table, need, edition)?;
        }
        Ok(())
    }
}

/// What a writer is given, and the length of its output.
type Given<'t> = (&'t Table, Edition, usize, usize);

/// What is wrong, and with what.
fn told(what: &str, (table, edition, limit, room): Given) -> String {
    format!(
        "writing {edition:?} differs: {what}\n\
         table {words:?}\n\
         rows {rows}\n\
         text {text}\n\
         output of {room} bytes, limit {limit}",
        words = table.words,
        rows = table.rows,
        text = hex::encode(&table.text),
    )
}

/// That a form is read, at the same limit, with the table's meaning and in all
/// its bytes, and written again as it is.
fn is_read_back(table: &Table, form: &[u8], edition: Edition, limit: usize) -> Option<()> {
    let mut words = vec![0; ROW_WORDS * table.rows];
    let again = library::read_glyph(form, &mut words, edition, limit);
    let counts = (again.number, again.rows, again.used);
    let stated = &table.words[..ROW_WORDS * table.rows];
    let mut output = vec![0; form.len()];
    let written = library::write_glyph(&words, again.rows, form, edition, limit, &mut output);
    let is_same = counts == (0, table.rows, form.len())
        && same_meaning::<ByRows>((stated, &table.text), (&rows_of(&words), form))
        && written.number == 0
        && output == form;
    is_same.then_some(())
}

fn pairs_of_editions() -> impl Iterator<Item = (Edition, Edition)> {
    let both = Edition::BOTH.into_iter();
    both.flat_map(|of| Edition::BOTH.map(|edition| (of, edition)))
}

/// The table that reading a message gives, with the message as text bytes; none
/// of its rows, if it is refused.
fn read_table(text: Vec<u8>, edition: Edition) -> Table {
    let mut words = vec![0; ROW_LIMIT * ROW_WORDS];
    let rows = match read_within::<ByRows>(&text, &mut words, edition, NESTING_LIMIT) {
        Read::Accepted { rows, .. } => rows,
        Read::Refused { .. } => 0,
    };
    words.truncate(rows * ROW_WORDS);
    Table { words, rows, text }
}

/// Mostly one of the edition, good or damaged; one with a key twice, one whose
/// keys lie in one another, or one of Binmode.
fn any_table(random: &mut Random, edition: Edition) -> Table {
    match random.below(40) {
        0 => binmode_table(random),
        1..4 => overlapping_keys(random),
        4..8 => {
            let mut table = glyph_table(random, edition);
            key_again(random, &mut table);
            table
        }
        _ => glyph_table(random, edition),
    }
}

/// A dict whose keys lie in one another and begin alike, in any order.
fn overlapping_keys(random: &mut Random) -> Table {
    let pairs = match random.below(12) {
        0 => random.between(300, 2_047),
        _ => random.below(40),
    };
    let mut text = vec![b'a'; 3_000];
    for _ in 0..random.below(4) {
        let place = random.below(text.len());
        text[place] = *random.pick(b"b\0\x7f");
    }
    let dict = *random.pick(&[kind::STRUCT, kind::ORDERED_DICT]);
    let rows = 2 * pairs + 1;
    let mut words = vec![dict, 0, pairs as u32, rows as u32];
    let mut lengths: Vec<usize> = (0..pairs).collect();
    for (row, place) in (1..rows).step_by(2).zip((0..pairs).rev()) {
        let chosen = random.below(place + 1);
        lengths.swap(chosen, place);
        let length = lengths[place];
        let offset = random.below(text.len() - length);
        let (row, offset, length) = (row as u32, offset as u32, length as u32);
        words.extend([kind::STRING, offset, length, row + 1]);
        words.extend([kind::NIL, 0, 0, row + 2]);
    }
    Table { words, rows, text }
}
