//! Writing, by the library and by the second implementation.

use crate::both;
use crate::edges::at_the_edges;
use crate::gather::gathered_table;
use crate::lent::{Lent, rubbish};
use crate::library::{self, Limit, Written};
use crate::limits::{HIGHEST, any_limit, read_at, write_at};
use crate::reading::Compared;
use crate::tally::Run;
use second::generate::{Random, Table, few_strings, output_length, table};
use second::layout::columns_of;
use second::rules::{BYTE_LIMIT, ROW_LIMIT, ROW_WORDS, kind};
use second::{ByRows, Read, Write, hex, papers};

pub struct Writing {
    words: Lent<u32>,
    text: Lent<u8>,
    library: Lent<u8>,
    second: Lent<u8>,
    wide: Vec<u8>,
}

impl Writing {
    pub fn new() -> Self {
        Writing {
            words: Lent::new(0),
            text: Lent::new(0),
            library: Lent::new(0),
            second: Lent::new(0),
            wide: vec![0; BYTE_LIMIT],
        }
    }

    /// One call of each, if any are left, with this table, an output of so many
    /// bytes and any limit of nesting.
    fn call(&mut self, run: &mut Run, table: &Table, room: usize) -> Compared {
        let limit = any_limit(&mut run.random);
        self.call_at(run, table, room, limit)
    }

    pub fn call_at(&mut self, run: &mut Run, table: &Table, room: usize, limit: Limit) -> Compared {
        if !run.tally.is_over() {
            let number = self.compare(&mut run.random, table, room, limit)?;
            run.tally.wrote(number);
        }
        Ok(())
    }

    /// One call of each; gives the answer's number.
    pub fn compare(
        &mut self,
        random: &mut Random,
        table: &Table,
        room: usize,
        limit: Limit,
    ) -> Result<u8, String> {
        let rubbish = rubbish(random);
        let words = self.words.lend(table.words.len(), rubbish);
        words.copy_from_slice(&columns_of(&table.words));
        let text = self.text.lend(table.text.len(), rubbish as u8);
        text.copy_from_slice(&table.text);
        let output = self.library.lend(room, rubbish as u8);
        let by_library = library::write(words, table.rows, text, limit, output);
        let output = self.second.lend(room, !rubbish as u8);
        let by_second = both::write(&table.words, table.rows, &table.text, limit, output);
        let by_second = reported(by_second);
        if let Some(difference) = self.difference(table, by_library, by_second) {
            let text = hex::encode(&table.text);
            return Err(format!(
                "writing differs: {difference}\n\
                 table {words:?}\n\
                 rows {rows}\n\
                 text {text}\n\
                 output of {room} bytes, limit {limit:?}\n\
                 library {by_library:?}\n\
                 second  {by_second:?}",
                words = table.words,
                rows = table.rows,
            ));
        }
        Ok(by_library.number)
    }

    fn difference(&self, table: &Table, library: Written, second: Written) -> Option<String> {
        if library != second {
            return Some("the answers".into());
        }
        let (written, by_second) = (self.library.content(), self.second.content());
        if written != by_second {
            let mut pairs = written.iter().zip(by_second);
            let at = pairs.position(|(library, second)| library != second)?;
            let (library, second) = (written[at], by_second[at]);
            return Some(format!(
                "byte {at} is {library} by the library, {second} by the second"
            ));
        }
        if !self.library.is_whole() {
            return Some("the library wrote outside the output".into());
        }
        let table_is_whole =
            self.words.content() == columns_of(&table.words) && self.words.is_whole();
        if !table_is_whole || self.text.content() != table.text || !self.text.is_whole() {
            return Some("the library wrote to the table or the text".into());
        }
        None
    }

    /// Messages with positions used again, written: the last one's form is too
    /// long.
    pub fn papers(&mut self, run: &mut Run) -> Compared {
        for (texts, length) in papers::USED_AGAIN {
            let table = read_table(papers::positions_used_again(texts, length));
            let need = self.need(&mut run.random, &table);
            for room in [need, need.saturating_sub(1), 2 * BYTE_LIMIT] {
                self.call(run, &table, room)?;
            }
        }
        Ok(())
    }

    /// A generated table, good or not, with several outputs.
    pub fn round(&mut self, run: &mut Run) -> Compared {
        let table = match run.random.below(4_000) {
            0 => overlapping(&mut run.random),
            1..200 => gathered_table(&mut run.random),
            200..1_200 => at_the_edges(&mut run.random),
            _ => table(&mut run.random),
        };
        let need = self.need(&mut run.random, &table);
        for _ in 0..2 {
            let room = output_length(&mut run.random, need);
            self.call(run, &table, room)?;
        }
        self.call(run, &table, need)?;
        match run.random.below(150) {
            0 => self.every_word(run),
            1 => self.every_length(run),
            2 => self.every_number_of_rows(run),
            _ => Ok(()),
        }
    }

    /// How many bytes a table needs; a few, if it is refused.
    fn need(&mut self, random: &mut Random, table: &Table) -> usize {
        let (words, rows, text) = (&table.words, table.rows, &table.text);
        match write_at::<ByRows>(words, rows, text, HIGHEST, &mut self.wide) {
            Write::Accepted { length } => length,
            Write::Refused { .. } => random.below(100),
        }
    }

    /// A small table with each of its words damaged in several ways.
    fn every_word(&mut self, run: &mut Run) -> Compared {
        let good = few_strings(&mut run.random, 4);
        let mut table = good.clone();
        for (place, &word) in good.words.iter().enumerate() {
            let offset = good.words[place / ROW_WORDS * ROW_WORDS + 1];
            let near = [word.wrapping_sub(1), word.wrapping_add(1)];
            let wrapping = [word ^ 1 << 16, word ^ 1 << 31];
            let far = [0, 1, 2, 1 << 31, u32::MAX, u32::MAX - offset, 1 << 30];
            let kinds = 3..if place % ROW_WORDS == 0 { 14 } else { 3 };
            for value in near.into_iter().chain(wrapping).chain(far).chain(kinds) {
                table.words[place] = value;
                self.call(run, &table, 300)?;
            }
            table.words[place] = word;
        }
        Ok(())
    }

    /// A small table with outputs of every length up to the need and over.
    fn every_length(&mut self, run: &mut Run) -> Compared {
        let table = few_strings(&mut run.random, 4);
        let need = self.need(&mut run.random, &table);
        for room in 0..need + 4 {
            self.call(run, &table, room)?;
        }
        Ok(())
    }

    /// A small table with every stated number of rows, and those that tempt to
    /// overflow.
    fn every_number_of_rows(&mut self, run: &mut Run) -> Compared {
        let mut table = few_strings(&mut run.random, 4);
        let beside = [ROW_LIMIT, ROW_LIMIT + 1, usize::MAX];
        let wrapping = [1 << 32, 1 << 62, 1 << 63].map(|far| far + table.rows);
        let all = (0..table.rows + 3).chain(beside).chain(wrapping);
        for rows in all {
            table.rows = rows;
            self.call(run, &table, 300)?;
        }
        Ok(())
    }
}

/// The table that reading a message gives, with the message as text bytes.
pub fn read_table(text: Vec<u8>) -> Table {
    let mut words = vec![0; ROW_LIMIT * ROW_WORDS];
    let rows = match read_at::<ByRows>(&text, &mut words, HIGHEST) {
        Read::Accepted { rows, .. } => rows,
        Read::Refused { .. } => 0,
    };
    words.truncate(rows * ROW_WORDS);
    Table { words, rows, text }
}

/// Many long texts that lie in the same bytes and begin alike.
fn overlapping(random: &mut Random) -> Table {
    let count = random.between(500, 4_000);
    let length = *random.pick(&[10, 1_000, 16_000, 60_000]);
    let mut text = vec![b'a'; 65_000];
    if random.one_in(2) {
        let place = random.below(text.len());
        text[place] = b'b';
    }
    let end = count as u32 + 2;
    let mut words = vec![kind::RESPONSE, 0, 1, end, kind::ARRAY, 0, count as u32, end];
    for row in 0..count as u32 {
        let offset = random.below(text.len() - length) as u32;
        words.extend([kind::STRING, offset, length as u32, row + 3]);
    }
    Table {
        words,
        rows: count + 2,
        text,
    }
}

/// The second implementation's answer, with document 01's zeros.
pub fn reported(answer: Write) -> Written {
    match answer {
        Write::Accepted { length } => Written { number: 0, length },
        Write::Refused { number } => Written { number, length: 0 },
    }
}
