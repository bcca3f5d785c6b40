//! Indexes of members, and keys looked up through lists, by the library and by
//! the second implementation: lists that filling made, and foreign ones. Of a
//! foreign list the papers leave the answer free; it is held to what they
//! allow.

use crate::both;
use crate::gather::gathered_table;
use crate::lent::{Lent, rubbish};
use crate::library;
use crate::lookup::reported;
use crate::reading::Compared;
use crate::tally::Run;
use binmode::sys::{Entry, Report};
use second::generate::{Random, Table, damage, key, row, structs, table};
use second::hex;
use second::index;
use second::layout::columns_of;
use second::rules::ROW_WORDS;

pub struct Indexes {
    words: Lent<u32>,
    text: Lent<u8>,
    list: Lent<Entry>,
    keys: Lent<u8>,
    ends: Lent<u32>,
    reports: Lent<Report>,
}

fn entry(key: u32, value: u32) -> Entry {
    Entry { key, value }
}

fn of_second(entry: &index::Entry) -> Entry {
    Entry {
        key: entry.key,
        value: entry.value,
    }
}

fn to_second(entry: &Entry) -> index::Entry {
    index::Entry {
        key: entry.key,
        value: entry.value,
    }
}

/// A report of rubbish.
fn report(rubbish: u32) -> Report {
    Report {
        refusal: rubbish as u8,
        sort: rubbish as u8,
        number: rubbish.into(),
        decimal: f64::from(rubbish),
        offset: rubbish as usize,
        length: rubbish as usize,
    }
}

impl Indexes {
    pub fn new() -> Self {
        Indexes {
            words: Lent::new(0),
            text: Lent::new(0),
            list: Lent::new(entry(0, 0)),
            keys: Lent::new(0),
            ends: Lent::new(0),
            reports: Lent::new(report(0)),
        }
    }

    fn lend(&mut self, rubbish: u32, table: &Table) {
        let words = self.words.lend(table.words.len(), rubbish);
        words.copy_from_slice(&columns_of(&table.words));
        let text = self.text.lend(table.text.len(), rubbish as u8);
        text.copy_from_slice(&table.text);
    }

    fn is_untouched(&self, table: &Table) -> bool {
        let same =
            self.words.content() == columns_of(&table.words) && self.text.content() == table.text;
        same && self.words.is_whole() && self.text.is_whole()
    }

    /// A list filled by both; gives the library's answer and the list.
    fn fill(
        &mut self,
        random: &mut Random,
        table: &Table,
        row: usize,
        length: usize,
    ) -> Result<(u8, Vec<Entry>), String> {
        let rubbish = rubbish(random);
        self.lend(rubbish, table);
        let list = self.list.lend(length, entry(rubbish, !rubbish));
        let (words, text) = (self.words.content(), self.text.content());
        let number = library::index_fill(words, table.rows, text, row, list);
        let by_second = both::fill(&table.words, table.rows, &table.text, row, length);
        let (refusal, entries) = match &by_second {
            Ok(list) => (0, list.iter().map(of_second).collect()),
            Err(refusal) => (*refusal, vec![entry(0, 0); length]),
        };
        let whole = self.list.is_whole() && self.is_untouched(table);
        if number == refusal && self.list.content() == entries && whole {
            return Ok((number, entries));
        }
        Err(format!(
            "filling an index differs, or what was lent was changed\n{}\nrow {row}, {length} entries\nlibrary {number} {:?}\nsecond {by_second:?}",
            shown(table),
            self.list.content(),
        ))
    }

    /// Keys looked up through a list; gives each report's number.
    fn find(
        &mut self,
        random: &mut Random,
        table: &Table,
        row: usize,
        list: &[Entry],
        keys: &[Vec<u8>],
    ) -> Result<Vec<u8>, String> {
        let rubbish = rubbish(random);
        self.lend(rubbish, table);
        self.list
            .lend(list.len(), entry(rubbish, !rubbish))
            .copy_from_slice(list);
        let joined = keys.concat();
        self.keys
            .lend(joined.len(), rubbish as u8)
            .copy_from_slice(&joined);
        let ends = self.ends.lend(keys.len(), rubbish);
        let mut end = 0;
        for (place, key) in ends.iter_mut().zip(keys) {
            end += key.len() as u32;
            *place = end;
        }
        let reports = self.reports.lend(keys.len(), report(rubbish));
        let number = library::index_find(
            self.words.content(),
            table.rows,
            self.text.content(),
            row,
            self.list.content(),
            self.keys.content(),
            self.ends.content(),
            reports,
        );
        let whole = self.is_untouched(table)
            && self.list.content() == list
            && self.list.is_whole()
            && self.keys.content() == joined
            && self.keys.is_whole()
            && self.ends.is_whole()
            && self.reports.is_whole();
        let entries: Vec<index::Entry> = list.iter().map(to_second).collect();
        let (text, rows) = (&table.text[..], table.rows);
        let mut numbers = Vec::new();
        for (key, &report) in keys.iter().zip(self.reports.content()) {
            let allowed = both::allowed(&table.words, rows, text, row, &entries, key);
            let given = library::looked(report);
            let front = allowed.front.map(reported);
            let absent = reported(Err(18));
            let fine = front == Some(given) || (allowed.absent && given == absent);
            let judged = (given.refusal == 11) == (number == 11);
            if !(fine && judged && whole) {
                return Err(format!(
                    "looking up through a list differs, or what was lent was changed\n{}\nrow {row}, key {}, list {list:?}\nlibrary {number} {given:?}\nfront {front:?}, or absent: {}",
                    shown(table),
                    hex::encode(key),
                    allowed.absent,
                ));
            }
            numbers.push(given.refusal);
        }
        Ok(numbers)
    }

    /// A generated table, good or not; lists of several lengths; the filled
    /// list, and foreign ones.
    pub fn round(&mut self, run: &mut Run) -> Compared {
        let random = &mut run.random;
        let mut table = match random.below(60) {
            0 => gathered_table(random),
            1..6 => table(random),
            _ => structs(random),
        };
        if random.one_in(8) {
            damage(random, &mut table);
        }
        let row = row(random, &table);
        let count = members(&table, row);
        let length = match random.below(6) {
            0 => count.saturating_sub(1),
            1 => count,
            2 => random.below(4),
            _ => count + random.below(5),
        };
        let (number, filled) = self.fill(random, &table, row, length)?;
        run.tally.filled(number);
        for list in [filled.clone(), foreign(&mut run.random, &table, filled)] {
            let random = &mut run.random;
            let keys: Vec<Vec<u8>> = (0..random.below(6))
                .map(|_| key(random, &table, row))
                .collect();
            for number in self.find(random, &table, row, &list, &keys)? {
                if !run.tally.is_over() {
                    run.tally.found(number);
                }
            }
        }
        Ok(())
    }
}

/// The pairs that a row states, if it is there; few enough to lend entries for.
fn members(table: &Table, row: usize) -> usize {
    let (rows, _) = table.words.as_chunks::<ROW_WORDS>();
    rows.get(row).map_or(0, |row| row[2].min(3000) as usize)
}

/// Another list: entries exchanged, one of another Struct or past the table,
/// wrong pairs, all zero, or rubbish.
fn foreign(random: &mut Random, table: &Table, mut list: Vec<Entry>) -> Vec<Entry> {
    let any = |random: &mut Random| random.below(table.rows.clamp(1, 5000) + 3) as u32;
    if list.is_empty() {
        list.push(entry(0, 0));
    }
    for _ in 0..random.between(1, 4) {
        let (one, other) = (random.below(list.len()), random.below(list.len()));
        match random.below(7) {
            0 => list.swap(one, other),
            1 => {
                let key = any(random);
                list[one] = entry(key, key + 1);
            }
            2 => list[one] = entry(any(random), any(random)),
            3 => list[one].value = list[other].value,
            4 => list[one] = entry(random.word() as u32, random.word() as u32),
            5 => list.fill(entry(0, 0)),
            _ => list.rotate_left(1),
        }
    }
    list
}

fn shown(table: &Table) -> String {
    let text = hex::encode(&table.text);
    format!("table {:?}\nrows {}\ntext {text}", table.words, table.rows)
}
