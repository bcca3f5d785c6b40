//! Job files, by the library and by the second implementation: their cards by
//! number, and from one to the next.

use crate::both;
use crate::lent::{Lent, rubbish};
use crate::library::{self, CardAnswer, CardFound};
use crate::reading::Compared;
use crate::tally::Run;
use second::generate::{Random, message, table_words, valid};
use second::hex;
use second::job::{Card, Job, record};

/// Files up to here are cut at every byte.
const SMALL: usize = 700;

pub struct Jobs {
    file: Lent<u8>,
    library: Lent<u32>,
    second: Lent<u32>,
}

impl Jobs {
    pub fn new() -> Self {
        Jobs {
            file: Lent::new(0),
            library: Lent::new(0),
            second: Lent::new(0),
        }
    }

    /// One call of each, with this file, card number and number of words.
    fn call(&mut self, run: &mut Run, file: &[u8], number: usize, words: usize) -> Compared {
        if run.tally.is_over() {
            return Ok(());
        }
        let rubbish = rubbish(&mut run.random);
        let given = self.file.lend(file.len(), rubbish as u8);
        given.copy_from_slice(file);
        let by_library = library::read_card(given, number, self.library.lend(words, rubbish));
        let table = self.second.lend(words, !rubbish);
        let by_second = reported(both::read_card(file, number, table));
        if let Some(difference) = self.difference(file, by_library, by_second) {
            let file = hex::encode(file);
            return Err(format!(
                "reading a card differs: {difference}\n\
                 file {file}\n\
                 card {number}, table of {words} words\n\
                 library {by_library:?}\n\
                 second  {by_second:?}"
            ));
        }
        run.tally.read_card(by_library.number);
        Ok(())
    }

    fn difference(&self, file: &[u8], library: CardAnswer, second: CardAnswer) -> Option<&str> {
        if library != second {
            return Some("the answers");
        }
        if self.library.content() != self.second.content() {
            return Some("the tables");
        }
        if !self.library.is_whole() {
            return Some("the library wrote outside the table");
        }
        if self.file.content() != file || !self.file.is_whole() {
            return Some("the library wrote to the file");
        }
        None
    }

    /// Every number that is a card's, those around them, and a huge one.
    fn every_card(&mut self, run: &mut Run, file: &[u8]) -> Compared {
        self.walk(file)?;
        for number in 0..Job::new(file).cards.len() + 2 {
            let rows = run.random.below(40);
            let words = table_words(&mut run.random, rows);
            self.call(run, file, number, words)?;
        }
        let huge = usize::MAX - run.random.below(3);
        self.call(run, file, huge, 16)
    }

    /// From card to card, to the end of the job.
    fn walk(&self, file: &[u8]) -> Compared {
        let job = Job::new(file);
        let mut from = 0;
        for number in 0..=job.cards.len() {
            let by_second = match job.cards.get(number) {
                Some(&(start, body)) => CardFound {
                    number: 0,
                    start,
                    length: body.len(),
                    place: 0,
                },
                None => CardFound {
                    number: job.end.0,
                    start: 0,
                    length: 0,
                    place: job.end.1,
                },
            };
            let by_library = library::next_card(file, number, from);
            if by_library != by_second {
                let file = hex::encode(file);
                return Err(format!(
                    "the next card differs, from {from}\n\
                     file {file}\n\
                     library {by_library:?}\n\
                     second  {by_second:?}"
                ));
            }
            from = by_library.start + by_library.length;
        }
        is_wrapped_alike(file, &job)
            .then_some(())
            .ok_or_else(|| format!("the wrapper's cards differ\nfile {}", hex::encode(file)))
    }

    /// A small job, cut at every byte, and with each byte of its records' heads
    /// and of its count set to every value.
    pub fn edges(&mut self, run: &mut Run) -> Compared {
        let card = b"binmode-rpc:RI\x04\0\0\0";
        let records = [
            record(1, card),
            record(9, b"note"),
            record(1, b"binmode-rpc:R<\x02"),
            record(2, &2_u32.to_le_bytes()),
            record(1, card),
        ];
        let mut file = records.concat();
        self.every_card(run, &file)?;
        self.every_cut(run, &file)?;
        let mut start = 0;
        for (index, record) in records.iter().enumerate() {
            let fields = if index == 3 { 10 } else { 6 };
            for place in start..start + fields {
                let byte = file[place];
                for value in 0..=u8::MAX {
                    file[place] = value;
                    self.walk(&file)?;
                    for number in 0..4 {
                        self.call(run, &file, number, 16)?;
                    }
                }
                file[place] = byte;
            }
            start += record.len();
        }
        Ok(())
    }

    /// A generated job, and it damaged; now and then cut at every byte.
    pub fn round(&mut self, run: &mut Run) -> Compared {
        let records = records(&mut run.random);
        let file = records.concat();
        self.every_card(run, &file)?;
        for _ in 0..2 {
            let damaged = damaged(&mut run.random, &records);
            self.every_card(run, &damaged)?;
        }
        if file.len() < SMALL && run.random.one_in(30) {
            self.every_cut(run, &file)?;
        }
        Ok(())
    }

    fn every_cut(&mut self, run: &mut Run, file: &[u8]) -> Compared {
        for end in 0..file.len() {
            let cut = &file[..end];
            self.walk(cut)?;
            let cards = Job::new(cut).cards.len();
            for number in cards.saturating_sub(1)..=cards {
                self.call(run, cut, number, 64)?;
            }
        }
        Ok(())
    }
}

/// Cards, good and bad, with other kinds between them; the end, right or not;
/// and bytes behind it.
fn records(random: &mut Random) -> Vec<Vec<u8>> {
    let (mut records, mut cards) = (Vec::new(), 0);
    for _ in 0..random.below(9) {
        if random.one_in(4) {
            records.push(record(other_kind(random), &any_body(random)));
        } else {
            let body = match random.below(3) {
                0 => message(random),
                _ => valid(random),
            };
            records.push(record(1, &body));
            cards += 1;
        }
    }
    match random.below(8) {
        0 => {}
        1 => {
            let count = cards + random.below(3) as u32;
            records.push(record(2, &count.wrapping_sub(1).to_le_bytes()));
        }
        2 => {
            let length = random.below(8);
            records.push(record(2, &random.bytes(length)));
        }
        _ => records.push(record(2, &cards.to_le_bytes())),
    }
    if random.one_in(3) {
        records.push(any_body(random));
    }
    records
}

/// A kind that is neither a card's nor the end's, often one that has a byte
/// of theirs.
fn other_kind(random: &mut Random) -> u16 {
    match random.below(3) {
        0 => *random.pick(&[0, 3, 256, 257, 258, 512, 513, 0xff01, 0xff02, 0xffff]),
        _ => random.between(3, 65_535) as u16,
    }
}

fn any_body(random: &mut Random) -> Vec<u8> {
    match random.below(4) {
        0 => Vec::new(),
        1 => record(1, &valid(random)),
        2 => message(random),
        _ => {
            let length = random.below(40);
            random.bytes(length)
        }
    }
}

/// The file with one record's length or kind changed, a record left out or
/// doubled, or one byte changed anywhere.
fn damaged(random: &mut Random, records: &[Vec<u8>]) -> Vec<u8> {
    let mut records = records.to_vec();
    if records.is_empty() {
        let length = random.below(12);
        return random.bytes(length);
    }
    let at = random.below(records.len());
    match random.below(5) {
        0 => drop(records.remove(at)),
        1 => records.insert(at, records[at].clone()),
        2 => change_length(random, &mut records[at]),
        3 => {
            if let Some(kind) = records[at].get_mut(4) {
                *kind = random.below(4) as u8;
            }
        }
        _ => {
            let length = records[at].len().max(1);
            if let Some(byte) = records[at].get_mut(random.below(length)) {
                *byte = random.byte();
            }
        }
    }
    records.concat()
}

/// Off by a little, or so large that the body runs far past any file.
fn change_length(random: &mut Random, record: &mut [u8]) {
    let Some(field) = record.first_chunk_mut::<4>() else {
        return;
    };
    let length = u32::from_le_bytes(*field);
    let changed = match random.below(4) {
        0 => length.wrapping_add(1),
        1 => length.wrapping_sub(1),
        2 => length.wrapping_add(random.below(60) as u32),
        _ => u32::MAX - random.below(8) as u32,
    };
    *field = changed.to_le_bytes();
}

/// The second implementation's answer, with document 02's zeros.
/// Whether the Rust wrapper's cards are those of the second implementation,
/// and it ends with the same refusal, if it is one.
fn is_wrapped_alike(file: &[u8], job: &Job) -> bool {
    let mut cards = binmode::Job::new(file).cards();
    let same = (0..).zip(&job.cards).all(|(number, &(start, bytes))| {
        cards.next()
            == Some(Ok(binmode::Card {
                number,
                start,
                bytes,
            }))
    });
    let end = match cards.next() {
        None => job.is_sound(),
        Some(Err(refusal)) => (refusal.reason.number(), refusal.place) == job.end,
        Some(Ok(_)) => false,
    };
    same && end && cards.next().is_none()
}

pub fn reported(answer: Card) -> CardAnswer {
    match answer {
        Card::Accepted { rows, used, body } => CardAnswer {
            number: 0,
            rows,
            used,
            place: 0,
            body,
        },
        Card::Refused { number, place } => CardAnswer {
            number,
            rows: 0,
            used: 0,
            place,
            body: 0,
        },
    }
}
