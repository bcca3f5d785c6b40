//! Reading, by the library and by the second implementation.

use crate::both;
use crate::change::changed;
use crate::gather::gathered;
use crate::lent::{Lent, rubbish};
use crate::library::{self, Answer, Limit};
use crate::limits::{HIGHEST, any_limit, no_lower, read_at};
use crate::tally::Run;
use binmode::{MOST_BYTES, USUAL_NESTING};
use second::generate::{BAD_TEXTS, Random, message, table_words};
use second::layout::{Layout, Rows};
use second::rules::{NESTING_LIMIT, PREFIX, ROW_LIMIT, ROW_WORDS};
use second::{ByColumns, ByRows, Read, hex, papers};

/// A comparison that failed, in words.
pub type Compared = Result<(), String>;

/// Messages up to here are cut everywhere and changed everywhere.
const SMALL: usize = 160;

pub struct Reading {
    message: Lent<u8>,
    library: Lent<u32>,
    second: Lent<u32>,
    wide: Vec<u32>,
}

impl Reading {
    pub fn new() -> Self {
        Reading {
            message: Lent::new(0),
            library: Lent::new(0),
            second: Lent::new(0),
            wide: vec![0; ROW_LIMIT * ROW_WORDS],
        }
    }

    /// One call of each, if any are left, with this message, a table of so many
    /// words and any limit of nesting; now and then, what is said of a higher
    /// limit and a larger table.
    fn call(&mut self, run: &mut Run, message: &[u8], words: usize) -> Compared {
        let limit = any_limit(&mut run.random);
        if run.random.one_in(6) {
            return self.grown(run, message, words, limit);
        }
        if !run.tally.is_over() {
            let answer = self.compare(&mut run.random, message, words, limit)?;
            run.tally.read(answer.number);
        }
        Ok(())
    }

    /// One call of each; then another, with a limit that is no lower and a table
    /// that is no smaller: an answer other than 8, 9, 22 and 23 stays, with its
    /// place and rows.
    pub fn grown(&mut self, run: &mut Run, message: &[u8], words: usize, limit: Limit) -> Compared {
        if run.tally.is_over() {
            return Ok(());
        }
        let before = self.compare(&mut run.random, message, words, limit)?;
        run.tally.read(before.number);
        if matches!(before.number, 8 | 9 | 22 | 23) || run.tally.is_over() {
            return Ok(());
        }
        let rows = rows_of(self.library.content(), before.rows);
        let higher = no_lower(&mut run.random, limit);
        let larger = words + run.random.below(40);
        let after = self.compare(&mut run.random, message, larger, higher)?;
        run.tally.read(after.number);
        if after == before && rows_of(self.library.content(), after.rows) == rows {
            return Ok(());
        }
        let message = hex::encode(message);
        Err(format!(
            "an answer does not stay\n\
             message {message}\n\
             table of {words} words, limit {limit:?}: {before:?}\n\
             table of {larger} words, limit {higher:?}: {after:?}"
        ))
    }

    /// One call of each; gives the answer.
    pub fn compare(
        &mut self,
        random: &mut Random,
        message: &[u8],
        words: usize,
        limit: Limit,
    ) -> Result<Answer, String> {
        let rubbish = rubbish(random);
        let given = self.message.lend(message.len(), rubbish as u8);
        given.copy_from_slice(message);
        let by_library = library::read(given, self.library.lend(words, rubbish), limit);
        let table = self.second.lend(words, !rubbish);
        let by_second = reported(both::read(message, table, limit));
        if let Some(difference) = self.difference(message, by_library, by_second) {
            let message = hex::encode(message);
            return Err(format!(
                "reading differs: {difference}\n\
                 message {message}\n\
                 table of {words} words, limit {limit:?}\n\
                 library {by_library:?}\n\
                 second  {by_second:?}"
            ));
        }
        if random.one_in(8) && !self.is_wrapped_alike(message, words, limit, by_second) {
            let message = hex::encode(message);
            return Err(format!(
                "the wrapper differs\nmessage {message}\ntable of {words} words, limit {limit:?}\nsecond  {by_second:?}"
            ));
        }
        Ok(by_library)
    }

    /// Whether the Rust wrapper answers with the same numbers, and its items
    /// are the rows that the second implementation left.
    fn is_wrapped_alike(
        &mut self,
        message: &[u8],
        words: usize,
        limit: Limit,
        second: Answer,
    ) -> bool {
        let Answer {
            number,
            rows,
            used,
            place,
        } = second;
        let mut table = vec![0; words];
        let read = match limit {
            None => binmode::read(message, &mut table),
            Some(limit) => binmode::read_within(message, &mut table, limit),
        };
        match read {
            Ok(message) => {
                let all = ByColumns::rows(self.second.content()).all().take(rows);
                let counts = (message.rows(), message.bytes().len()) == (rows, used);
                let items = message.items().map(binmode::Item::words);
                number == 0 && counts && items.eq(all)
            }
            Err(refusal) => (refusal.reason.number(), refusal.place) == (number, place),
        }
    }

    fn difference(&self, message: &[u8], library: Answer, second: Answer) -> Option<String> {
        if library != second {
            return Some("the answers".into());
        }
        if self.library.content() != self.second.content() {
            let mut pairs = self.library.content().iter().zip(self.second.content());
            let at = pairs.position(|(library, second)| library != second)?;
            let (library, second) = (self.library.content()[at], self.second.content()[at]);
            return Some(format!(
                "word {at} is {library} by the library, {second} by the second"
            ));
        }
        if !self.library.is_whole() {
            return Some("the library wrote outside the table".into());
        }
        if self.message.content() != message || !self.message.is_whole() {
            return Some("the library wrote to the message".into());
        }
        None
    }

    /// The papers' messages, with tables of every small size and the largest.
    pub fn papers(&mut self, run: &mut Run) -> Compared {
        let whole = papers::ALL.iter().map(|(line, _)| papers::bytes_of(line));
        let edges = papers::EDGES
            .iter()
            .map(|(rest, ..)| [PREFIX, *rest].concat());
        let again = papers::USED_AGAIN
            .iter()
            .map(|&(texts, length)| papers::positions_used_again(texts, length));
        for message in whole.chain(edges).chain(again) {
            for words in (0..=60).chain([16_383, 16_384, 20_000]) {
                self.call(run, &message, words)?;
            }
        }
        Ok(())
    }

    /// Each sort of bad text by itself, and nesting at the usual and at the
    /// highest limit with tables of every size around the need.
    pub fn edges(&mut self, run: &mut Run) -> Compared {
        for text in BAD_TEXTS {
            for head in [&b"RU"[..], b"R>\0", b"RD", b"CU"] {
                let length = (text.len() as u32).to_le_bytes();
                let size = if head == b"RD" { 1 } else { 4 };
                let message = [PREFIX, head, &length[..size], text].concat();
                self.call(run, &message, 16)?;
            }
        }
        let usual = USUAL_NESTING - 1..=USUAL_NESTING + 2;
        for levels in usual.chain(NESTING_LIMIT - 1..=NESTING_LIMIT + 2) {
            let message = [PREFIX, &b"R"[..], &b"A\x01\0\0\0".repeat(levels), b"t"].concat();
            for words in 0..ROW_WORDS * (levels + 4) {
                for limit in [None, HIGHEST] {
                    self.grown(run, &message, words, limit)?;
                }
            }
        }
        Ok(())
    }

    /// A generated message, good or not, and it changed.
    pub fn round(&mut self, run: &mut Run) -> Compared {
        let message = match run.random.below(15) {
            0 => gathered(&mut run.random),
            _ => message(&mut run.random),
        };
        let need = self.need(&mut run.random, &message);
        let words = table_words(&mut run.random, need);
        self.call(run, &message, words)?;
        let words = random_words(&mut run.random);
        self.call(run, &message, words)?;
        for _ in 0..2 {
            let changed = changed(&mut run.random, &message);
            let words = match run.random.below(4) {
                0 => random_words(&mut run.random),
                _ => 4 * need + run.random.below(9),
            };
            self.call(run, &changed, words)?;
        }
        match run.random.below(150) {
            0 => self.every_cut(run, &message, need),
            1 => self.every_byte(run, &message, need),
            2 => self.every_size(run, &message, need),
            _ => Ok(()),
        }
    }

    /// How many rows a message needs; a few, if it is refused.
    fn need(&mut self, random: &mut Random, message: &[u8]) -> usize {
        match read_at::<ByRows>(message, &mut self.wide, HIGHEST) {
            Read::Accepted { rows, .. } => rows,
            Read::Refused { .. } => random.below(50),
        }
    }

    fn every_cut(&mut self, run: &mut Run, message: &[u8], need: usize) -> Compared {
        for end in 0..message.len().min(SMALL) {
            self.call(run, &message[..end], ROW_WORDS * need)?;
        }
        Ok(())
    }

    fn every_byte(&mut self, run: &mut Run, message: &[u8], need: usize) -> Compared {
        let mut bytes = message.to_vec();
        for place in 0..message.len().min(SMALL) {
            bytes[place] = match run.random.below(3) {
                0 => message[place].wrapping_add(1),
                1 => message[place] ^ 0x80,
                _ => run.random.byte(),
            };
            self.call(run, &bytes, ROW_WORDS * need)?;
            bytes[place] = message[place];
        }
        Ok(())
    }

    /// Tables of every size up to the need and a row over.
    fn every_size(&mut self, run: &mut Run, message: &[u8], need: usize) -> Compared {
        if message.len() > MOST_BYTES / 64 {
            return Ok(());
        }
        for words in 0..ROW_WORDS * (need + 1) {
            self.call(run, message, words)?;
        }
        Ok(())
    }
}

/// The rows that stand in a table, each by its four words.
pub fn rows_of(words: &[u32], rows: usize) -> Vec<[u32; ROW_WORDS]> {
    let text = b"";
    let table = binmode::Table { words, rows, text };
    table.items().map(binmode::Item::words).collect()
}

/// Of any size that is of interest.
fn random_words(random: &mut Random) -> usize {
    random.between(0, 20_000)
}

/// The second implementation's answer, with document 01's zeros.
pub fn reported(answer: Read) -> Answer {
    match answer {
        Read::Accepted { rows, used } => Answer {
            number: 0,
            rows,
            used,
            place: 0,
        },
        Read::Refused { number, place } => Answer {
            number,
            rows: 0,
            used: 0,
            place,
        },
    }
}
