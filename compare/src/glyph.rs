//! Messages of hyperglyph 1.0 and glyph 0.5, by the library and by the second
//! implementation: read into a table, and into a station's share of one.

use crate::both;
use crate::lent::{Lent, rubbish};
use crate::library::{self, Answer};
use crate::limits::{HUGE, any_limit, no_lower};
use crate::reading::{Compared, reported, rows_of};
use crate::station_calls::Whose;
use crate::stations::station_of;
use crate::tally::Run;
use second::generate::{Random, glyph_deep, glyph_message, table_words};
use second::glyph::{Edition, papers, read_within};
use second::layout::{Layout, Rows};
use second::rules::{NESTING_LIMIT, ROW_LIMIT, ROW_WORDS, USUAL_LIMIT};
use second::stations::{NOT_SPLIT, share_mut};
use second::{ByColumns, ByRows, Read, hex};

/// Messages up to here are cut everywhere and changed everywhere.
const SMALL: usize = 120;

pub struct Glyphs {
    message: Lent<u8>,
    library: Lent<u32>,
    second: Lent<u32>,
    wide: Vec<u32>,
}

impl Glyphs {
    pub fn new() -> Self {
        Glyphs {
            message: Lent::new(0),
            library: Lent::new(0),
            second: Lent::new(0),
            wide: vec![0; ROW_LIMIT * ROW_WORDS],
        }
    }

    /// Calls with this message, a table of so many words and any limit of
    /// nesting.
    fn call(&mut self, run: &mut Run, message: &[u8], words: usize, edition: Edition) -> Compared {
        let limit = any_limit(&mut run.random).unwrap_or(USUAL_LIMIT);
        self.call_at(run, message, words, edition, limit)
    }

    /// One call of each, if any are left; now and then, another with a limit
    /// that is no lower and a table that is no smaller: an answer other than 8,
    /// 9, 22 and 23 stays, with its place and rows.
    fn call_at(
        &mut self,
        run: &mut Run,
        message: &[u8],
        words: usize,
        edition: Edition,
        limit: usize,
    ) -> Compared {
        if run.tally.is_over() {
            return Ok(());
        }
        let before = self.compare(&mut run.random, message, words, edition, limit)?;
        run.tally.read_glyph(before.number);
        let may_change = matches!(before.number, 8 | 9 | 22 | 23);
        if may_change || run.tally.is_over() || !run.random.one_in(6) {
            return Ok(());
        }
        let rows = rows_of(self.library.content(), before.rows);
        let higher = no_lower(&mut run.random, Some(limit)).unwrap_or(limit);
        let larger = words + run.random.below(40);
        let after = self.compare(&mut run.random, message, larger, edition, higher)?;
        run.tally.read_glyph(after.number);
        if after == before && rows_of(self.library.content(), after.rows) == rows {
            return Ok(());
        }
        let message = hex::encode(message);
        Err(format!(
            "an answer does not stay\n\
             {edition:?} message {message}\n\
             table of {words} words, limit {limit}: {before:?}\n\
             table of {larger} words, limit {higher}: {after:?}"
        ))
    }

    /// One call of each; gives the answer.
    fn compare(
        &mut self,
        random: &mut Random,
        message: &[u8],
        words: usize,
        edition: Edition,
        limit: usize,
    ) -> Result<Answer, String> {
        let rubbish = rubbish(random);
        let given = self.message.lend(message.len(), rubbish as u8);
        given.copy_from_slice(message);
        let table = self.library.lend(words, rubbish);
        let by_library = library::read_glyph(given, table, edition, limit);
        let table = self.second.lend(words, !rubbish);
        let by_second = reported(both::read_glyph(message, table, edition, limit));
        let mut difference = self.difference(message, by_library, by_second);
        if difference.is_none()
            && random.one_in(8)
            && !self.is_wrapped_alike(message, words, edition, limit, by_second)
        {
            difference = Some("the wrapper");
        }
        match difference {
            None => Ok(by_library),
            Some(difference) => Err(format!(
                "reading {edition:?} differs: {difference}\n\
                 message {}\n\
                 table of {words} words, limit {limit}\n\
                 library {by_library:?}\n\
                 second  {by_second:?}",
                hex::encode(message)
            )),
        }
    }

    fn difference(&self, message: &[u8], library: Answer, second: Answer) -> Option<&'static str> {
        if library != second {
            return Some("the answers");
        }
        if self.library.content() != self.second.content() {
            return Some("the tables");
        }
        if !self.library.is_whole() {
            return Some("the library wrote outside the table");
        }
        if self.message.content() != message || !self.message.is_whole() {
            return Some("the library wrote to the message");
        }
        None
    }

    /// Whether the Rust wrapper answers with the same numbers, and its items
    /// are the rows that the second implementation left.
    fn is_wrapped_alike(
        &self,
        message: &[u8],
        words: usize,
        edition: Edition,
        limit: usize,
        second: Answer,
    ) -> bool {
        let mut table = vec![0; words];
        let read = match edition {
            Edition::Hyperglyph => binmode::read_hyperglyph(message, &mut table, limit),
            Edition::Glyph => binmode::read_glyph(message, &mut table, limit),
        };
        match read {
            Ok(message) => {
                let rows = ByColumns::rows(self.second.content());
                let rows = rows.all().take(second.rows);
                let counts = (message.rows(), message.bytes().len());
                let items = message.items().map(binmode::Item::words);
                second.number == 0 && counts == (second.rows, second.used) && items.eq(rows)
            }
            Err(refusal) => {
                let given = (refusal.reason.number(), refusal.place);
                given == (second.number, second.place)
            }
        }
    }

    /// A message read into a station's share of a table that is split behind
    /// so many rows, or into that of no station.
    fn at_station(
        &mut self,
        run: &mut Run,
        message: &[u8],
        edition: Edition,
        rows: usize,
    ) -> Compared {
        if run.tally.is_over() {
            return Ok(());
        }
        let limit = any_limit(&mut run.random).unwrap_or(USUAL_LIMIT);
        let split = if run.random.one_in(12) { 0 } else { rows };
        let station = *run.random.pick(&[4, 4, 4, 5, 5, 5, 6]);
        let whose = Whose { split, station };
        let behind = match station {
            5 => rows,
            _ => run.random.below(4),
        };
        let words = ROW_WORDS * (rows + behind) + run.random.below(ROW_WORDS);
        let rubbish = rubbish(&mut run.random);
        let table = self.library.lend(words, rubbish);
        let by_library = whose.read_glyph(message, table, edition, limit);
        let table = self.second.lend(words, rubbish);
        let share = station_of(station).ok_or(NOT_SPLIT);
        let by_second = match share.and_then(|station| share_mut(table, split, station)) {
            Ok(share) => reported(both::read_glyph(message, share, edition, limit)),
            Err(number) => reported(Read::Refused { number, place: 0 }),
        };
        run.tally.at_station(by_library.number);
        let same_table = self.library.content() == self.second.content();
        if by_library == by_second && same_table && self.library.is_whole() {
            return Ok(());
        }
        Err(format!(
            "reading {edition:?} for a station differs\n\
             message {}\n\
             {whose:?}, table of {words} words, limit {limit}\n\
             library {by_library:?}\n\
             second  {by_second:?}",
            hex::encode(message)
        ))
    }

    /// The papers' messages, with tables of every small size and the largest.
    pub fn papers(&mut self, run: &mut Run) -> Compared {
        let alike = [papers::EXAMPLES, papers::OLD_EXAMPLES, papers::DECIDED].concat();
        let alike = alike.iter().map(|&(message, _)| message);
        let apart = papers::DECIDED_APART.iter();
        for message in alike.chain(apart.map(|&(message, ..)| message)) {
            for edition in Edition::BOTH {
                for words in (0..=48).chain([16_383, 16_384, 20_000]) {
                    self.call(run, message, words, edition)?;
                }
                for rows in 1..6 {
                    self.at_station(run, message, edition, rows)?;
                }
            }
        }
        Ok(())
    }

    /// Every message of up to three of these bytes.
    pub fn short(&mut self, run: &mut Run) -> Compared {
        const BYTES: &[u8] = b"iubTNLDOXH;:019-+ x\xff";
        let mut messages = vec![Vec::new()];
        for length in 0..3 {
            let shorter = messages.iter().filter(|message| message.len() == length);
            let longer: Vec<Vec<u8>> = shorter
                .flat_map(|message| BYTES.iter().map(|&byte| [&message[..], &[byte]].concat()))
                .collect();
            messages.extend(longer);
        }
        for message in &messages {
            for edition in Edition::BOTH {
                self.call_at(run, message, 16, edition, NESTING_LIMIT)?;
            }
        }
        Ok(())
    }

    /// Every byte behind each beginning after which something else is due, and
    /// with what follows.
    pub fn every_byte_behind(&mut self, run: &mut Run) -> Compared {
        const AROUND: [(&[u8], &[u8]); 22] = [
            (b"", b""),
            (b"", b"T;"),
            (b"T", b""),
            (b"T", b";"),
            (b"T;", b""),
            (b"i", b"1;"),
            (b"i", b";"),
            (b"i-", b";"),
            (b"i1", b";"),
            (b"u", b";"),
            (b"b1", b"a;"),
            (b"u1:", b";"),
            (b"u1:a", b";"),
            (b"L", b";"),
            (b"L", b";;"),
            (b"LT;", b";"),
            (b"D", b"u;T;;"),
            (b"Du;", b"T;;"),
            (b"Xu;", b";N;;"),
            (b"Xu;D;", b";;"),
            (b"Xu;D;N;", b";"),
            (b"Hu;", b"D;N;;"),
        ];
        for (before, behind) in AROUND {
            for byte in 0..=u8::MAX {
                let message = [before, &[byte], behind].concat();
                for edition in Edition::BOTH {
                    self.call_at(run, &message, 64, edition, NESTING_LIMIT)?;
                }
            }
        }
        Ok(())
    }

    /// Numbers around powers of two and ten, as integers and as lengths.
    pub fn numbers(&mut self, run: &mut Run) -> Compared {
        let powers = [0, 8, 16, 31, 32, 33, 63, 64, 65, 96].map(|power| 1_u128 << power);
        let tens = (0..39).map(|power| 10_u128.pow(power));
        for number in powers.into_iter().chain(tens) {
            for number in number - 1..=number + 1 {
                for head in ["i", "i-", "i+", "i-000", "i00000000000", "u", "b", "u00"] {
                    for tail in ["", ";", ":", ":;", "x"] {
                        let message = format!(" {head}{number}{tail}").into_bytes();
                        let edition = *run.random.pick(&Edition::BOTH);
                        self.call_at(run, &message, 8, edition, 1)?;
                    }
                }
            }
        }
        Ok(())
    }

    /// Every limit from 0 to 40, and huge ones, with messages that are nested
    /// one level less deep, as deep and one deeper.
    pub fn every_limit(&mut self, run: &mut Run) -> Compared {
        for limit in (0..=40).chain(HUGE) {
            let about = limit.min(40);
            for levels in about.saturating_sub(1)..=about + 1 {
                for edition in Edition::BOTH {
                    let message = glyph_deep(&mut run.random, edition, levels);
                    let need = self.need(&mut run.random, &message, edition);
                    for rows in [need, need.saturating_sub(1), need + 1] {
                        self.call_at(run, &message, ROW_WORDS * rows, edition, limit)?;
                    }
                }
            }
        }
        Ok(())
    }

    /// A generated message, good or not, read as one of its edition and now
    /// and then of the other.
    pub fn round(&mut self, run: &mut Run) -> Compared {
        let edition = *run.random.pick(&Edition::BOTH);
        let message = glyph_message(&mut run.random, edition);
        let edition = match run.random.one_in(6) {
            true => *run.random.pick(&Edition::BOTH),
            false => edition,
        };
        let need = self.need(&mut run.random, &message, edition);
        let words = table_words(&mut run.random, need);
        self.call(run, &message, words, edition)?;
        let words = ROW_WORDS * need + run.random.below(9);
        self.call(run, &message, words, edition)?;
        let rows = (need + run.random.below(3)).max(1);
        self.at_station(run, &message, edition, rows)?;
        match run.random.below(60) {
            0 => self.every_cut(run, &message, need, edition),
            1 => self.every_byte(run, &message, need, edition),
            2 => self.every_size(run, &message, need, edition),
            _ => Ok(()),
        }
    }

    /// How many rows a message needs; a few, if it is refused.
    fn need(&mut self, random: &mut Random, message: &[u8], edition: Edition) -> usize {
        match read_within::<ByRows>(message, &mut self.wide, edition, NESTING_LIMIT) {
            Read::Accepted { rows, .. } => rows,
            Read::Refused { .. } => random.below(50),
        }
    }

    fn every_cut(
        &mut self,
        run: &mut Run,
        message: &[u8],
        need: usize,
        edition: Edition,
    ) -> Compared {
        for end in 0..message.len().min(SMALL) {
            self.call(run, &message[..end], ROW_WORDS * need, edition)?;
        }
        Ok(())
    }

    fn every_byte(
        &mut self,
        run: &mut Run,
        message: &[u8],
        need: usize,
        edition: Edition,
    ) -> Compared {
        let mut bytes = message.to_vec();
        for place in 0..message.len().min(SMALL) {
            bytes[place] = match run.random.below(4) {
                0 => message[place].wrapping_add(1),
                1 => message[place] ^ 0x80,
                2 => b';',
                _ => run.random.byte(),
            };
            self.call(run, &bytes, ROW_WORDS * need, edition)?;
            bytes[place] = message[place];
        }
        Ok(())
    }

    /// Tables of every size up to the need and a row over.
    fn every_size(
        &mut self,
        run: &mut Run,
        message: &[u8],
        need: usize,
        edition: Edition,
    ) -> Compared {
        if need > SMALL {
            return Ok(());
        }
        for words in 0..ROW_WORDS * (need + 1) {
            self.call(run, message, words, edition)?;
        }
        Ok(())
    }
}
