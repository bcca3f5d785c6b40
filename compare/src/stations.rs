//! Stations four and five in turns on one table, by the library and by the
//! second implementation.

use crate::both;
use crate::lent::{Lent, rubbish};
use crate::library::{Answer, CardAnswer, Limit, Written};
use crate::limits::{any_limit, end_at, next_at};
use crate::reading::Compared;
use crate::state::{self, State};
use crate::station_calls::{Lying, Whose};
use crate::tally::Run;
use crate::{job, lookup, plans, reading, writing};
use second::generate::{Random, Table, card, key, message, row, valid};
use second::layout::{columns_of, rows_of};
use second::lookup::Position;
use second::pieces::Pieces;
use second::rules::{BYTE_LIMIT, PREFIX, ROW_LIMIT, ROW_WORDS};
use second::stations::{NOT_SPLIT, Station, share, share_mut};
use second::{hex, papers};

/// The station of a number, if it is one's.
pub fn station_of(number: u8) -> Option<Station> {
    match number {
        4 => Some(Station::Four),
        5 => Some(Station::Five),
        _ => None,
    }
}

/// What one station has in hand: a message in pieces, by both, and the room
/// for it; and what its share was last read from.
struct AtWork {
    state: State,
    pieces: Pieces,
    room: Lent<u8>,
    second_room: Vec<u8>,
    /// What is still to come of the message.
    to_come: Vec<u8>,
    /// The share was read into in between, so that the message can't go on.
    is_broken_off: bool,
    rows: usize,
    text: Vec<u8>,
    /// Of nesting, in all calls of a message in pieces.
    limit: Limit,
}

impl AtWork {
    fn new() -> Self {
        AtWork {
            state: state::start(0),
            pieces: Pieces::start(),
            room: Lent::new(0),
            second_room: Vec::new(),
            to_come: Vec::new(),
            is_broken_off: false,
            rows: 0,
            text: Vec::new(),
            limit: None,
        }
    }

    fn begin(&mut self, rubbish: u32, room: usize, message: Vec<u8>, limit: Limit) {
        self.limit = limit;
        self.state = state::start(rubbish);
        self.pieces = Pieces::start();
        self.room.lend(room, rubbish as u8);
        self.second_room = vec![rubbish as u8; room];
        self.to_come = message;
        self.is_broken_off = false;
    }
}

pub struct Stations {
    table: Lent<u32>,
    second: Vec<u32>,
    output: Lent<u8>,
    at_work: [AtWork; 2],
}

impl Stations {
    pub fn new() -> Self {
        Stations {
            table: Lent::new(0),
            second: Vec::new(),
            output: Lent::new(0),
            at_work: [AtWork::new(), AtWork::new()],
        }
    }

    /// One table for both, full of rubbish.
    fn lend(&mut self, words: usize, rubbish: u32) {
        self.table.lend(words, rubbish);
        self.second = vec![rubbish; words];
    }

    /// The share's words by the second implementation.
    fn share(&mut self, whose: Whose) -> Result<&mut [u32], u8> {
        let station = station_of(whose.station).ok_or(NOT_SPLIT)?;
        share_mut(&mut self.second, whose.split, station)
    }

    /// Whether every word of the table is as the second implementation has it,
    /// and all around it as it was.
    fn same_table(&self) -> bool {
        self.table.content() == self.second && self.table.is_whole()
    }

    fn read(&mut self, whose: Whose, message: &[u8], limit: Limit) -> Result<u8, String> {
        let by_library = whose.read(message, self.table.again(), limit);
        let by_second = match self.share(whose) {
            Ok(words) => reading::reported(both::read(message, words, limit)),
            Err(number) => Answer {
                number,
                rows: 0,
                used: 0,
                place: 0,
            },
        };
        if by_library == by_second && self.same_table() {
            if by_library.number == 0 {
                let work = &mut self.at_work[usize::from(whose.station == 5)];
                (work.rows, work.text) = (by_library.rows, message.to_vec());
            }
            return Ok(by_library.number);
        }
        let words = self.second.len();
        Err(format!(
            "reading for a station differs\n\
             message {}\n\
             {whose:?}, table of {words} words, limit {limit:?}\n\
             library {by_library:?}\n\
             second  {by_second:?}",
            hex::encode(message)
        ))
    }

    fn read_card(&mut self, whose: Whose, file: &[u8], number: usize) -> Result<u8, String> {
        let by_library = whose.read_card(file, number, self.table.again());
        let by_second = match self.share(whose) {
            Ok(words) => job::reported(both::read_card(file, number, words)),
            Err(number) => CardAnswer {
                number,
                rows: 0,
                used: 0,
                place: 0,
                body: 0,
            },
        };
        if by_library == by_second && self.same_table() {
            if by_library.number == 0 {
                let work = &mut self.at_work[usize::from(whose.station == 5)];
                let body = &file[by_library.body..][..by_library.used];
                (work.rows, work.text) = (by_library.rows, body.to_vec());
            }
            return Ok(by_library.number);
        }
        Err(format!(
            "reading card {number} for a station differs\n\
             file {}\n\
             {whose:?}\n\
             library {by_library:?}\n\
             second  {by_second:?}",
            hex::encode(file)
        ))
    }

    /// A piece of the message that the station has in hand, or its end if
    /// nothing is to come.
    fn piece(&mut self, whose: Whose, length: usize) -> Result<u8, String> {
        let at = usize::from(whose.station == 5);
        let mut work = std::mem::replace(&mut self.at_work[at], AtWork::new());
        let is_end = work.to_come.is_empty();
        let length = length.min(work.to_come.len());
        let piece: Vec<u8> = work.to_come.drain(..length).collect();
        let (before, limit) = (work.state, work.limit);
        let by_library = match is_end {
            true => {
                let room = work.room.content();
                whose.end(&mut work.state, room, self.table.again(), limit)
            }
            false => {
                let room = work.room.again();
                whose.next(&mut work.state, &piece, room, self.table.again(), limit)
            }
        };
        let by_second = self.share(whose).map(|words| match is_end {
            true => end_at(&mut work.pieces, &work.second_room, words, limit),
            false => {
                let room = &mut work.second_room;
                next_at(&mut work.pieces, &piece, room, words, limit)
            }
        });
        let same = match by_second {
            Ok(outcome) => {
                usize::from(by_library) == work.state.answer
                    && state::is(&work.state, outcome, work.pieces.held())
            }
            Err(number) => by_library == number && work.state == before,
        };
        let same_room = work.room.content() == work.second_room && work.room.is_whole();
        let difference = format!(
            "a piece for a station differs: {by_library} {:?}\n\
             second {by_second:?}\n\
             {whose:?}, piece {}, end {is_end}, limit {limit:?}",
            work.state,
            hex::encode(&piece)
        );
        if by_library == 0 {
            let State { rows, used, .. } = work.state;
            (work.rows, work.text) = (rows, work.second_room[..used].to_vec());
        }
        self.at_work[at] = work;
        match same && same_room && self.same_table() {
            true => Ok(by_library),
            false => Err(difference),
        }
    }

    /// Writes what the station read, now and then with a plan.
    fn write(&mut self, whose: Whose, random: &mut Random) -> Result<u8, String> {
        let work = &self.at_work[usize::from(whose.station == 5)];
        let (rows, text) = (work.rows, work.text.clone());
        let room = random.below(2 * text.len() + 20);
        let limit = any_limit(random);
        let plan = random.one_in(2).then(|| {
            let words = self.share(whose).map_or(Vec::new(), |words| rows_of(words));
            let text = text.clone();
            plans::any_plan(random, &Table { words, rows, text })
        });
        let rubbish = rubbish(random);
        self.write_at(whose, rubbish, rows, &text, plan.as_deref(), limit, room)
    }

    #[allow(clippy::too_many_arguments)] // the library's
    fn write_at(
        &mut self,
        whose: Whose,
        rubbish: u32,
        rows: usize,
        text: &[u8],
        plan: Option<&[u8]>,
        limit: Limit,
        room: usize,
    ) -> Result<u8, String> {
        let (table, output) = (self.table.content(), self.output.lend(room, rubbish as u8));
        let by_library = match plan {
            None => whose.write(table, rows, text, limit, output),
            Some(plan) => whose.write_planned(table, rows, text, plan, limit, output),
        };
        let mut output = vec![rubbish as u8; room];
        let by_second = match (self.share(whose), plan) {
            (Ok(words), None) => {
                let by_rows = rows_of(words);
                writing::reported(both::write(&by_rows, rows, text, limit, &mut output))
            }
            (Ok(words), Some(plan)) => {
                let (by_rows, output) = (rows_of(words), &mut output);
                writing::reported(both::write_planned(
                    &by_rows, rows, text, plan, limit, output,
                ))
            }
            (Err(number), _) => Written { number, length: 0 },
        };
        let same_output = self.output.content() == output && self.output.is_whole();
        if by_library == by_second && same_output && self.same_table() {
            return Ok(by_library.number);
        }
        Err(format!(
            "writing from a share differs\n\
             {whose:?}, {rows} rows, output of {room} bytes, limit {limit:?}, plan {plan:?}\n\
             text {}\n\
             library {by_library:?}\n\
             second  {by_second:?}",
            hex::encode(text)
        ))
    }

    fn lookup(&mut self, whose: Whose, random: &mut Random) -> Result<u8, String> {
        let work = &self.at_work[usize::from(whose.station == 5)];
        let words = station_of(whose.station).and_then(|station| {
            let table = share(&self.second, whose.split, station);
            table.ok()
        });
        let table = Table {
            words: rows_of(words.unwrap_or_default()),
            rows: work.rows,
            text: work.text.clone(),
        };
        let (row, rubbish) = (row(random, &table), rubbish(random));
        let key = key(random, &table, row);
        let Table { rows, text, .. } = &table;
        let by_library = whose.lookup(rubbish, self.table.content(), *rows, text, row, &key);
        let placed = whose.position(rubbish, self.table.content(), *rows, text, row);
        let (member, position) = match words {
            Some(_) => (
                both::lookup(&table.words, *rows, text, row, &key),
                both::position(&table.words, *rows, text, row),
            ),
            None => (Err(NOT_SPLIT), Err::<Position, u8>(NOT_SPLIT)),
        };
        let (by_second, second_placed) = (lookup::reported(member), lookup::placed(position));
        if by_library == by_second && placed == second_placed && self.same_table() {
            return Ok(by_library.refusal);
        }
        Err(format!(
            "looking up in a share differs\n\
             {whose:?}, {rows} rows, row {row}, key {}\n\
             library {by_library:?} {placed:?}\n\
             second  {by_second:?} {second_placed:?}",
            hex::encode(&key)
        ))
    }

    /// Where a share lies, by both.
    fn lies(&mut self, whose: Whose) -> Compared {
        let by_library = whose.share(self.second.len());
        let base = self.second.as_ptr() as usize;
        let by_second = match self.share(whose) {
            Ok(words) => Lying {
                number: 0,
                first: (words.as_ptr() as usize - base) / size_of::<u32>(),
                length: words.len(),
            },
            Err(number) => Lying {
                number,
                first: 0,
                length: 0,
            },
        };
        match by_library == by_second {
            true => Ok(()),
            false => Err(format!(
                "{whose:?}: share at {by_library:?}, second {by_second:?}"
            )),
        }
    }

    fn noted(run: &mut Run, answer: Result<u8, String>) -> Compared {
        run.tally.at_station(answer?);
        Ok(())
    }

    /// Every row of small tables, those around them and huge ones; with up to
    /// seven words more than the rows; both stations, and numbers that are no
    /// station's.
    pub fn every_split(&mut self, run: &mut Run) -> Compared {
        let messages = [papers::FOUR, papers::UNSET_RECALL].map(papers::bytes_of);
        for words in 0..48 {
            let around = (0..words / ROW_WORDS + 3).chain([1 << 62, (1 << 62) + 1, usize::MAX]);
            for split in around {
                for station in [4, 5, 0, 6, 255] {
                    let whose = Whose { split, station };
                    for message in &messages {
                        if run.tally.is_over() {
                            return Ok(());
                        }
                        self.lend(words, rubbish(&mut run.random));
                        self.lies(whose)?;
                        let limit = any_limit(&mut run.random);
                        let answer = self.read(whose, message, limit);
                        Self::noted(run, answer)?;
                    }
                }
            }
        }
        Ok(())
    }

    /// Shares of about 4,096 rows, and messages of as many.
    pub fn many_rows(&mut self, run: &mut Run) -> Compared {
        for split in ROW_LIMIT - 1..=ROW_LIMIT + 2 {
            for items in ROW_LIMIT - 4..=ROW_LIMIT {
                let count = (items as u32).to_le_bytes();
                let message = [PREFIX, &b"RA"[..], &count, &b"t".repeat(items)].concat();
                for station in [4, 5] {
                    if run.tally.is_over() {
                        return Ok(());
                    }
                    let spare = run.random.below(ROW_WORDS);
                    let rows = split + ROW_LIMIT + run.random.below(3);
                    self.lend(ROW_WORDS * rows + spare, rubbish(&mut run.random));
                    let answer = self.read(Whose { split, station }, &message, None);
                    Self::noted(run, answer)?;
                }
            }
        }
        Ok(())
    }

    /// A message read into each share of a table that is split behind so many
    /// rows, and into one that is split nowhere.
    pub fn both_read(
        &mut self,
        run: &mut Run,
        message: &[u8],
        rows: usize,
        limit: Limit,
    ) -> Compared {
        self.lend(ROW_WORDS * 2 * rows, rubbish(&mut run.random));
        for (split, station) in [(rows, 4), (rows, 5), (0, 4), (rows, 6)] {
            if !run.tally.is_over() {
                let answer = self.read(Whose { split, station }, message, limit);
                Self::noted(run, answer)?;
            }
        }
        Ok(())
    }

    /// A table written from each share of one that holds it twice, with and
    /// without a plan; and from no share.
    pub fn both_write(
        &mut self,
        run: &mut Run,
        table: &Table,
        plan: &[u8],
        room: usize,
        limit: Limit,
    ) -> Compared {
        let Table { words, rows, text } = table;
        let own = columns_of(&words[..ROW_WORDS * rows]);
        self.second = [&own[..], &own].concat();
        let both = self.table.lend(self.second.len(), 0);
        both.copy_from_slice(&self.second);
        for (split, station) in [(*rows, 4), (*rows, 5), (0, 4), (*rows, 6)] {
            for plan in [None, Some(plan)] {
                if !run.tally.is_over() {
                    let (whose, rubbish) = (Whose { split, station }, rubbish(&mut run.random));
                    let answer = self.write_at(whose, rubbish, *rows, text, plan, limit, room);
                    Self::noted(run, answer)?;
                }
            }
        }
        Ok(())
    }

    /// Some turns of both stations on one table: whatever one of them does, the
    /// other goes on with what it left.
    pub fn round(&mut self, run: &mut Run) -> Compared {
        let random = &mut run.random;
        let (four, five) = (random.between(1, 40), random.between(1, 40));
        let words = ROW_WORDS * (four + five) + random.below(ROW_WORDS);
        let split = match random.below(12) {
            0 => *random.pick(&[0, four + five, four + five + 1, usize::MAX]),
            _ => four,
        };
        self.lend(words, rubbish(random));
        for work in &mut self.at_work {
            let (rubbish, message) = (rubbish(random), message(random));
            work.begin(rubbish, BYTE_LIMIT, message, any_limit(random));
            (work.rows, work.text) = (random.below(6), random.text(20));
        }
        for _ in 0..16 {
            if run.tally.is_over() {
                return Ok(());
            }
            let station = match run.random.below(60) {
                0 => run.random.byte(),
                _ => *run.random.pick(&[4, 5]),
            };
            let answer = self.turn(&mut run.random, Whose { split, station });
            Self::noted(run, answer)?;
        }
        Ok(())
    }

    fn turn(&mut self, random: &mut Random, whose: Whose) -> Result<u8, String> {
        let at = usize::from(whose.station == 5);
        match random.below(12) {
            0 | 1 => {
                let text = match random.below(4) {
                    0 => message(random),
                    1 => card(random, false),
                    _ => valid(random),
                };
                self.at_work[at].is_broken_off = true;
                self.read(whose, &text, any_limit(random))
            }
            2 => {
                let cards = [message(random), valid(random)];
                let file = second::job::job(&cards.each_ref().map(Vec::as_slice));
                self.at_work[at].is_broken_off = true;
                self.read_card(whose, &file, random.below(3))
            }
            3..9 => {
                if self.at_work[at].is_broken_off || random.one_in(12) {
                    let room = *random.pick(&[BYTE_LIMIT, BYTE_LIMIT, BYTE_LIMIT + 1, 100]);
                    let (rubbish, message) = (rubbish(random), message(random));
                    self.at_work[at].begin(rubbish, room, message, any_limit(random));
                }
                self.piece(whose, random.below(40))
            }
            9 | 10 => self.write(whose, random),
            _ => self.lookup(whose, random),
        }
    }
}
