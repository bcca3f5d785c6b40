//! Messages in pieces, by the library and by the second implementation.

use crate::change::changed;
use crate::gather::gathered;
use crate::lent::{Lent, rubbish};
use crate::library::{self, Limit};
use crate::limits::{HIGHEST, any_limit, end_at, next_at, read_at};
use crate::reading::Compared;
use crate::state::{self, MORE_WANTED, State};
use crate::tally::Run;
use second::generate::{Random, message, table_words, valid};
use second::pieces::{Outcome, Pieces};
use second::rules::{BYTE_LIMIT, PREFIX, ROW_LIMIT, ROW_WORDS, is_limit, refusal};
use second::{ByRows, Read, hex, papers};

/// Messages up to here are cut at every byte.
const SMALL: usize = 160;

/// What is lent to both for one message: rooms that are full of the same
/// rubbish, since their rest has to stay, and tables that are not.
pub struct InPieces {
    piece: Lent<u8>,
    room: Lent<u8>,
    second_room: Lent<u8>,
    table: Lent<u32>,
    second_table: Lent<u32>,
    wide: Vec<u32>,
}

/// How one message is handed over.
pub struct Cut<'m> {
    message: &'m [u8],
    /// Lengths of the pieces; the rest of the message is the last one.
    lengths: Vec<usize>,
    room: usize,
    words: usize,
}

impl<'m> Cut<'m> {
    pub fn new(message: &'m [u8], lengths: Vec<usize>, room: usize, words: usize) -> Self {
        Cut {
            message,
            lengths,
            room,
            words,
        }
    }

    fn pieces(&self) -> Vec<&[u8]> {
        let mut rest = self.message;
        let mut pieces = Vec::new();
        for &length in &self.lengths {
            let (piece, after) = rest.split_at(length.min(rest.len()));
            pieces.push(piece);
            rest = after;
        }
        pieces.push(rest);
        pieces
    }

    /// Whether the room holds the message.
    fn fits(&self) -> bool {
        self.message.len() <= BYTE_LIMIT && self.room >= BYTE_LIMIT
    }
}

impl InPieces {
    pub fn new() -> Self {
        InPieces {
            piece: Lent::new(0),
            room: Lent::new(0),
            second_room: Lent::new(0),
            table: Lent::new(0),
            second_table: Lent::new(0),
            wide: vec![0; ROW_LIMIT * ROW_WORDS],
        }
    }

    /// One message by both, at any limit of nesting, if any calls are left.
    fn call(&mut self, run: &mut Run, cut: &Cut) -> Compared {
        let limit = any_limit(&mut run.random);
        self.call_at(run, cut, limit)
    }

    pub fn call_at(&mut self, run: &mut Run, cut: &Cut, limit: Limit) -> Compared {
        if run.tally.is_over() {
            return Ok(());
        }
        match self.compare(rubbish(&mut run.random), cut, limit) {
            Ok(number) => {
                run.tally.read_pieces(number);
                Ok(())
            }
            Err(difference) => Err(format!(
                "in pieces: {difference}\n\
                 message {}\n\
                 pieces of {:?}, room of {} bytes, table of {} words, limit {limit:?}",
                hex::encode(cut.message),
                cut.lengths,
                cut.room,
                cut.words,
            )),
        }
    }

    /// All pieces and the end, by both, compared after each call; and then the
    /// whole at once, where it fits. Gives the number of the last answer.
    fn compare(&mut self, rubbish: u32, cut: &Cut, limit: Limit) -> Result<u8, String> {
        self.room.lend(cut.room, rubbish as u8);
        self.second_room.lend(cut.room, rubbish as u8);
        self.table.lend(cut.words, rubbish);
        self.second_table.lend(cut.words, !rubbish);
        let (mut state, mut pieces) = (state::start(rubbish), Pieces::start());
        if !state::is(&state, Outcome::MoreWanted { place: 0 }, 0) {
            return Err(format!("the start is {state:?}"));
        }
        // A state of zeros, which was never started, is a message that has just begun.
        if rubbish & 6 == 0 {
            state = State::default();
        }
        for (call, piece) in cut.pieces().into_iter().enumerate() {
            let number = self.next_by_library(&mut state, rubbish, piece, limit);
            let (room, table) = (self.second_room.again(), self.second_table.again());
            let outcome = next_at(&mut pieces, piece, room, table, limit);
            self.same(number, state, outcome, pieces.held())
                .map_err(|why| format!("piece {call} differs: {why}"))?;
            if self.piece.content() != piece || !self.piece.is_whole() {
                return Err(format!("the library wrote to piece {call}"));
            }
        }
        let number = state::end(&mut state, self.room.content(), self.table.again(), limit);
        let (room, table) = (self.second_room.content(), self.second_table.again());
        let outcome = end_at(&mut pieces, room, table, limit);
        self.same(number, state, outcome, pieces.held())
            .map_err(|why| format!("the end differs: {why}"))?;
        if cut.fits() {
            self.same_as_whole(cut.message, state, limit)?;
        }
        Ok(number)
    }

    fn next_by_library(
        &mut self,
        state: &mut State,
        rubbish: u32,
        piece: &[u8],
        limit: Limit,
    ) -> u8 {
        let given = self.piece.lend(piece.len(), rubbish as u8);
        given.copy_from_slice(piece);
        state::next(state, given, self.room.again(), self.table.again(), limit)
    }

    fn same(&self, number: u8, state: State, outcome: Outcome, held: usize) -> Compared {
        let why = if usize::from(number) != state.answer || !state::is(&state, outcome, held) {
            "the answers"
        } else if self.room.content() != self.second_room.content() {
            "the rooms"
        } else if self.table.content() != self.second_table.content() {
            "the tables"
        } else if !self.room.is_whole() || !self.table.is_whole() {
            "the library wrote outside the room or the table"
        } else {
            return Ok(());
        };
        Err(format!(
            "{why}\n\
             library {number} {state:?}\n\
             second  {outcome:?}, {held} bytes held"
        ))
    }

    /// The library reads the whole message alike.
    fn same_as_whole(&mut self, message: &[u8], state: State, limit: Limit) -> Compared {
        let whole = library::read(message, self.second_table.again(), limit);
        let answer = State {
            answer: whole.number.into(),
            rows: whole.rows,
            used: whole.used,
            place: whole.place,
            ..State::default()
        };
        match state == answer && self.table.content() == self.second_table.content() {
            true => Ok(()),
            false => Err(format!("{state:?} and a table, but the whole {whole:?}")),
        }
    }

    /// The papers' messages cut at every byte, and one with rooms and tables
    /// of all sorts of lengths.
    pub fn papers(&mut self, run: &mut Run) -> Compared {
        let whole = papers::ALL.iter().map(|(line, _)| papers::bytes_of(line));
        let edges = papers::EDGES
            .iter()
            .map(|(rest, ..)| [PREFIX, *rest].concat());
        for message in whole.chain(edges) {
            self.every_cut(run, &message, 60)?;
        }
        let message = [&papers::bytes_of(papers::FOUR)[..], b"and more"].concat();
        let around = (BYTE_LIMIT - 2)..=(BYTE_LIMIT + 2);
        for room in around.chain([0, 1, BYTE_LIMIT + 4_000]) {
            for words in [0, 3, 4, 8, 60, 16_384, 20_000] {
                for lengths in [vec![], vec![0], vec![1; 30], vec![5, 0, 13, 2, 0]] {
                    self.call(run, &Cut::new(&message, lengths, room, words))?;
                }
            }
        }
        Ok(())
    }

    /// Items that end, and bytes that come, up to the most that may or around
    /// it: a full room that wants more takes empty pieces, and no byte.
    pub fn limit(&mut self, run: &mut Run) -> Compared {
        for end in BYTE_LIMIT - 2..=BYTE_LIMIT + 2 {
            for count in BYTE_LIMIT - 2..=BYTE_LIMIT + 2 {
                let message = ending(b'B', end, count);
                for lengths in [
                    vec![],
                    vec![BYTE_LIMIT, 0, 0],
                    vec![BYTE_LIMIT - 1, 0, 1, 0, 1],
                    vec![12, BYTE_LIMIT - 12, 0, 1],
                ] {
                    self.call(run, &Cut::new(&message, lengths, BYTE_LIMIT, 8))?;
                }
            }
        }
        Ok(())
    }

    /// A limit that is none in a later call, once bytes are held, and once the
    /// message is decided; with rooms that are long enough and too short.
    pub fn no_limits(&mut self, run: &mut Run) -> Compared {
        let messages = [papers::FOUR, papers::UNSET_RECALL].map(papers::bytes_of);
        let held = messages[0][..7].to_vec();
        for first in messages.iter().chain([&held, &Vec::new()]) {
            for limit in [0, 33, 40, (1 << 32) + 8, usize::MAX] {
                for room in [0, BYTE_LIMIT - 1, BYTE_LIMIT, BYTE_LIMIT + 1] {
                    for is_end in [false, true] {
                        if run.tally.is_over() {
                            return Ok(());
                        }
                        let rubbish = rubbish(&mut run.random);
                        self.no_limit(rubbish, first, limit, room, is_end)?;
                        run.tally.read_pieces(refusal::LIMIT);
                    }
                }
            }
        }
        Ok(())
    }

    /// A first piece, then a call with no limit.
    fn no_limit(
        &mut self,
        rubbish: u32,
        first: &[u8],
        limit: usize,
        room: usize,
        is_end: bool,
    ) -> Compared {
        self.room.lend(BYTE_LIMIT, rubbish as u8);
        self.second_room.lend(BYTE_LIMIT, rubbish as u8);
        self.table.lend(12, rubbish);
        self.second_table.lend(12, rubbish);
        let (mut state, mut pieces) = (state::start(rubbish), Pieces::start());
        self.next_by_library(&mut state, rubbish, first, None);
        let (held, table) = (self.second_room.again(), self.second_table.again());
        next_at(&mut pieces, first, held, table, None);
        self.room.lend(room, rubbish as u8);
        self.second_room.lend(room, rubbish as u8);
        let limit = Some(limit);
        let (number, outcome) = match is_end {
            true => {
                let (room, table) = (self.second_room.content(), self.second_table.again());
                let outcome = end_at(&mut pieces, room, table, limit);
                let (room, table) = (self.room.content(), self.table.again());
                (state::end(&mut state, room, table, limit), outcome)
            }
            false => {
                let (room, table) = (self.second_room.again(), self.second_table.again());
                let outcome = next_at(&mut pieces, b"xyz", room, table, limit);
                let number = self.next_by_library(&mut state, rubbish, b"xyz", limit);
                (number, outcome)
            }
        };
        self.same(number, state, outcome, pieces.held())
            .map_err(|why| format!("{limit:?} after {first:?}, room of {room} bytes: {why}"))
    }

    /// In two at every place, one byte at a time, and with empty pieces.
    fn every_cut(&mut self, run: &mut Run, message: &[u8], words: usize) -> Compared {
        let room = BYTE_LIMIT + run.random.below(3);
        for first in 0..=message.len() {
            self.call(run, &Cut::new(message, vec![first], room, words))?;
        }
        for lengths in [vec![1; message.len()], [0, 1].repeat(message.len())] {
            self.call(run, &Cut::new(message, lengths, room, words))?;
        }
        Ok(())
    }

    /// A generated message, good or damaged, cut at random; now and then at
    /// every byte.
    pub fn round(&mut self, run: &mut Run) -> Compared {
        let random = &mut run.random;
        let message = match random.below(200) {
            0..3 => gathered(random),
            3..8 => around_the_limit(random),
            8..60 => {
                let whole = valid(random);
                changed(random, &whole)
            }
            _ => message(random),
        };
        let within = &message[..message.len().min(BYTE_LIMIT)];
        let need = match read_at::<ByRows>(within, &mut self.wide, HIGHEST) {
            Read::Accepted { rows, .. } => rows,
            Read::Refused { .. } => random.below(20),
        };
        let words = match random.below(4) {
            0 => table_words(random, need),
            _ => ROW_WORDS * need + random.below(6),
        };
        let (lengths, room) = (lengths(random, message.len()), room(random));
        self.call(run, &Cut::new(&message, lengths, room, words))?;
        if message.len() < SMALL && run.random.one_in(60) {
            self.every_cut(run, &message, words)?;
        }
        if run.random.one_in(8) {
            self.wants_no_less(&mut run.random, &message)?;
            self.any_state(&mut run.random, &message, words)?;
        }
        Ok(())
    }

    /// Whatever follows, the answer stays while fewer bytes are held than are
    /// wanted.
    fn wants_no_less(&mut self, random: &mut Random, message: &[u8]) -> Compared {
        let held = random.below(message.len().min(BYTE_LIMIT) + 1);
        let mut state = state::start(7);
        let (room, table) = (self.room.lend(BYTE_LIMIT, 7), self.table.lend(16_384, 7));
        let limit = any_limit(random);
        state::next(&mut state, &message[..held], room, table, limit);
        if state.answer != MORE_WANTED {
            return Ok(());
        }
        let wanted = state.wanted.min(BYTE_LIMIT + 1);
        let more = random.below(wanted.saturating_sub(held).max(1));
        let bytes = [&message[..held], &random.bytes(more)].concat();
        let cut = Read::Refused {
            number: refusal::CUT,
            place: state.place,
        };
        match read_at::<ByRows>(&bytes, &mut self.wide, limit) == cut {
            true => Ok(()),
            false => Err(format!(
                "after {held} bytes {state:?}, limit {limit:?}, but fewer than are wanted decide\n\
                 message {}",
                hex::encode(&bytes)
            )),
        }
    }

    /// A state, a room and a table that no call left. The answer is free, but 23
    /// comes before all else, and then 4; and the room keeps its rest.
    fn any_state(&mut self, random: &mut Random, piece: &[u8], words: usize) -> Compared {
        let before = any_state(random);
        let mut state = before;
        let rubbish = rubbish(random);
        let room = room(random);
        self.room.lend(room, rubbish as u8);
        self.table.lend(words, rubbish);
        let limit = any_limit(random);
        let number = match random.one_in(4) {
            true => state::end(&mut state, self.room.content(), self.table.again(), limit),
            false => self.next_by_library(&mut state, rubbish, piece, limit),
        };
        let refused = match limit {
            Some(limit) if !is_limit(limit) => Some(refusal::LIMIT),
            _ => (room < BYTE_LIMIT).then_some(refusal::ROOM),
        };
        let rest = &self.room.content()[if refused.is_some() { 0 } else { BYTE_LIMIT }..];
        let is_refused = |number| {
            let mut words = self.table.content().iter();
            let refused = Outcome::Refused { number, place: 0 };
            state::is(&state, refused, 0) && words.all(|&word| word == 0)
        };
        if rest.iter().all(|&byte| byte == rubbish as u8)
            && self.room.is_whole()
            && self.table.is_whole()
            && refused.is_none_or(is_refused)
        {
            return Ok(());
        }
        let piece = hex::encode(piece);
        Err(format!(
            "from {before:?}, which no call gave, {number} {state:?}\n\
             room of {room} bytes, table of {words} words, limit {limit:?}\n\
             piece {piece}"
        ))
    }
}

fn any_state(random: &mut Random) -> State {
    const EDGES: [usize; 9] = [0, 1, 4, 10, 65_535, 65_536, 65_537, 1 << 63, usize::MAX];
    let mut number = || match random.below(4) {
        0 => random.word() as usize,
        1 => *random.pick(&EDGES),
        _ => random.below(70_000),
    };
    let state = State {
        answer: number(),
        rows: number(),
        used: number(),
        place: number(),
        held: number(),
        wanted: number(),
    };
    match random.below(3) {
        0 => state,
        _ => State {
            answer: MORE_WANTED,
            ..state
        },
    }
}

/// Mostly just long enough, now and then too short.
fn room(random: &mut Random) -> usize {
    match random.below(12) {
        0 => *random.pick(&[0, 1, BYTE_LIMIT / 2, BYTE_LIMIT - 1]),
        1 => BYTE_LIMIT + random.below(5_000),
        2..6 => BYTE_LIMIT + random.below(3),
        _ => BYTE_LIMIT,
    }
}

/// Lengths of pieces, some empty: a few, many small ones, or one.
fn lengths(random: &mut Random, whole: usize) -> Vec<usize> {
    let (count, bound) = match random.below(5) {
        0 => (0, 1),
        1 => (random.below(40), 3),
        2 => (random.below(12), 30),
        _ => (random.below(6), whole / 2 + 2),
    };
    (0..count).map(|_| random.below(bound)).collect()
}

/// A Binary or a text that ends a few bytes before or after the most bytes
/// that may come; and about as many bytes come, or twice as many.
fn around_the_limit(random: &mut Random) -> Vec<u8> {
    let end = random.between(BYTE_LIMIT - 2, BYTE_LIMIT + 2);
    let count = match random.below(6) {
        0 => 2 * BYTE_LIMIT,
        _ => random.between(BYTE_LIMIT - 3, BYTE_LIMIT + 5),
    };
    ending(*random.pick(b"BU"), end, count)
}

/// So many bytes, in which a Binary or a text goes up to `end`.
fn ending(tag: u8, end: usize, count: usize) -> Vec<u8> {
    let length = (end - 18) as u32;
    let mut message = [PREFIX, &[b'R', tag][..], &length.to_le_bytes()].concat();
    message.resize(count, b'b');
    message
}
