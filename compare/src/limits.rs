//! Limits of nesting: which are tried, the second implementation's calls with
//! and without one, and every limit with messages and tables that are nested
//! about as deep.

use crate::library::Limit;
use crate::pieces::{Cut, InPieces};
use crate::plans::{self, Plans};
use crate::reading::{Compared, Reading};
use crate::stations::Stations;
use crate::tally::Run;
use crate::writing::Writing;
use second::generate::{Random, Table, deep_message, deep_table};
use second::layout::Layout;
use second::pieces::{Outcome, Pieces};
use second::plan::{write_planned, write_planned_within};
use second::rules::{BYTE_LIMIT, NESTING_LIMIT, ROW_WORDS, USUAL_LIMIT};
use second::{ByColumns, ByRows, Read, Write, read, read_within, write, write_within};

/// The highest, stated.
pub const HIGHEST: Limit = Some(NESTING_LIMIT);

/// Limits that tempt to be cut to fewer bits, or counted from: one that may be
/// stated with higher bits, and the greatest.
pub const HUGE: [usize; 8] = [
    256 + 8,
    (1 << 16) + 8,
    (1 << 31) + 1,
    (1 << 32) + 8,
    (1 << 32) + 32,
    1 << 63,
    (1 << 63) + 8,
    usize::MAX,
];

/// Mostly one that may be stated, the highest above all; or none.
pub fn any_limit(random: &mut Random) -> Limit {
    match random.below(40) {
        0..12 => None,
        12..28 => HIGHEST,
        28..38 => Some(random.between(1, NESTING_LIMIT)),
        38 => Some(*random.pick(&[0, NESTING_LIMIT + 1, 40])),
        _ => Some(*random.pick(&HUGE)),
    }
}

/// One that may be stated and is no lower.
pub fn no_lower(random: &mut Random, limit: Limit) -> Limit {
    Some(random.between(limit.unwrap_or(USUAL_LIMIT), NESTING_LIMIT))
}

/// By the second implementation, as all that follow.
pub fn read_at<L: Layout>(message: &[u8], table: &mut [u32], limit: Limit) -> Read {
    match limit {
        None => read::<L>(message, table),
        Some(limit) => read_within::<L>(message, table, limit),
    }
}

pub fn write_at<L: Layout>(
    table: &[u32],
    rows: usize,
    text: &[u8],
    limit: Limit,
    output: &mut [u8],
) -> Write {
    match limit {
        None => write::<L>(table, rows, text, output),
        Some(limit) => write_within::<L>(table, rows, text, limit, output),
    }
}

pub fn write_planned_at<L: Layout>(
    table: &[u32],
    rows: usize,
    text: &[u8],
    plan: &[u8],
    limit: Limit,
    output: &mut [u8],
) -> Write {
    match limit {
        None => write_planned::<L>(table, rows, text, plan, output),
        Some(limit) => write_planned_within::<L>(table, rows, text, plan, limit, output),
    }
}

pub fn next_at(
    pieces: &mut Pieces,
    piece: &[u8],
    room: &mut [u8],
    table: &mut [u32],
    limit: Limit,
) -> Outcome {
    match limit {
        None => pieces.next::<ByColumns>(piece, room, table),
        Some(limit) => pieces.next_within::<ByColumns>(piece, room, table, limit),
    }
}

pub fn end_at(pieces: &mut Pieces, room: &[u8], table: &mut [u32], limit: Limit) -> Outcome {
    match limit {
        None => pieces.end(room, table),
        Some(limit) => pieces.end_within(room, table, limit),
    }
}

/// All that takes a limit.
pub struct Limits<'c> {
    pub reading: &'c mut Reading,
    pub writing: &'c mut Writing,
    pub pieces: &'c mut InPieces,
    pub stations: &'c mut Stations,
    pub plans: &'c mut Plans,
}

impl Limits<'_> {
    /// Every limit from 0 to 40, huge ones and none, with messages and tables
    /// that are nested one level less deep, as deep and one deeper; in tables
    /// with just the room, too little and more; in outputs likewise.
    pub fn every(&mut self, run: &mut Run) -> Compared {
        let stated = (0..=40).chain(HUGE).map(Some);
        for limit in stated.chain([None]) {
            let about = limit.unwrap_or(USUAL_LIMIT).min(40);
            let near = about.saturating_sub(1)..=about + 1;
            let fixed = [1, USUAL_LIMIT, USUAL_LIMIT + 1, NESTING_LIMIT];
            for levels in near.chain(fixed).chain([NESTING_LIMIT + 1]) {
                for _ in 0..2 {
                    if run.tally.is_over() {
                        return Ok(());
                    }
                    self.message(run, levels.max(1), limit)?;
                    self.table(run, levels.max(1), limit)?;
                }
            }
        }
        self.pieces.no_limits(run)
    }

    /// A message of so many levels: whole, in pieces and for each station.
    fn message(&mut self, run: &mut Run, levels: usize, limit: Limit) -> Compared {
        let message = deep_message(&mut run.random, levels, levels);
        let mut wide = vec![0; 4 * ROW_WORDS * (levels + 4)];
        let need = match read_at::<ByRows>(&message, &mut wide, HIGHEST) {
            Read::Accepted { rows, .. } => rows,
            Read::Refused { .. } => levels,
        };
        for rows in [need, need - 1, need + 1, run.random.below(need + 1)] {
            let words = ROW_WORDS * rows + run.random.below(ROW_WORDS);
            self.reading.grown(run, &message, words, limit)?;
            let cut = run.random.below(message.len());
            let cut = Cut::new(&message, vec![cut], BYTE_LIMIT, words);
            self.pieces.call_at(run, &cut, limit)?;
            self.stations.both_read(run, &message, rows, limit)?;
        }
        Ok(())
    }

    /// A table of so many levels: written, written with a plan, and both from
    /// a share.
    fn table(&mut self, run: &mut Run, levels: usize, limit: Limit) -> Compared {
        let table = deep_table(&mut run.random, levels, levels);
        let mut wide = vec![0; BYTE_LIMIT];
        let Table { words, rows, text } = &table;
        let need = match write_at::<ByRows>(words, *rows, text, HIGHEST, &mut wide) {
            Write::Accepted { length } => length,
            Write::Refused { .. } => levels,
        };
        for room in [need, need.saturating_sub(1), need + 9] {
            self.writing.call_at(run, &table, room, limit)?;
            let plan = plans::any_plan(&mut run.random, &table);
            self.plans.call_at(run, &table, &plan, room, limit)?;
            self.stations.both_write(run, &table, &plan, room, limit)?;
        }
        Ok(())
    }
}
