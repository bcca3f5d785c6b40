//! Compares the proved library with the second implementation on generated
//! messages, whole and in pieces, tables, plans, job files, members, indexes,
//! shares of a table, and messages of hyperglyph and glyph, read and written:
//! `compare SEED CALLS`. Ends with 1 where they differ.

mod both;
mod change;
mod defaults;
mod doubles_and_dates;
mod edges;
mod gather;
mod glyph;
mod glyph_writing;
mod index;
mod job;
mod lent;
mod library;
mod limits;
mod lookup;
mod pieces;
mod plans;
mod reading;
mod shortest;
mod state;
mod station_calls;
mod stations;
mod tally;
mod writing;

use defaults::Texts;
use glyph::Glyphs;
use glyph_writing::GlyphWriting;
use index::Indexes;
use job::Jobs;
use limits::Limits;
use lookup::Lookups;
use pieces::InPieces;
use plans::Plans;
use reading::{Compared, Reading};
use second::generate::Random;
use stations::Stations;
use std::process::ExitCode;
use tally::{Run, Tally};
use writing::Writing;

fn main() -> ExitCode {
    let words: Vec<String> = std::env::args().skip(1).collect();
    let numbers = match &words[..] {
        [seed, calls] => seed.parse().ok().zip(calls.parse().ok()),
        _ => None,
    };
    let Some((seed, calls)) = numbers else {
        eprintln!("usage: compare SEED CALLS");
        return ExitCode::from(2);
    };
    let mut run = Run {
        random: Random::new(seed),
        tally: Tally::new(calls),
    };
    let compared = compare(&mut run);
    println!("compare {seed} {calls}: the library and the second implementation");
    run.tally.print();
    match compared {
        Ok(()) => {
            println!("no difference");
            ExitCode::SUCCESS
        }
        Err(difference) => {
            println!("{difference}");
            ExitCode::FAILURE
        }
    }
}

fn compare(run: &mut Run) -> Compared {
    let mut reading = Reading::new();
    let mut writing = Writing::new();
    let mut jobs = Jobs::new();
    let mut lookups = Lookups::new();
    let mut pieces = InPieces::new();
    let mut texts = Texts::new();
    let mut indexes = Indexes::new();
    let mut stations = Stations::new();
    let mut plans = Plans::new();
    let mut glyphs = Glyphs::new();
    let mut glyph_writing = GlyphWriting::new();
    shortest::tried(&mut run.random)?;
    plans.all_of_small(&mut run.random)?;
    plans.many_texts(&mut run.random)?;
    doubles_and_dates::read(&mut run.random, &mut reading)?;
    doubles_and_dates::written(&mut run.random, &mut writing)?;
    lookups.decimals(&mut run.random)?;
    reading.papers(run)?;
    writing.papers(run)?;
    reading.edges(run)?;
    jobs.edges(run)?;
    pieces.papers(run)?;
    pieces.limit(run)?;
    stations.every_split(run)?;
    stations.many_rows(run)?;
    glyphs.papers(run)?;
    glyphs.short(run)?;
    glyphs.every_byte_behind(run)?;
    glyphs.numbers(run)?;
    glyphs.every_limit(run)?;
    glyph_writing.papers(run)?;
    glyph_writing.every_limit(run)?;
    let mut limits = Limits {
        reading: &mut reading,
        writing: &mut writing,
        pieces: &mut pieces,
        stations: &mut stations,
        plans: &mut plans,
    };
    limits.every(run)?;
    while !run.tally.is_over() {
        reading.round(run)?;
        lookups.round(run)?;
        pieces.round(run)?;
        texts.round(run)?;
        indexes.round(run)?;
        stations.round(run)?;
        writing.round(run)?;
        plans.round(run)?;
        glyphs.round(run)?;
        glyph_writing.round(run)?;
        if run.random.one_in(4) {
            jobs.round(run)?;
        }
    }
    Ok(())
}
