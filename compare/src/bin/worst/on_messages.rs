//! The calls that take a message.

use crate::calls::{FIVE, HIGHEST, LEFT_AWAY, Ready, WORDS};
use crate::clock::own_time;
use crate::library::{self, Limit};
use crate::state;
use second::glyph::Edition;
use second::rules::{BYTE_LIMIT, NESTING_LIMIT};
use std::hint::black_box;

fn room_for_both() -> Vec<u32> {
    vec![0; 2 * WORDS]
}

pub fn read(message: &[u8], limit: Limit) -> Ready<'_> {
    let mut table = vec![0; WORDS];
    Box::new(move || {
        black_box(library::read(black_box(message), &mut table, limit));
    })
}

pub fn station_read(message: &[u8]) -> Ready<'_> {
    let mut table = room_for_both();
    Box::new(move || {
        black_box(FIVE.read(black_box(message), &mut table, HIGHEST));
    })
}

/// A job file of one card.
fn job(card: &[u8]) -> Vec<u8> {
    let length = (card.len() as u32).to_le_bytes();
    [&length[..], &[1, 0], card, &[4, 0, 0, 0, 2, 0, 1, 0, 0, 0]].concat()
}

pub fn read_card(message: &[u8]) -> Ready<'_> {
    let (file, mut table) = (job(message), vec![0; WORDS]);
    Box::new(move || {
        black_box(library::read_card(black_box(&file), 0, &mut table));
    })
}

pub fn station_read_card(message: &[u8]) -> Ready<'_> {
    let (file, mut table) = (job(message), room_for_both());
    Box::new(move || {
        black_box(FIVE.read_card(black_box(&file), 0, &mut table));
    })
}

/// Hands over all pieces, unless it takes much too long.
fn hand_over(message: &[u8], length: usize, mut take: impl FnMut(&[u8])) {
    let start = own_time();
    for (index, piece) in message.chunks(length).enumerate() {
        take(black_box(piece));
        if index % 64 == 63 && own_time() - start > LEFT_AWAY {
            return;
        }
    }
}

pub fn pieces(message: &[u8], length: usize) -> Ready<'_> {
    let (mut room, mut table) = (vec![0; BYTE_LIMIT], vec![0; WORDS]);
    Box::new(move || {
        let mut held = state::start(0);
        hand_over(message, length, |piece| {
            black_box(state::next(
                &mut held, piece, &mut room, &mut table, HIGHEST,
            ));
        });
        black_box(state::end(&mut held, &room, &mut table, HIGHEST));
    })
}

pub fn station_pieces(message: &[u8], length: usize) -> Ready<'_> {
    let (mut room, mut table) = (vec![0; BYTE_LIMIT], room_for_both());
    Box::new(move || {
        let mut held = state::start(0);
        hand_over(message, length, |piece| {
            black_box(FIVE.next(&mut held, piece, &mut room, &mut table, HIGHEST));
        });
        black_box(FIVE.end(&mut held, &room, &mut table, HIGHEST));
    })
}

pub fn read_glyph(message: &[u8], edition: Edition) -> Ready<'_> {
    let mut table = vec![0; WORDS];
    Box::new(move || {
        let message = black_box(message);
        black_box(library::read_glyph(
            message,
            &mut table,
            edition,
            NESTING_LIMIT,
        ));
    })
}

pub fn station_read_glyph(message: &[u8], edition: Edition) -> Ready<'_> {
    let mut table = room_for_both();
    Box::new(move || {
        let message = black_box(message);
        black_box(FIVE.read_glyph(message, &mut table, edition, NESTING_LIMIT));
    })
}
