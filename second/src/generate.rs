//! Seeded makers of messages and tables, good and damaged, for comparisons.

mod ascii;
mod glyph;
mod messages;
mod structs;
mod tables;

pub use ascii::{decimal, doubtful, good};
pub use glyph::{glyph_deep, glyph_message, glyph_table, glyph_valid};
pub use messages::{BAD_TEXTS, beyond, card, damaged, deep as deep_message, message, valid};
pub use structs::{key, row, structs};
pub use tables::{
    Table, damage, deep as deep_table, few_strings, key_again, output_length, table, writable,
};

/// A small seeded source of numbers (splitmix64).
pub struct Random(u64);

impl Random {
    pub fn new(seed: u64) -> Self {
        Random(seed)
    }

    pub fn word(&mut self) -> u64 {
        self.0 = self.0.wrapping_add(0x9e37_79b9_7f4a_7c15);
        let mut mixed = self.0;
        mixed = (mixed ^ (mixed >> 30)).wrapping_mul(0xbf58_476d_1ce4_e5b9);
        mixed = (mixed ^ (mixed >> 27)).wrapping_mul(0x94d0_49bb_1331_11eb);
        mixed ^ (mixed >> 31)
    }

    /// A number below `bound`, which is at least 1.
    pub fn below(&mut self, bound: usize) -> usize {
        (self.word() % bound as u64) as usize
    }

    /// A number from `low` to `high`, both included.
    pub fn between(&mut self, low: usize, high: usize) -> usize {
        low + self.below(high - low + 1)
    }

    pub fn one_in(&mut self, chances: usize) -> bool {
        self.below(chances) == 0
    }

    pub fn byte(&mut self) -> u8 {
        self.word() as u8
    }

    pub fn pick<'a, T>(&mut self, from: &'a [T]) -> &'a T {
        &from[self.below(from.len())]
    }

    pub fn bytes(&mut self, count: usize) -> Vec<u8> {
        (0..count).map(|_| self.byte()).collect()
    }

    /// Well-formed UTF-8 of at most so many characters, of all lengths and
    /// from the edges of each.
    pub fn text(&mut self, most: usize) -> Vec<u8> {
        const EDGES: [char; 14] = [
            '\0',
            '\u{7f}',
            '\u{80}',
            '\u{7ff}',
            '\u{800}',
            '\u{fff}',
            '\u{1000}',
            '\u{d7ff}',
            '\u{e000}',
            '\u{ffff}',
            '\u{10000}',
            '\u{3ffff}',
            '\u{fffff}',
            '\u{10ffff}',
        ];
        let count = self.between(0, most);
        let mostly_ascii = self.one_in(2);
        let mut text = String::new();
        while text.chars().count() < count {
            let character = match self.below(if mostly_ascii { 12 } else { 4 }) {
                0 => Some(*self.pick(&EDGES)),
                1 => char::from_u32(self.below(0x11_0000) as u32),
                2 => char::from_u32(self.below(0x1_0000) as u32),
                _ => char::from_u32(self.between(0x20, 0x7e) as u32),
            };
            text.extend(character);
        }
        text.into_bytes()
    }
}

/// A table's number of words: small, around the need, around the limit, over.
pub fn table_words(random: &mut Random, rows: usize) -> usize {
    match random.below(6) {
        0 => random.between(0, 40),
        1 | 2 => (4 * rows + random.between(0, 10)).saturating_sub(5),
        3 => 16_384,
        4 => random.between(16_379, 16_389),
        _ => 20_000,
    }
}
