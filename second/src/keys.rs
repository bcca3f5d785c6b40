//! The keys of one Struct, which are distinct by document 02 (request E7); and
//! the hashing of texts.

use std::collections::HashSet;
use std::hash::{BuildHasherDefault, Hasher};

/// Up to here a key is compared with each one before it.
const FEW: usize = 8;

/// The keys of a Struct that have been read so far.
pub struct Keys<'t> {
    /// No more can come, or are expected where no count is known.
    most: usize,
    count: usize,
    few: [&'t [u8]; FEW],
    /// All of them, once there are more than a few.
    many: HashSet<&'t [u8], TextHashing>,
}

impl<'t> Keys<'t> {
    /// None yet, of a Struct that has so many pairs, in a table of so many rows.
    pub fn new(pairs: u32, rows: usize) -> Self {
        Keys {
            most: (rows / 2).min(pairs as usize),
            count: 0,
            few: [&[]; FEW],
            many: HashSet::default(),
        }
    }

    /// None yet, of a dict that does not say how many pairs it has.
    pub fn uncounted() -> Self {
        Keys::new(2 * FEW as u32, 4 * FEW)
    }

    /// Notes a key, if it is not among those before it; gives whether it is not.
    pub fn add(&mut self, key: &'t [u8]) -> bool {
        if self.count > FEW {
            return self.many.insert(key);
        }
        if self.few[..self.count.min(FEW)].contains(&key) {
            return false;
        }
        match self.few.get_mut(self.count) {
            Some(place) => *place = key,
            None => {
                self.many.reserve(self.most);
                self.many.extend(self.few);
                self.many.insert(key);
            }
        }
        self.count += 1;
        true
    }
}

pub type TextHashing = BuildHasherDefault<TextHasher>;

/// Hashes texts eight bytes at a time. There are at most as many texts as rows,
/// so texts chosen to collide cost little.
#[derive(Default)]
pub struct TextHasher(u64);

impl TextHasher {
    fn add(&mut self, word: u64) {
        let product = u128::from(self.0 ^ word) * 0x9e37_79b9_7f4a_7c15;
        self.0 = product as u64 ^ (product >> 64) as u64;
    }
}

impl Hasher for TextHasher {
    fn write(&mut self, bytes: &[u8]) {
        let (words, rest) = bytes.as_chunks::<8>();
        for word in words {
            self.add(u64::from_le_bytes(*word));
        }
        let last = rest
            .iter()
            .fold(0, |last, &byte| last << 8 | u64::from(byte));
        self.add(last);
    }

    fn write_usize(&mut self, length: usize) {
        self.add(length as u64 + 1);
    }

    fn finish(&self) -> u64 {
        self.0
    }
}

#[cfg(test)]
mod tests {
    use super::*;

    #[test]
    fn each_key_once() {
        let texts: Vec<String> = (0..50).map(|number| format!("{number}")).collect();
        for count in 0..texts.len() {
            for again in 0..count {
                let mut keys = Keys::new(count as u32 + 1, 4_096);
                for text in &texts[..count] {
                    assert!(keys.add(text.as_bytes()));
                }
                assert!(!keys.add(texts[again].as_bytes()));
            }
        }
    }

    #[test]
    fn an_empty_key_is_one() {
        let mut keys = Keys::new(3, 8);
        assert!(keys.add(b"a"));
        assert!(keys.add(b""));
        assert!(!keys.add(b""));
    }
}
