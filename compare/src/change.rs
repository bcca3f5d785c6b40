//! Damage to any message, wherever it stands.

use second::generate::Random;

const TAGS: &[u8] = b"CRFItfD8BASOU><";

/// A message with one thing changed.
pub fn changed(random: &mut Random, message: &[u8]) -> Vec<u8> {
    let mut bytes = message.to_vec();
    let place = place(random, bytes.len());
    match random.below(10) {
        0 => bytes.truncate(place),
        1 => bytes.insert(place, random.byte()),
        2 => bytes.insert(place, *random.pick(TAGS)),
        3 => {
            let end = (place + random.between(1, 6)).min(bytes.len());
            bytes.drain(place..end);
        }
        4 => set(&mut bytes, place, random.byte()),
        5 => set(&mut bytes, place, *random.pick(TAGS)),
        6 => {
            let bit = 1 << random.below(8);
            bytes
                .iter_mut()
                .skip(place)
                .take(1)
                .for_each(|byte| *byte ^= bit);
        }
        7 => {
            // A part of it again, at another place.
            let end = (place + random.between(1, 40)).min(bytes.len());
            let part = bytes[place..end].to_vec();
            let to = random.below(bytes.len() + 1);
            bytes.splice(to..to, part);
        }
        _ => {
            if let Some(field) = bytes.get_mut(place..).and_then(<[u8]>::first_chunk_mut) {
                let value = u32::from_le_bytes(*field);
                *field = near_or_huge(random, value).to_le_bytes();
            }
        }
    }
    bytes
}

/// Mostly among the first bytes behind the prefix, also of a long message.
fn place(random: &mut Random, length: usize) -> usize {
    match random.below(8) {
        0 => random.below(length + 1),
        1..4 => random.between(12, 40).min(length),
        _ => random.between(12, 12.max(length)).min(length),
    }
}

fn set(bytes: &mut [u8], place: usize, value: u8) {
    if let Some(byte) = bytes.get_mut(place) {
        *byte = value;
    }
}

/// A number off by one from this one, or of a size that tempts to overflow.
fn near_or_huge(random: &mut Random, value: u32) -> u32 {
    match random.below(6) {
        0 | 1 => value.wrapping_add(1),
        2 | 3 => value.wrapping_sub(1),
        4 => u32::MAX - random.below(40) as u32,
        _ => *random.pick(&[0, 1 << 16, 65_535, 65_537, 1 << 30, 1 << 31, (1 << 31) - 1]),
    }
}
