//! The buckets of texts, by the definition in `crates/spread`, so that texts can
//! be picked for one. Where that changes, this has to follow, or nothing that is
//! picked is slow.

/// The buckets of the keys of a table or message of 1,024 rows or more, and
/// those of the writer's strings.
pub const KEY_BUCKETS: u64 = 4_096;
pub const STRING_BUCKETS: u64 = 2_048;

const LOW: u64 = 0xffff_ffff;
const FACTOR: u64 = 1_540_483_477;
const FOLDING: u64 = 625_341_585;

/// The bucket of a key, by all its bytes; a string of fewer than 80 bytes has the
/// same in the writer.
pub fn bucket(text: &[u8], salt: u64, buckets: u64) -> u64 {
    (((sum(text) + salt * FACTOR) & LOW) * buckets) >> 32
}

fn sum(text: &[u8]) -> u64 {
    let last = text.len() - 4;
    match text.len() {
        4..=12 => {
            four(text, 0) * 625_341_585
                + four(text, last / 2) * 1_013_904_243
                + four(text, last) * 668_265_263
        }
        13..=20 => [last / 4, last / 2, last * 3 / 4, last]
            .into_iter()
            .fold(four(text, 0), |sum, at| mix(sum, four(text, at))),
        _ => folded(text),
    }
}

fn four(text: &[u8], at: usize) -> u64 {
    u32::from_le_bytes(text[at..at + 4].try_into().unwrap()).into()
}

fn mix(sum: u64, word: u64) -> u64 {
    ((sum + word) * FACTOR) & LOW
}

fn fold(sum: u64, word: u64) -> u64 {
    let product = (sum + word) * FOLDING;
    (product & LOW) + (product >> 32)
}

/// Four lanes over the sixteens, and then the last sixteen bytes.
fn folded(text: &[u8]) -> u64 {
    let mut lanes = [0; 4];
    for sixteen in text.chunks_exact(16) {
        for (lane, sum) in lanes.iter_mut().enumerate() {
            *sum = fold(*sum, four(sixteen, 4 * lane));
        }
    }
    let [first, others @ ..] = lanes;
    let sum = others.into_iter().fold(first, fold);
    let ends = [16, 12, 8, 4].map(|before| four(text, text.len() - before));
    ends.into_iter().fold(sum, fold)
}

/// So many texts of a length that all fall in bucket 0; they differ at their
/// ends alone.
pub fn picked(count: usize, length: usize, salt: u64, buckets: u64) -> Vec<Vec<u8>> {
    let mut found = Vec::new();
    let mut text = vec![b'a'; length];
    for number in 0_u64.. {
        for (place, letter) in text.iter_mut().rev().take(5).enumerate() {
            *letter = b'0' + (number >> (6 * place)) as u8 % 64;
        }
        if bucket(&text, salt, buckets) == 0 {
            found.push(text.clone());
        }
        if found.len() == count {
            break;
        }
    }
    found
}

/// Words of four letters that change no sum of a long text, where one stands for
/// another: their difference times the factor is a multiple of 2^32 - 1.
const ALIKE: [u8; 5] = *b"AR0ct";

/// So many texts of a length (a multiple of 16) with one sum: they differ in
/// their last words alone.
pub fn of_one_sum(count: usize, length: usize) -> Vec<Vec<u8>> {
    (0..count)
        .map(|number| {
            let mut text = vec![b'A'; length];
            let mut rest = number;
            for word in text.rchunks_exact_mut(4) {
                word.fill(ALIKE[rest % 5]);
                rest /= 5;
            }
            text
        })
        .collect()
}
