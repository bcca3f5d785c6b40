//! Bytes as hexadecimal digits, `-` for no bytes.

pub fn encode(bytes: &[u8]) -> String {
    if bytes.is_empty() {
        return "-".into();
    }
    let mut digits = String::with_capacity(2 * bytes.len());
    for byte in bytes {
        for half in [byte >> 4, byte & 15] {
            digits.push(char::from_digit(half.into(), 16).unwrap_or('?'));
        }
    }
    digits
}

/// The bytes of such digits, if they are well-formed.
pub fn decode(digits: &str) -> Option<Vec<u8>> {
    if digits == "-" {
        return Some(Vec::new());
    }
    let (pairs, []) = digits.as_bytes().as_chunks::<2>() else {
        return None;
    };
    let half = |digit: u8| char::from(digit).to_digit(16);
    pairs
        .iter()
        .map(|&[high, low]| Some((half(high)? << 4 | half(low)?) as u8))
        .collect()
}
