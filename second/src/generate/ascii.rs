//! Texts of Doubles and DateTimes: good, nearly good, and any ASCII.

use super::Random;
use crate::rules::{SIZE_LIMIT, days_of};

/// A good text of a Double or DateTime, by its tag.
pub fn good(random: &mut Random, tag: u8) -> Vec<u8> {
    match tag {
        b'D' => double(random),
        _ => date_time(random),
    }
}

/// A text that is nearly good, or any ASCII; now and then it is still good.
pub fn doubtful(random: &mut Random, tag: u8) -> Vec<u8> {
    match random.below(8) {
        0 => good(random, if tag == b'D' { b'8' } else { b'D' }),
        1 => {
            let length = *random.pick(&[0, 1, 2, 3, 4, 16, 17, 18, 255]);
            let bytes = random.bytes(length);
            bytes.into_iter().map(|byte| byte & 127).collect()
        }
        _ if tag == b'D' => near_double(random),
        _ => near_date_time(random),
    }
}

fn digits(random: &mut Random, count: usize) -> Vec<u8> {
    let zeros = random.one_in(4);
    let digit = |random: &mut Random| match zeros {
        true if !random.one_in(6) => b'0',
        _ => random.between(b'0' as usize, b'9' as usize) as u8,
    };
    (0..count).map(|_| digit(random)).collect()
}

/// Of any length up to the most that a size byte can say.
fn double(random: &mut Random) -> Vec<u8> {
    let sign = *random.pick(&[&b""[..], b"", b"+", b"-"]);
    let (whole, fraction) = match random.below(12) {
        0 => (1, 1),
        1 => {
            let both = SIZE_LIMIT as usize - 1 - sign.len() - random.below(2);
            let whole = random.between(1, both - 1);
            (whole, both - whole)
        }
        2..6 => (random.between(1, 20), random.between(1, 25)),
        _ => (random.between(1, 4), random.between(1, 3)),
    };
    let (whole, fraction) = (digits(random, whole), digits(random, fraction));
    [sign, &whole, b".", &fraction].concat()
}

/// A Double around the most digits that a decimal may have: leading zeros, then
/// up to 17 digits, of which up to 24 stand after the point.
pub fn decimal(random: &mut Random) -> Vec<u8> {
    let sign = *random.pick(&[&b""[..], b"+", b"-"]);
    let count = match random.below(3) {
        0 => random.between(14, 17),
        _ => random.between(0, 17),
    };
    let mut text = digits(random, count);
    if !text.is_empty() && random.one_in(2) {
        text[0] = b'1' + random.below(9) as u8;
    }
    let after_point = match random.below(3) {
        0 => random.between(20, 24),
        _ => random.between(1, 24),
    };
    let leading = (after_point + 1).saturating_sub(text.len());
    let leading = leading + random.below(4) * random.below(2);
    text.splice(0..0, vec![b'0'; leading]);
    text.insert(text.len() - after_point, b'.');
    [sign, &text].concat()
}

/// A Double with one thing wrong.
fn near_double(random: &mut Random) -> Vec<u8> {
    const WRONG: [&[u8]; 17] = [
        b"", b"+", b"-", b".", b"+.", b"2", b"-2", b"2.", b".5", b"+.5", b"-2.", b"--2.5",
        b"2.7.5", b"2,75", b" 2.75", b"2.75 ", b"1.5e3",
    ];
    let mut text = double(random);
    match random.below(4) {
        0 => return random.pick(&WRONG).to_vec(),
        1 => text.retain(|&byte| byte != b'.'),
        2 => drop(text.remove(random.below(text.len()))),
        _ => return changed(random, text),
    }
    text
}

const YEARS: [u32; 16] = [
    0, 1, 4, 100, 400, 1582, 1600, 1700, 1900, 1996, 1999, 2000, 2004, 2100, 2400, 9999,
];

fn date(year: u32, month: u32, day: u32, [hour, minute, second]: [u32; 3]) -> Vec<u8> {
    format!("{year:04}{month:02}{day:02}T{hour:02}:{minute:02}:{second:02}").into_bytes()
}

fn year(random: &mut Random) -> u32 {
    match random.below(2) {
        0 => *random.pick(&YEARS),
        _ => random.below(10_000) as u32,
    }
}

fn time(random: &mut Random) -> [u32; 3] {
    [23, 59, 59].map(|last| match random.below(4) {
        0 => last,
        _ => random.below(last as usize + 1) as u32,
    })
}

fn date_time(random: &mut Random) -> Vec<u8> {
    let (year, month) = (year(random), random.between(1, 12) as u32);
    let last = days_of(year, month);
    let day = match random.below(3) {
        0 => last,
        _ => random.between(1, last as usize) as u32,
    };
    date(year, month, day, time(random))
}

/// A DateTime with one thing wrong, or just not.
fn near_date_time(random: &mut Random) -> Vec<u8> {
    let (year, time) = (year(random), time(random));
    let (month, day) = (random.between(1, 12) as u32, random.between(1, 28) as u32);
    match random.below(7) {
        0 => date(year, 2, random.between(28, 30) as u32, time),
        1 => date(year, month, random.between(28, 32) as u32, time),
        2 => date(year, month, 0, time),
        3 => date(year, *random.pick(&[0, 13, 99]), day, time),
        4 => {
            let mut time = [0; 3];
            time[random.below(3)] = *random.pick(&[23, 24, 59, 60, 61, 99]);
            date(year, month, day, time)
        }
        5 => {
            // A byte too few or too many.
            let mut text = date_time(random);
            let place = random.below(text.len());
            match random.below(2) {
                0 => drop(text.remove(place)),
                _ => text.insert(place, b'0'),
            }
            text
        }
        _ => {
            let text = date_time(random);
            changed(random, text)
        }
    }
}

/// One byte another one, often next to the digits or of the same form.
fn changed(random: &mut Random, mut text: Vec<u8>) -> Vec<u8> {
    let place = random.below(text.len());
    text[place] = match random.below(2) {
        0 => *random.pick(b"/:0159+-.,eET \0\x7f"),
        _ => random.byte() & 127,
    };
    text
}
