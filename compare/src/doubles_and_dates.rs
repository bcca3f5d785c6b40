//! Every date, every time of a day and every short text of a Double, by the
//! library and by the second implementation.

use crate::reading::{Compared, Reading};
use crate::writing::Writing;
use second::generate::Random;
use second::generate::Table;
use second::rules::PREFIX;
use second::rules::kind;

/// What a Gregorian calendar has in 400 years, after which it repeats.
const DAYS_OF_A_CYCLE: usize = 146_097;
const CYCLE: usize = 400;

/// Where the text stands in a message that is one Double or DateTime.
const TEXT: usize = PREFIX.len() + 3;

/// Reads all years, months 0 to 13 and days 0 to 32; all times up to
/// 99:99:99; all texts of up to six bytes over those that a Double is made
/// of and their neighbours; and a right text with each byte of every value.
pub fn read(random: &mut Random, reading: &mut Reading) -> Compared {
    let mut message = response(b'8', b"00000101T00:00:00");
    let (mut dates, mut days) = (0, 0);
    for year in 0..25 * CYCLE {
        put(&mut message, 0, year, 4);
        days += in_year(&mut message, |message| {
            dates += 1;
            let answer = reading.compare(random, message, 8, None)?;
            Ok(answer.number)
        })?;
    }
    expect("days", days, 25 * DAYS_OF_A_CYCLE)?;
    let mut message = response(b'8', b"20000229T00:00:00");
    let mut seconds = 0;
    for time in 0..1_000_000 {
        put(&mut message, 9, time / 10_000, 2);
        put(&mut message, 12, time / 100 % 100, 2);
        put(&mut message, 15, time % 100, 2);
        seconds += usize::from(reading.compare(random, &message, 8, None)?.number == 0);
    }
    expect("seconds of a day", seconds, 24 * 60 * 60)?;
    let mut texts = 0;
    for length in 0..=6 {
        for text in short(b"+-.09/:e", length) {
            reading.compare(random, &response(b'D', &text), 8, None)?;
            texts += 1;
        }
    }
    for (tag, text) in [(b'D', &b"-12.75"[..]), (b'8', b"19980717T14:08:55")] {
        for place in TEXT..TEXT + text.len() {
            for value in 0..=u8::MAX {
                let mut message = response(tag, text);
                message[place] = value;
                reading.compare(random, &message, 8, None)?;
                texts += 1;
            }
        }
    }
    println!(
        "read: {dates} dates, of them {days} days; 1000000 times of a day; {texts} other texts"
    );
    Ok(())
}

/// Writes the dates of 400 years, which have every length of every month.
pub fn written(random: &mut Random, writing: &mut Writing) -> Compared {
    let mut table = Table {
        words: vec![kind::RESPONSE, 0, 1, 2, kind::DATE_TIME, TEXT as u32, 17, 2],
        rows: 2,
        text: response(b'8', b"00000101T23:59:59"),
    };
    let mut days = 0;
    let mut message = table.text.clone();
    for year in 1_900..1_900 + CYCLE {
        put(&mut message, 0, year, 4);
        days += in_year(&mut message, |message| {
            table.text.copy_from_slice(message);
            writing.compare(random, &table, 40, None)
        })?;
    }
    expect("days written", days, DAYS_OF_A_CYCLE)?;
    println!("written: {days} days of {CYCLE} years");
    Ok(())
}

/// Calls with each date of the message's year, and gives how many are accepted.
fn in_year(
    message: &mut [u8],
    mut call: impl FnMut(&[u8]) -> Result<u8, String>,
) -> Result<usize, String> {
    let mut accepted = 0;
    for month in 0..=13 {
        put(message, 4, month, 2);
        for day in 0..=32 {
            put(message, 6, day, 2);
            accepted += usize::from(call(message)? == 0);
        }
    }
    Ok(accepted)
}

fn expect(what: &str, count: usize, right: usize) -> Compared {
    match count == right {
        true => Ok(()),
        false => Err(format!(
            "{count} {what} are accepted, and there are {right}"
        )),
    }
}

/// A Response with this Double or DateTime.
fn response(tag: u8, text: &[u8]) -> Vec<u8> {
    [PREFIX, &[b'R', tag, text.len() as u8][..], text].concat()
}

/// Puts so many digits of a number at a place of the text.
fn put(message: &mut [u8], place: usize, mut number: usize, digits: usize) {
    for byte in message[TEXT + place..][..digits].iter_mut().rev() {
        *byte = b'0' + (number % 10) as u8;
        number /= 10;
    }
}

/// Every text of this length over these bytes.
fn short(bytes: &[u8], length: u32) -> impl Iterator<Item = Vec<u8>> {
    (0..bytes.len().pow(length)).map(move |number| {
        let byte = |place| bytes[number / bytes.len().pow(place) % bytes.len()];
        (0..length).map(byte).collect()
    })
}
