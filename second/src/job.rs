//! Whole job files, written from document 02 (request E2) only: a row of
//! records, of which those of kind 1 are card messages.

use crate::layout::Layout;
use crate::reader::{Read, read_within};
use crate::rules::NESTING_LIMIT;

/// Refusals that the file gives, and not a card.
pub mod refusal {
    /// The file ends before or inside a record, with no kind 2 yet.
    pub const FILE_ENDED: u8 = 15;
    /// A kind 2 body of wrong length or number.
    pub const WRONG_END: u8 = 16;
    /// A sound job ends before the card asked for.
    pub const NO_CARD: u8 = 26;
}

/// A record that stands whole in the file.
struct Record<'f> {
    place: usize,
    kind: u16,
    body: &'f [u8],
}

/// What comes next in the file.
enum Next<'f> {
    Record(Record<'f>),
    /// No whole record; the place where it would begin.
    Ended(usize),
}

/// The records of a file, one after the other.
struct Records<'f> {
    file: &'f [u8],
    place: usize,
}

const HEAD: usize = 6;

impl<'f> Records<'f> {
    fn next(&mut self) -> Next<'f> {
        let place = self.place;
        let rest = &self.file[place..];
        let Some((head, rest)) = rest.split_first_chunk::<HEAD>() else {
            return Next::Ended(place);
        };
        let [a, b, c, d, e, f] = *head;
        let length = u32::from_le_bytes([a, b, c, d]) as usize;
        let kind = u16::from_le_bytes([e, f]);
        match rest.get(..length) {
            None => Next::Ended(place),
            Some(body) => {
                self.place += HEAD + length;
                Next::Record(Record { place, kind, body })
            }
        }
    }
}

/// A job as far as it can be read.
pub struct Job<'f> {
    /// The cards that stand whole: the place of each body in the file, and the
    /// body.
    pub cards: Vec<(usize, &'f [u8])>,
    /// What is given to who asks for a card that is not among them.
    pub end: (u8, usize),
}

impl<'f> Job<'f> {
    pub fn new(file: &'f [u8]) -> Self {
        let mut cards = Vec::new();
        let mut records = Records { file, place: 0 };
        let end = loop {
            match records.next() {
                Next::Ended(place) => break (refusal::FILE_ENDED, place),
                Next::Record(record) => match record.kind {
                    1 => cards.push((record.place + HEAD, record.body)),
                    2 => break (judge_end(record.body, cards.len()), record.place),
                    _ => {}
                },
            }
        };
        Job { cards, end }
    }

    /// Whether it ends with a kind 2 record that is right.
    pub fn is_sound(&self) -> bool {
        self.end.0 == refusal::NO_CARD
    }
}

fn judge_end(body: &[u8], cards: usize) -> u8 {
    match <[u8; 4]>::try_from(body) {
        Ok(count) if u32::from_le_bytes(count) as usize == cards => refusal::NO_CARD,
        _ => refusal::WRONG_END,
    }
}

/// What asking for a card answers.
#[derive(Clone, Copy, Debug, PartialEq, Eq)]
pub enum Card {
    Accepted {
        rows: usize,
        used: usize,
        /// The body's first byte in the file.
        body: usize,
    },
    Refused {
        number: u8,
        place: usize,
    },
}

/// Reads card `number` of a file into a table, which is all zeros on a
/// refusal. Looks no further than the card's record.
pub fn read_card<L: Layout>(file: &[u8], number: usize, table: &mut [u32]) -> Card {
    match find(file, number) {
        Ok((body, message)) => match read_within::<L>(message, table, NESTING_LIMIT) {
            Read::Accepted { rows, used } => Card::Accepted { rows, used, body },
            Read::Refused { number, place } => Card::Refused { number, place },
        },
        Err((number, place)) => {
            table.fill(0);
            Card::Refused { number, place }
        }
    }
}

fn find(file: &[u8], number: usize) -> Result<(usize, &[u8]), (u8, usize)> {
    let mut records = Records { file, place: 0 };
    let mut cards = 0;
    loop {
        match records.next() {
            Next::Ended(place) => return Err((refusal::FILE_ENDED, place)),
            Next::Record(record) => match record.kind {
                1 if cards == number => return Ok((record.place + HEAD, record.body)),
                1 => cards += 1,
                2 => return Err((judge_end(record.body, cards), record.place)),
                _ => {}
            },
        }
    }
}

/// A record, for making files.
pub fn record(kind: u16, body: &[u8]) -> Vec<u8> {
    let length = (body.len() as u32).to_le_bytes();
    [&length[..], &kind.to_le_bytes(), body].concat()
}

/// A sound job of these cards.
pub fn job(cards: &[&[u8]]) -> Vec<u8> {
    let mut file: Vec<u8> = cards.iter().flat_map(|card| record(1, card)).collect();
    file.extend(record(2, &(cards.len() as u32).to_le_bytes()));
    file
}

#[cfg(test)]
mod tests {
    use super::*;
    use crate::layout::ByRows;

    const CARD: &[u8] = b"binmode-rpc:RI\x04\0\0\0";

    fn asked(file: &[u8], number: usize) -> Card {
        read_card::<ByRows>(file, number, &mut [7; 8])
    }

    fn refused(number: u8, place: usize) -> Card {
        Card::Refused { number, place }
    }

    fn accepted(body: usize) -> Card {
        let (rows, used) = (2, 18);
        Card::Accepted { rows, used, body }
    }

    fn end(cards: u32) -> Vec<u8> {
        record(2, &cards.to_le_bytes())
    }

    #[test]
    fn cards_by_number() {
        // Seven bytes of another kind, then cards of 24 bytes.
        let file = [record(9, b"?"), record(1, CARD), record(1, CARD), end(2)].concat();
        assert_eq!(asked(&file, 0), accepted(13));
        assert_eq!(asked(&file, 1), accepted(37));
        assert_eq!(asked(&file, 2), refused(26, 55));
        assert_eq!(asked(&file, usize::MAX), refused(26, 55));
    }

    #[test]
    fn an_unknown_kind_is_no_card() {
        let file = [record(0, CARD), record(257, CARD), record(1, CARD), end(1)].concat();
        assert_eq!(asked(&file, 0), accepted(54));
        assert_eq!(asked(&file, 1), refused(26, 72));
    }

    #[test]
    fn faults_of_the_file() {
        assert_eq!(asked(b"", 0), refused(15, 0));
        assert_eq!(asked(&end(0), 0), refused(26, 0));
        assert_eq!(asked(&end(1), 0), refused(16, 0));
        assert_eq!(asked(&record(2, b"\0\0\0"), 0), refused(16, 0));
        assert_eq!(asked(&record(2, b"\0\0\0\0\0"), 0), refused(16, 0));
        // 15 first: a kind 2 of wrong length that is cut.
        assert_eq!(asked(b"\x05\0\0\0\x02\0\0\0\0\0", 0), refused(15, 0));
        assert_eq!(asked(b"\xff\xff\xff\xff\x01\0", 0), refused(15, 0));
    }

    #[test]
    fn a_card_before_a_fault_still_reads() {
        let file = job(&[CARD, CARD]);
        for cut in 0..file.len() {
            let first = if cut < 24 {
                refused(15, 0)
            } else {
                accepted(6)
            };
            assert_eq!(asked(&file[..cut], 0), first);
        }
    }

    #[test]
    fn bytes_after_the_end_are_ignored() {
        let file = [job(&[CARD]), record(1, CARD)].concat();
        assert_eq!(asked(&file, 1), refused(26, 24));
    }

    #[test]
    fn a_card_keeps_its_own_place() {
        let file = job(&[CARD, b"binmode-rpc:R<\x02"]);
        assert_eq!(asked(&file, 1), refused(6, 13));
    }

    #[test]
    fn a_codebook_ends_with_its_card() {
        let file = job(&[b"binmode-rpc:R>\x02\0\0\0\0", b"binmode-rpc:R<\x02"]);
        assert_eq!(asked(&file, 1), refused(6, 13));
    }
}
