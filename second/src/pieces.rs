//! Messages in pieces, written from document 02 (request E6) only: all bytes
//! are kept, and the whole is read again after each piece.

use crate::layout::Layout;
use crate::reader::{Read, read_within};
use crate::rules::{BYTE_LIMIT, USUAL_LIMIT, is_limit, refusal};

/// What stands after a piece.
#[derive(Clone, Copy, Debug, PartialEq, Eq)]
pub enum Outcome {
    /// The place at which the bytes so far would be refused with 1.
    MoreWanted {
        place: usize,
    },
    Accepted {
        rows: usize,
        used: usize,
    },
    Refused {
        number: u8,
        place: usize,
    },
}

/// A message of which some pieces have come.
pub struct Pieces {
    bytes: Vec<u8>,
    outcome: Outcome,
}

impl Pieces {
    /// Nothing has come.
    pub fn start() -> Self {
        Pieces {
            bytes: Vec::new(),
            outcome: Outcome::MoreWanted { place: 0 },
        }
    }

    /// How many bytes are held, while more are wanted.
    pub fn held(&self) -> usize {
        match self.outcome {
            Outcome::MoreWanted { .. } => self.bytes.len(),
            _ => 0,
        }
    }

    /// Takes the next piece into the room, and reads into the table.
    pub fn next<L: Layout>(&mut self, piece: &[u8], room: &mut [u8], table: &mut [u32]) -> Outcome {
        self.next_within::<L>(piece, room, table, USUAL_LIMIT)
    }

    /// The same, at this limit of nesting.
    pub fn next_within<L: Layout>(
        &mut self,
        piece: &[u8],
        room: &mut [u8],
        table: &mut [u32],
        limit: usize,
    ) -> Outcome {
        if let Some(refused) = self.refused_before_all(room, table, limit) {
            return refused;
        }
        if !matches!(self.outcome, Outcome::MoreWanted { .. }) {
            return self.outcome;
        }
        self.bytes.extend(piece);
        let within = &self.bytes[..self.bytes.len().min(BYTE_LIMIT)];
        room[..within.len()].copy_from_slice(within);
        self.outcome = match read_within::<L>(within, table, limit) {
            Read::Refused {
                number: refusal::CUT,
                place,
            } => match self.bytes.len() > BYTE_LIMIT {
                true => Outcome::Refused {
                    number: refusal::BYTES,
                    place: 0,
                },
                false => Outcome::MoreWanted { place },
            },
            Read::Refused { number, place } => Outcome::Refused { number, place },
            Read::Accepted { rows, used } => Outcome::Accepted { rows, used },
        };
        self.outcome
    }

    /// No more pieces come.
    pub fn end(&mut self, room: &[u8], table: &mut [u32]) -> Outcome {
        self.end_within(room, table, USUAL_LIMIT)
    }

    /// The same, at this limit of nesting.
    pub fn end_within(&mut self, room: &[u8], table: &mut [u32], limit: usize) -> Outcome {
        if let Some(refused) = self.refused_before_all(room, table, limit) {
            return refused;
        }
        if let Outcome::MoreWanted { place } = self.outcome {
            table.fill(0);
            let number = refusal::CUT;
            self.outcome = Outcome::Refused { number, place };
        }
        self.outcome
    }

    /// What is refused whatever came: a limit that is none, then a short room.
    fn refused_before_all(
        &mut self,
        room: &[u8],
        table: &mut [u32],
        limit: usize,
    ) -> Option<Outcome> {
        let number = match (is_limit(limit), room.len() < BYTE_LIMIT) {
            (false, _) => refusal::LIMIT,
            (true, true) => refusal::ROOM,
            (true, false) => return None,
        };
        table.fill(0);
        self.outcome = Outcome::Refused { number, place: 0 };
        Some(self.outcome)
    }
}

#[cfg(test)]
mod tests {
    use super::*;
    use crate::layout::ByRows;
    use crate::papers::{FOUR, UNSET_RECALL, bytes_of};

    /// The outcome of each call with a room of so many bytes, the end's last;
    /// the room is checked to begin with what came and to keep its rest.
    fn outcomes(pieces: &[&[u8]], room: usize) -> Vec<Outcome> {
        let (mut room, mut table) = (vec![0xaa; room], vec![7; 8]);
        let mut state = Pieces::start();
        let mut outcomes = Vec::new();
        let mut came = Vec::new();
        for piece in pieces {
            if matches!(state.outcome, Outcome::MoreWanted { .. }) {
                came.extend(*piece);
            }
            outcomes.push(state.next::<ByRows>(piece, &mut room, &mut table));
            came.truncate(BYTE_LIMIT);
            if room.len() < BYTE_LIMIT {
                came.clear();
            }
            assert_eq!(room[..came.len()], came);
            assert!(room[came.len()..].iter().all(|&byte| byte == 0xaa));
            let accepted = matches!(state.outcome, Outcome::Accepted { .. });
            assert_eq!(accepted, table.iter().any(|&word| word != 0));
        }
        outcomes.push(state.end(&room, &mut table));
        outcomes
    }

    fn refused(number: u8, place: usize) -> Outcome {
        Outcome::Refused { number, place }
    }

    fn wanted(place: usize) -> Outcome {
        Outcome::MoreWanted { place }
    }

    const ACCEPTED: Outcome = Outcome::Accepted { rows: 2, used: 18 };

    #[test]
    fn cut_in_two_and_ended() {
        let message = bytes_of(FOUR);
        for cut in 0..message.len() {
            let place = match cut {
                0..12 => 0,
                12 => 12,
                _ => 13,
            };
            let (left, right) = message.split_at(cut);
            let both = outcomes(&[left, right], BYTE_LIMIT);
            assert_eq!(both, [wanted(place), ACCEPTED, ACCEPTED]);
            let one = outcomes(&[left, b""], BYTE_LIMIT + 9);
            assert_eq!(one, [wanted(place), wanted(place), refused(1, place)]);
        }
    }

    #[test]
    fn no_pieces_and_empty_ones() {
        assert_eq!(outcomes(&[], BYTE_LIMIT), [refused(1, 0)]);
        assert_eq!(outcomes(&[b""], BYTE_LIMIT), [wanted(0), refused(1, 0)]);
    }

    #[test]
    fn later_pieces_change_nothing() {
        let (four, unset) = (bytes_of(FOUR), bytes_of(UNSET_RECALL));
        let after = outcomes(&[&four, b"binmode-rpc:", b""], BYTE_LIMIT);
        assert_eq!(after, [ACCEPTED; 4]);
        let after = outcomes(&[&unset, &four], BYTE_LIMIT);
        assert_eq!(after, [refused(6, 13); 3]);
        assert_eq!(outcomes(&[b"x", &four], BYTE_LIMIT), [refused(2, 0); 3]);
    }

    #[test]
    fn a_short_room() {
        let four = bytes_of(FOUR);
        for room in [0, 1, BYTE_LIMIT - 1] {
            assert_eq!(outcomes(&[], room), [refused(4, 0)]);
            assert_eq!(outcomes(&[&four, b"x"], room), [refused(4, 0); 3]);
        }
    }

    #[test]
    fn over_the_limit() {
        // Accepted within the limit, whatever the piece goes on with.
        let long = [bytes_of(FOUR), vec![b'x'; 2 * BYTE_LIMIT]].concat();
        assert_eq!(outcomes(&[&long], BYTE_LIMIT), [ACCEPTED; 2]);
        let prefix = &long[..5];
        let rest = &long[5..];
        let both = outcomes(&[prefix, rest], BYTE_LIMIT + 1);
        assert_eq!(both, [wanted(0), ACCEPTED, ACCEPTED]);
        // A Binary that needs one byte more than may come.
        let length = (BYTE_LIMIT as u32 - 17).to_le_bytes();
        let mut binary = [&b"binmode-rpc:RB"[..], &length].concat();
        binary.resize(BYTE_LIMIT + 1, 0);
        let (full, over) = binary.split_at(BYTE_LIMIT);
        let all = outcomes(&[full, b"", over, b""], BYTE_LIMIT);
        assert_eq!(all[..2], [wanted(13); 2]);
        assert_eq!(all[2..], [refused(10, 0); 3]);
        assert_eq!(outcomes(&[&binary], BYTE_LIMIT), [refused(10, 0); 2]);
        let one_less = [
            &binary[..14],
            &(u32::from_le_bytes(length) - 1).to_le_bytes(),
            &full[18..],
        ]
        .concat();
        let accepted = Outcome::Accepted {
            rows: 2,
            used: BYTE_LIMIT,
        };
        assert_eq!(outcomes(&[&one_less, over], BYTE_LIMIT), [accepted; 3]);
    }
}
