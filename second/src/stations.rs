//! Stations four and five on one table, written from document 02 (request
//! E10) only: a station's share is cut out of the table's rows, and lent to the
//! functions that take a table.

use crate::rules::ROW_WORDS;

/// The row number is 0, or not below the table's whole rows.
pub const NOT_SPLIT: u8 = 22;

#[derive(Clone, Copy, Debug, PartialEq, Eq)]
pub enum Station {
    Four,
    Five,
}

/// The station's rows of a table that is split at a row, as words: those below
/// the row are four's, the rest five's, and words beyond the last whole row are
/// no one's.
pub fn share(table: &[u32], row: usize, station: Station) -> Result<&[u32], u8> {
    let (rows, _) = table.as_chunks::<ROW_WORDS>();
    if row == 0 || rows.len() <= row {
        return Err(NOT_SPLIT);
    }
    let (below, rest) = rows.split_at(row);
    Ok(match station {
        Station::Four => below.as_flattened(),
        Station::Five => rest.as_flattened(),
    })
}

/// The same, to be changed.
pub fn share_mut(table: &mut [u32], row: usize, station: Station) -> Result<&mut [u32], u8> {
    let (rows, _) = table.as_chunks_mut::<ROW_WORDS>();
    if row == 0 || rows.len() <= row {
        return Err(NOT_SPLIT);
    }
    let (below, rest) = rows.split_at_mut(row);
    Ok(match station {
        Station::Four => below.as_flattened_mut(),
        Station::Five => rest.as_flattened_mut(),
    })
}

#[cfg(test)]
mod tests {
    use super::*;
    use crate::layout::ByRows;
    use crate::papers::{FOUR, UNSET_RECALL, bytes_of};
    use crate::{Read, read};

    #[test]
    fn rows_that_split() {
        for words in 0..40 {
            let table: Vec<u32> = (0..words).collect();
            for row in 0..12 {
                let four = share(&table, row, Station::Four);
                let five = share(&table, row, Station::Five);
                if row == 0 || row >= words as usize / 4 {
                    assert_eq!((four, five), (Err(22), Err(22)));
                    continue;
                }
                let whole = words as usize / 4 * 4;
                assert_eq!(four, Ok(&table[..4 * row]));
                assert_eq!(five, Ok(&table[4 * row..whole]));
            }
        }
    }

    #[test]
    fn other_words_stay() {
        let mut table = [7; 19];
        let five = share_mut(&mut table, 2, Station::Five).unwrap();
        assert_eq!(
            read::<ByRows>(&bytes_of(FOUR), five),
            Read::Accepted { rows: 2, used: 18 }
        );
        assert_eq!(table[..8], [7; 8]);
        assert_eq!(table[8..16], [2, 0, 1, 2, 4, 4, 0, 2]);
        assert_eq!(table[16..], [7; 3]);
        let four = share_mut(&mut table, 2, Station::Four).unwrap();
        assert!(matches!(
            read::<ByRows>(&bytes_of(UNSET_RECALL), four),
            Read::Refused { number: 6, .. }
        ));
        assert_eq!(table[..8], [0; 8]);
        assert_eq!(table[8..16], [2, 0, 1, 2, 4, 4, 0, 2]);
        assert_eq!(table[16..], [7; 3]);
    }
}
