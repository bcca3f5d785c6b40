//! Where the words of a row stand in a table. Every function that takes a
//! table has the layout as a parameter.

use crate::rules::{ROW_LIMIT, ROW_WORDS};

/// Kind, a, b and end.
pub type Row = [u32; ROW_WORDS];

/// The rows of a table.
pub trait Rows: Copy {
    fn len(self) -> usize;
    /// The row of a number that is below their count.
    fn at(self, row: usize) -> Row;
    /// The first so many of them, if there are as many.
    fn first(self, rows: usize) -> Option<Self>;

    fn get(self, row: usize) -> Option<Row> {
        (row < self.len()).then(|| self.at(row))
    }

    fn all(self) -> impl Iterator<Item = Row> {
        (0..self.len()).map(move |row| self.at(row))
    }

    fn is_empty(self) -> bool {
        self.len() == 0
    }
}

/// The rows of a table that is to be filled.
pub trait RowsMut {
    fn len(&self) -> usize;
    fn put(&mut self, row: usize, words: Row);
    /// The first so many of them, which there are.
    fn first(&self, rows: usize) -> impl Rows;

    fn is_empty(&self) -> bool {
        self.len() == 0
    }
}

pub trait Layout {
    type Rows<'t>: Rows;
    type RowsMut<'t>: RowsMut;
    fn rows(table: &[u32]) -> Self::Rows<'_>;
    fn rows_mut(table: &mut [u32]) -> Self::RowsMut<'_>;
    /// Zeros in all words but those of the first rows.
    fn clear_behind(table: &mut [u32], rows: usize);
}

/// How many rows a table of so many words has room for.
pub fn room(words: usize) -> usize {
    (words / ROW_WORDS).min(ROW_LIMIT)
}

/// A row's four words, then the next row's, as tables were until request E12.
pub struct ByRows;

impl Layout for ByRows {
    type Rows<'t> = &'t [Row];
    type RowsMut<'t> = &'t mut [Row];

    fn rows(table: &[u32]) -> &[Row] {
        &table.as_chunks().0[..room(table.len())]
    }

    fn rows_mut(table: &mut [u32]) -> &mut [Row] {
        let room = room(table.len());
        &mut table.as_chunks_mut().0[..room]
    }

    fn clear_behind(table: &mut [u32], rows: usize) {
        table[rows * ROW_WORDS..].fill(0);
    }
}

impl Rows for &[Row] {
    fn len(self) -> usize {
        <[Row]>::len(self)
    }

    fn at(self, row: usize) -> Row {
        self[row]
    }

    fn first(self, rows: usize) -> Option<Self> {
        <[Row]>::get(self, ..rows)
    }
}

impl RowsMut for &mut [Row] {
    fn len(&self) -> usize {
        <[Row]>::len(self)
    }

    fn put(&mut self, row: usize, words: Row) {
        self[row] = words;
    }

    fn first(&self, rows: usize) -> impl Rows {
        &self[..rows]
    }
}

/// With room for so many rows as many kinds, then as many a's, b's and ends,
/// by document 02 (request E12).
pub struct ByColumns;

impl Layout for ByColumns {
    type Rows<'t> = Columns<'t>;
    type RowsMut<'t> = ColumnsMut<'t>;

    fn rows(table: &[u32]) -> Columns<'_> {
        let room = room(table.len());
        Columns([0, 1, 2, 3].map(|word| &table[word * room..][..room]))
    }

    fn rows_mut(table: &mut [u32]) -> ColumnsMut<'_> {
        let room = room(table.len());
        let (kinds, rest) = table.split_at_mut(room);
        let (a, rest) = rest.split_at_mut(room);
        let (b, rest) = rest.split_at_mut(room);
        ColumnsMut([kinds, a, b, &mut rest[..room]])
    }

    fn clear_behind(table: &mut [u32], rows: usize) {
        let room = room(table.len());
        for word in 0..ROW_WORDS {
            table[word * room..][rows..room].fill(0);
        }
        table[ROW_WORDS * room..].fill(0);
    }
}

/// Kinds, a's, b's and ends, as many of each.
#[derive(Clone, Copy)]
pub struct Columns<'t>([&'t [u32]; ROW_WORDS]);

impl Rows for Columns<'_> {
    fn len(self) -> usize {
        self.0[0].len()
    }

    fn at(self, row: usize) -> Row {
        let [kinds, a, b, ends] = self.0;
        [kinds[row], a[row], b[row], ends[row]]
    }

    fn all(self) -> impl Iterator<Item = Row> {
        let [kinds, a, b, ends] = self.0;
        let pairs = kinds.iter().zip(a).zip(b.iter().zip(ends));
        pairs.map(|((&kind, &a), (&b, &end))| [kind, a, b, end])
    }

    fn first(self, rows: usize) -> Option<Self> {
        (rows <= self.len()).then(|| Columns(self.0.map(|column| &column[..rows])))
    }
}

/// The same, to be filled.
pub struct ColumnsMut<'t>([&'t mut [u32]; ROW_WORDS]);

impl RowsMut for ColumnsMut<'_> {
    fn len(&self) -> usize {
        self.0[0].len()
    }

    fn put(&mut self, row: usize, words: Row) {
        let [kinds, a, b, ends] = &mut self.0;
        let [kind, of_a, of_b, end] = words;
        (kinds[row], a[row]) = (kind, of_a);
        (b[row], ends[row]) = (of_b, end);
    }

    fn first(&self, rows: usize) -> impl Rows {
        Columns(self.0.each_ref().map(|column| &column[..rows]))
    }
}

/// A table of columns with the rows of a table of rows; words that are no
/// row's are as they were.
pub fn columns_of(by_rows: &[u32]) -> Vec<u32> {
    let mut by_columns = by_rows.to_vec();
    let mut columns = ByColumns::rows_mut(&mut by_columns);
    for (row, &words) in ByRows::rows(by_rows).iter().enumerate() {
        columns.put(row, words);
    }
    by_columns
}

/// A table of rows with the rows of a table of columns.
pub fn rows_of(by_columns: &[u32]) -> Vec<u32> {
    let mut by_rows = by_columns.to_vec();
    let columns = ByColumns::rows(by_columns);
    for (row, words) in ByRows::rows_mut(&mut by_rows).iter_mut().enumerate() {
        *words = columns.at(row);
    }
    by_rows
}

#[cfg(test)]
mod tests {
    use super::*;
    use crate::papers::{FOUR, bytes_of};
    use crate::read;

    #[test]
    fn places() {
        for words in [0, 3, 4, 7, 8, 43, 44, 16_384, 16_387, 20_000] {
            let room = room(words);
            let table: Vec<u32> = (0..words as u32).collect();
            for row in 0..room {
                let columns = ByColumns::rows(&table).at(row);
                assert_eq!(columns, [0, 1, 2, 3].map(|word| (room * word + row) as u32));
                let rows = ByRows::rows(&table)[row];
                assert_eq!(rows, [0, 1, 2, 3].map(|word| (row * 4 + word) as u32));
            }
            assert_eq!(ByColumns::rows(&table).get(room), None);
            assert_eq!(rows_of(&columns_of(&table)), table);
            assert_eq!(columns_of(&rows_of(&table)), table);
        }
    }

    #[test]
    fn columns_read() {
        // Room for three rows, of which one stays zeros, and three spare words.
        let mut table = [7; 15];
        read::<ByColumns>(&bytes_of(FOUR), &mut table);
        assert_eq!(table, [2, 4, 0, 0, 4, 0, 1, 0, 0, 2, 2, 0, 0, 0, 0]);
        let mut table = [7; 15];
        read::<ByRows>(&bytes_of(FOUR), &mut table);
        assert_eq!(table, [2, 0, 1, 2, 4, 4, 0, 2, 0, 0, 0, 0, 0, 0, 0]);
    }
}
