//! Looking up members and positions, by the library and by the second
//! implementation.

use crate::both;
use crate::gather::gathered_table;
use crate::lent::{Lent, rubbish};
use crate::library::{self, Looked, Placed};
use crate::reading::Compared;
use crate::tally::Run;
use crate::writing::read_table;
use second::generate::{Random, Table, card, damage, decimal, key, row, structs, table};
use second::hex;
use second::layout::columns_of;
use second::lookup::{Member, Position};
use second::rules::{ROW_WORDS, kind};

pub struct Lookups {
    words: Lent<u32>,
    text: Lent<u8>,
    key: Lent<u8>,
}

impl Lookups {
    pub fn new() -> Self {
        Lookups {
            words: Lent::new(0),
            text: Lent::new(0),
            key: Lent::new(0),
        }
    }

    /// The table in buffers with rubbish around them.
    fn lend(&mut self, rubbish: u32, table: &Table, key: &[u8]) {
        let words = self.words.lend(table.words.len(), rubbish);
        words.copy_from_slice(&columns_of(&table.words));
        let text = self.text.lend(table.text.len(), rubbish as u8);
        text.copy_from_slice(&table.text);
        let given = self.key.lend(key.len(), rubbish as u8);
        given.copy_from_slice(key);
    }

    fn is_untouched(&self, table: &Table, key: &[u8]) -> bool {
        let same = self.words.content() == columns_of(&table.words)
            && self.text.content() == table.text
            && self.key.content() == key;
        same && self.words.is_whole() && self.text.is_whole() && self.key.is_whole()
    }

    /// One call of each for a member; gives the answer's number.
    fn member(
        &mut self,
        random: &mut Random,
        table: &Table,
        row: usize,
        key: &[u8],
    ) -> Result<u8, String> {
        let rubbish = rubbish(random);
        self.lend(rubbish, table, key);
        let by_library = library::lookup(
            rubbish,
            self.words.content(),
            table.rows,
            self.text.content(),
            row,
            self.key.content(),
        );
        let found = both::lookup(&table.words, table.rows, &table.text, row, key);
        let by_second = reported(found);
        if by_library == by_second && self.is_untouched(table, key) {
            return Ok(by_library.refusal);
        }
        Err(format!(
            "looking up differs, or what was lent was changed\n\
             {table}\n\
             row {row}, key {key}\n\
             library {by_library:?}\n\
             second  {by_second:?}",
            table = shown(table),
            key = hex::encode(key),
        ))
    }

    /// One call of each for a position; gives the answer's number.
    fn position(&mut self, random: &mut Random, table: &Table, row: usize) -> Result<u8, String> {
        let rubbish = rubbish(random);
        self.lend(rubbish, table, b"");
        let by_library = library::position(
            rubbish,
            self.words.content(),
            table.rows,
            self.text.content(),
            row,
        );
        let by_second = placed(both::position(&table.words, table.rows, &table.text, row));
        if by_library == by_second && self.is_untouched(table, b"") {
            return Ok(by_library.refusal);
        }
        Err(format!(
            "a position differs, or what was lent was changed\n\
             {table}\n\
             row {row}\n\
             library {by_library:?}\n\
             second  {by_second:?}",
            table = shown(table),
        ))
    }

    /// A generated table, good or not, with several rows and keys; now and
    /// then with each of its rows and keys.
    pub fn round(&mut self, run: &mut Run) -> Compared {
        let random = &mut run.random;
        let mut table = match random.below(60) {
            0 => gathered_table(random),
            1 => read_table(card(random, false)),
            2..6 => table(random),
            _ => structs(random),
        };
        if random.one_in(6) {
            damage(random, &mut table);
        }
        for _ in 0..4 {
            let row = row(&mut run.random, &table);
            let key = key(&mut run.random, &table, row);
            self.ask_member(run, &table, row, &key)?;
            self.ask_position(run, &table, row)?;
        }
        if table.rows < 60 && run.random.one_in(150) {
            self.every_row_and_key(run, &table)?;
        }
        Ok(())
    }

    fn ask_member(&mut self, run: &mut Run, table: &Table, row: usize, key: &[u8]) -> Compared {
        if !run.tally.is_over() {
            let number = self.member(&mut run.random, table, row, key)?;
            run.tally.looked_up(number);
        }
        Ok(())
    }

    fn ask_position(&mut self, run: &mut Run, table: &Table, row: usize) -> Compared {
        if !run.tally.is_over() {
            let number = self.position(&mut run.random, table, row)?;
            run.tally.placed(number);
        }
        Ok(())
    }

    fn every_row_and_key(&mut self, run: &mut Run, table: &Table) -> Compared {
        let (rows, _) = table.words.as_chunks::<ROW_WORDS>();
        let strings = rows.iter().filter(|row| row[0] == kind::STRING);
        let text = |&[_, a, b, _]: &[u32; ROW_WORDS]| {
            let rest = table.text.get(a as usize..)?;
            rest.get(..b as usize)
        };
        let mut keys: Vec<&[u8]> = strings.filter_map(text).collect();
        keys.sort();
        keys.dedup();
        for row in 0..rows.len() + 2 {
            self.ask_position(run, table, row)?;
            for key in &keys {
                self.ask_member(run, table, row, key)?;
            }
        }
        Ok(())
    }

    /// A million decimals, which the second implementation converts as the
    /// machine does.
    pub fn decimals(&mut self, random: &mut Random) -> Compared {
        let mut table = Table {
            words: vec![2, 0, 1, 4, 10, 0, 1, 4, 11, 0, 1, 3, 6, 1, 0, 4],
            rows: 4,
            text: Vec::new(),
        };
        let mut refused = 0;
        for _ in 0..1_000_000 {
            table.text = [&b"x"[..], &decimal(random)].concat();
            table.words[14] = table.text.len() as u32 - 1;
            refused += usize::from(self.member(random, &table, 1, b"x")? != 0);
        }
        println!("decimals: 1000000, of them {refused} with too many digits");
        Ok(())
    }
}

fn shown(table: &Table) -> String {
    let text = hex::encode(&table.text);
    format!("table {:?}\nrows {}\ntext {text}", table.words, table.rows)
}

/// The second implementation's answer as the numbers of `link/binmode.h`.
pub fn reported(answer: Result<Member, u8>) -> Looked {
    let none = Looked::default();
    match answer {
        Err(refusal) => Looked { refusal, ..none },
        Ok(Member::Whole(number)) => Looked {
            sort: 1,
            number: number.into(),
            ..none
        },
        Ok(Member::Decimal(decimal)) => Looked {
            sort: 2,
            decimal: decimal.to_bits(),
            ..none
        },
        Ok(Member::YesOrNo(yes)) => Looked {
            sort: 3,
            number: yes.into(),
            ..none
        },
        Ok(Member::Text { offset, length }) => Looked {
            sort: 4,
            offset: offset as usize,
            length: length as usize,
            ..none
        },
        Ok(Member::Row(row)) => Looked {
            sort: 5,
            number: row as i64,
            ..none
        },
    }
}

pub fn placed(answer: Result<Position, u8>) -> Placed {
    let refusal = answer.err().unwrap_or(0);
    let Position { x, y, turn } = answer.unwrap_or_default();
    Placed {
        refusal,
        parts: [x, y, turn].map(f64::to_bits),
    }
}
