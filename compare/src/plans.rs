//! Writing with plans, and what prices prove, by the library and by the second
//! implementation: plans that are good, damaged, cut and of other tables; every
//! plan of small tables; and plans for many texts, with prices that prove them.

use crate::both;
use crate::lent::{Lent, rubbish};
use crate::library::{self, Limit};
use crate::limits::{HIGHEST, any_limit};
use crate::reading::Compared;
use crate::tally::Run;
use crate::writing::reported;
use second::generate::{Random, Table, few_strings, output_length, table, writable};
use second::layout::columns_of;
use second::rules::{BYTE_LIMIT, ROW_WORDS, kind};

#[path = "../../link/rust/examples/plan/solver.rs"]
mod solver;

pub struct Plans {
    library: Lent<u8>,
    second: Lent<u8>,
}

impl Plans {
    pub fn new() -> Self {
        Plans {
            library: Lent::new(0),
            second: Lent::new(0),
        }
    }

    /// A table with a plan and prices, a few times.
    pub fn round(&mut self, run: &mut Run) -> Compared {
        let random = &mut run.random;
        let table = if random.one_in(3) {
            table(random)
        } else {
            writable(random)
        };
        let texts = texts(&table);
        let mut plan = match random.below(8) {
            0 => random.bytes(2 * texts.len()),
            1 => solver::solve(&texts).plan,
            _ => good(random, &texts),
        };
        damage(random, &mut plan);
        let prices: Vec<u32> = match random.below(3) {
            0 => vec![0; texts.len()],
            1 => solver::solve(&texts).prices,
            _ => texts.iter().map(|_| random.below(9) as u32).collect(),
        };
        for _ in 0..3 {
            if !run.tally.is_over() {
                let room = output_length(&mut run.random, plan.len() * 4);
                let limit = any_limit(&mut run.random);
                self.call_at(run, &table, &plan, room, limit)?;
            }
        }
        self.prove(&table, &plan, &prices).map(|_| ())
    }

    /// One call of each, if any are left.
    pub fn call_at(
        &mut self,
        run: &mut Run,
        table: &Table,
        plan: &[u8],
        room: usize,
        limit: Limit,
    ) -> Compared {
        if !run.tally.is_over() {
            let number = self.compare(&mut run.random, table, plan, room, limit)?;
            run.tally.planned(number);
        }
        Ok(())
    }

    /// One call of each; gives the answer's number.
    fn compare(
        &mut self,
        random: &mut Random,
        table: &Table,
        plan: &[u8],
        room: usize,
        limit: Limit,
    ) -> Result<u8, String> {
        let rubbish = rubbish(random);
        let words = columns_of(&table.words);
        let output = self.library.lend(room, rubbish as u8);
        let (rows, text) = (table.rows, &table.text);
        let by_library = library::write_planned(&words, rows, text, plan, limit, output);
        let output = self.second.lend(room, !rubbish as u8);
        let by_second = both::write_planned(&table.words, rows, text, plan, limit, output);
        let by_second = reported(by_second);
        let same = by_library == by_second
            && self.library.content() == self.second.content()
            && self.library.is_whole();
        match same {
            true => Ok(by_library.number),
            false => Err(format!(
                "writing with a plan differs: library {by_library:?}, second {by_second:?}, \
                 output of {room} bytes, limit {limit:?}\nplan {plan:?}\n{table:?}"
            )),
        }
    }

    /// Whether plan and prices prove the plan shortest, by both.
    fn prove(&mut self, table: &Table, plan: &[u8], prices: &[u32]) -> Result<bool, String> {
        let words = columns_of(&table.words);
        let by_library = library::proves_shortest(&words, table.rows, &table.text, plan, prices);
        let by_second = both::proves_shortest(&table.words, table.rows, &table.text, plan, prices);
        match by_library == by_second {
            true => Ok(by_library),
            false => Err(format!(
                "proving differs: library {by_library}, second {by_second}\n\
                 plan {plan:?}\nprices {prices:?}\n{table:?}"
            )),
        }
    }

    /// Every plan of small tables, over the positions that matter: two that
    /// texts may share, and one that stands for all others. What is proved
    /// shortest has to be as short as any that is taken.
    pub fn all_of_small(&mut self, random: &mut Random) -> Compared {
        let mut plans = 0;
        for _ in 0..12 {
            let table = few_strings(random, 3);
            let texts = texts(&table);
            let pairs: Vec<[u8; 2]> = (0..4)
                .flat_map(|form| [0, 1, 255].map(|at| [form, at]))
                .collect();
            let (mut least, mut proved) = (usize::MAX, Vec::new());
            for number in 0..pairs.len().pow(texts.len() as u32) {
                let pair = |place| pairs[number / pairs.len().pow(place) % pairs.len()];
                let plan: Vec<u8> = (0..texts.len() as u32).flat_map(pair).collect();
                if self.compare(random, &table, &plan, BYTE_LIMIT, HIGHEST)? == 0 {
                    let length = cost(&texts, &plan);
                    least = least.min(length);
                    let prices: Vec<u32> = texts.iter().map(|_| random.below(3) as u32).collect();
                    for prices in [vec![0; texts.len()], prices] {
                        if self.prove(&table, &plan, &prices)? {
                            proved.push(length);
                        }
                    }
                }
                plans += 1;
            }
            if proved.is_empty() || proved.iter().any(|&length| length != least) {
                return Err(format!(
                    "proved {proved:?}, the least is {least}\n{table:?}"
                ));
            }
        }
        println!("plans: {plans} of small tables; those that are proved shortest are");
        Ok(())
    }

    /// Jobs in which more than 256 texts repeat: the solver's plan is taken, is
    /// proved shortest by its prices, and a changed plan or price is answered
    /// alike by both.
    pub fn many_texts(&mut self, random: &mut Random) -> Compared {
        let jobs = 8;
        for _ in 0..jobs {
            let different = random.between(257, 900);
            let strings = random.between(1_000, 4_000);
            let table = array(random, strings, different);
            let texts = texts(&table);
            let solver::Solution {
                mut plan,
                mut prices,
            } = solver::solve(&texts);
            self.compare(random, &table, &plan, BYTE_LIMIT, None)?;
            if !self.prove(&table, &plan, &prices)? {
                return Err(format!("{strings} strings, {different} texts: not proved"));
            }
            for _ in 0..20 {
                let at = random.below(prices.len());
                prices[at] = prices[at].wrapping_add([1, u32::MAX, 40][random.below(3)]);
                self.prove(&table, &plan, &prices)?;
                let at = random.below(plan.len());
                plan[at] = plan[at].wrapping_add([1, 255][random.below(2)]);
                self.compare(random, &table, &plan, BYTE_LIMIT, None)?;
            }
        }
        println!("plans: {jobs} jobs in which more than 256 texts repeat, each proved shortest");
        Ok(())
    }
}

/// The texts that stand as strings, those that lie in the text bytes.
fn texts(table: &Table) -> Vec<&[u8]> {
    let (rows, _) = table.words.as_chunks::<ROW_WORDS>();
    let stated = rows.iter().take(table.rows);
    let strings = stated.filter(|row| row[0] == kind::STRING);
    strings
        .map(|&[_, a, b, _]| {
            let rest = table.text.get(a as usize..).unwrap_or_default();
            rest.get(..b as usize).unwrap_or_default()
        })
        .collect()
}

/// A plan for a table, good or damaged.
pub fn any_plan(random: &mut Random, table: &Table) -> Vec<u8> {
    let mut plan = good(random, &texts(table));
    damage(random, &mut plan);
    plan
}

/// A plan that sends the texts, each string in a way that is legal there.
fn good(random: &mut Random, texts: &[&[u8]]) -> Vec<u8> {
    let positions = [1, 3, 256][random.below(3)];
    let mut book: Vec<Option<&[u8]>> = vec![None; positions];
    let mut plan = Vec::new();
    for &text in texts {
        let held = book.iter().position(|&held| held == Some(text));
        match held.filter(|_| !random.one_in(4)) {
            Some(at) => plan.extend([2, at as u8]),
            None if random.one_in(3) => plan.extend([0, 0]),
            None => {
                let at = random.below(positions);
                book[at] = Some(text);
                plan.extend([1, at as u8]);
            }
        }
    }
    plan
}

/// Leaves a plan as it is half the time; else changes a byte, cuts it, or adds
/// to it.
fn damage(random: &mut Random, plan: &mut Vec<u8>) {
    match random.below(8) {
        0 if !plan.is_empty() => {
            let at = random.below(plan.len());
            plan[at] = random.byte();
        }
        1 if !plan.is_empty() => {
            let at = random.below(plan.len());
            plan[at] ^= 1;
        }
        2 => plan.truncate(random.below(plan.len() + 1)),
        3 => plan.extend([0, 0]),
        _ => {}
    }
}

/// How many bytes the strings take, as a plan sends them.
fn cost(texts: &[&[u8]], plan: &[u8]) -> usize {
    let strings = texts.iter().zip(plan.chunks(2));
    let costs = strings.map(|(text, pair)| match pair[0] {
        2 => 2,
        form => 5 + usize::from(form) + text.len(),
    });
    costs.sum()
}

/// An Array of so many strings, of so many different texts.
fn array(random: &mut Random, strings: usize, different: usize) -> Table {
    let choices: Vec<(u32, u32)> = (0..different)
        .map(|i| (16 * i as u32, random.between(5, 12) as u32))
        .collect();
    let text = (0..different).flat_map(|i| format!("{i:04}abcdefghijkl").into_bytes());
    let count = strings as u32;
    let mut table = Table {
        words: vec![2, 0, 1, count + 2, 9, 0, count, count + 2],
        rows: strings + 2,
        text: text.collect(),
    };
    for row in 3..count + 3 {
        let &(a, b) = random.pick(&choices);
        table.words.extend([11, a, b, row]);
    }
    table
}
