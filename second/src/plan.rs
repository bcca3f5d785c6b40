//! Writing with a plan, and what prices prove: by document 02's own words. A
//! plan's message is made and read, and the plan is taken if what is read
//! means what the table does.

use crate::layout::{ByRows, Layout, Rows};
use crate::meaning::same_meaning;
use crate::reader::read_any_length;
use crate::rules::*;
use crate::writer::{Write, writable_within, write_within};
use std::collections::HashMap;

/// Writes with a plan, at the limit of nesting of a call that states none.
pub fn write_planned<L: Layout>(
    table: &[u32],
    rows: usize,
    text: &[u8],
    plan: &[u8],
    output: &mut [u8],
) -> Write {
    write_planned_within::<L>(table, rows, text, plan, USUAL_LIMIT, output)
}

/// Writes the first `rows` rows of a table, at this limit of nesting: the
/// shorter of the plan's message and the one written form, that form if they
/// are equally long.
pub fn write_planned_within<L: Layout>(
    table: &[u32],
    rows: usize,
    text: &[u8],
    plan: &[u8],
    limit: usize,
    output: &mut [u8],
) -> Write {
    let chosen = choose::<L>(table, rows, text, plan, limit);
    let message = chosen.and_then(|message| match message.len() <= output.len() {
        true => Ok(message),
        false => Err(refusal::OUTPUT),
    });
    output.fill(0);
    match message {
        Ok(message) => {
            output[..message.len()].copy_from_slice(&message);
            Write::Accepted {
                length: message.len(),
            }
        }
        Err(number) => Write::Refused { number },
    }
}

fn choose<L: Layout>(
    table: &[u32],
    rows: usize,
    text: &[u8],
    plan: &[u8],
    limit: usize,
) -> Result<Vec<u8>, u8> {
    if !is_limit(limit) {
        return Err(refusal::LIMIT);
    }
    if text.len() > BYTE_LIMIT {
        return Err(refusal::BYTES);
    }
    let stated = writable_within::<L>(table, rows, text, limit, |_| ()).ok_or(refusal::TABLE)?;
    let planned = taken(stated, text, plan).ok_or(refusal::PLAN)?;
    let mut form = vec![0; BYTE_LIMIT];
    let message = match write_within::<L>(table, rows, text, limit, &mut form) {
        Write::Accepted { length } if length <= planned.len() => {
            form.truncate(length);
            form
        }
        _ => planned,
    };
    match message.len() <= BYTE_LIMIT {
        true => Ok(message),
        false => Err(refusal::FORM),
    }
}

/// The plan's message, if the plan is taken.
fn taken(rows: impl Rows, text: &[u8], plan: &[u8]) -> Option<Vec<u8>> {
    let strings = rows.all().filter(|row| row[0] == kind::STRING).count();
    if plan.len() != 2 * strings {
        return None;
    }
    let (plan, _) = plan.as_chunks::<2>();
    if plan
        .iter()
        .any(|&[form, at]| form > 2 || form == 0 && at != 0)
    {
        return None;
    }
    let message = message_by(rows, text, plan);
    let mut words = vec![0; rows.len() * ROW_WORDS];
    let (read, _) = read_any_length::<ByRows>(&message, &mut words)?;
    let table: Vec<u32> = rows.all().flatten().collect();
    same_meaning::<ByRows>((&table, rows.len(), text), (&words, read, &message)).then_some(message)
}

fn message_by(rows: impl Rows, text: &[u8], plan: &[[u8; 2]]) -> Vec<u8> {
    let mut message = PREFIX.to_vec();
    let mut strings = plan.iter();
    for [kind, a, b, _] in rows.all() {
        let content = || &text[a as usize..][..b as usize];
        match kind {
            kind::CALL => message.push(b'C'),
            kind::RESPONSE => message.push(b'R'),
            kind::FAULT => message.extend(b"RF"),
            kind::BOOLEAN => message.push(if a == 1 { b't' } else { b'f' }),
            kind::OTHER => message.push(b'O'),
            kind::INTEGER => put_field(&mut message, &[b'I'], a),
            kind::ARRAY => put_field(&mut message, &[b'A'], b),
            kind::STRUCT => put_field(&mut message, &[b'S'], b),
            kind::DOUBLE | kind::DATE_TIME => {
                let tag = if kind == kind::DOUBLE { b'D' } else { b'8' };
                message.extend([tag, b as u8]);
                message.extend(content());
            }
            kind::BINARY => {
                put_field(&mut message, &[b'B'], b);
                message.extend(content());
            }
            _ => match strings.next() {
                Some([0, _]) => {
                    put_field(&mut message, &[b'U'], b);
                    message.extend(content());
                }
                Some(&[1, at]) => {
                    put_field(&mut message, &[b'>', at], b);
                    message.extend(content());
                }
                Some(&[_, at]) => message.extend([b'<', at]),
                None => {}
            },
        }
    }
    message
}

fn put_field(message: &mut Vec<u8>, head: &[u8], field: u32) {
    message.extend(head);
    message.extend(field.to_le_bytes());
}

/// Whether a plan and prices prove the plan's message shortest: it is taken,
/// there is a price for each string, the strings take at most 65,536 bytes,
/// and, if each of 256 positions pays the price of every gap, and each text the
/// price of each gap over which it is held, no text can do with less.
pub fn proves_shortest<L: Layout>(
    table: &[u32],
    rows: usize,
    text: &[u8],
    plan: &[u8],
    prices: &[u32],
) -> bool {
    let mut texts = Vec::new();
    let note = |text| texts.push(text);
    let Some(stated) = writable_within::<L>(table, rows, text, NESTING_LIMIT, note) else {
        return false;
    };
    if taken(stated, text, plan).is_none() || prices.len() != texts.len() {
        return false;
    }
    let (forms, _) = plan.as_chunks::<2>();
    let cost = |(text, &[form, _]): (&&[u8], &[u8; 2])| match form {
        2 => 2,
        _ => 5 + u64::from(form) + text.len() as u64,
    };
    let cost: u64 = texts.iter().zip(forms).map(cost).sum();
    let paid: u64 = prices.iter().map(|&price| u64::from(price)).sum();
    cost <= BYTE_LIMIT as u64 && cost + POSITIONS as u64 * paid <= bound(&texts, prices)
}

/// The least that a text's strings so far cost, if it is not held after the
/// last of them and if it is; and what the gaps before that one cost.
struct Least {
    dropped: u64,
    held: u64,
    before: u64,
}

/// The sum of what the texts cost at least, each by itself.
fn bound(texts: &[&[u8]], prices: &[u32]) -> u64 {
    let mut least: HashMap<&[u8], Least> = HashMap::new();
    let mut paid = 0;
    for (&text, &price) in texts.iter().zip(prices) {
        let size = text.len() as u64;
        let now = match least.get(text) {
            None => Least {
                dropped: 5 + size,
                held: 6 + size,
                before: paid,
            },
            Some(last) => {
                let sent = last.dropped.min(last.held);
                let recalled = last.held + (paid - last.before) + 2;
                Least {
                    dropped: (sent + 5 + size).min(recalled),
                    held: (sent + 6 + size).min(recalled),
                    before: paid,
                }
            }
        };
        least.insert(text, now);
        paid += u64::from(price);
    }
    least.values().map(|text| text.dropped.min(text.held)).sum()
}
