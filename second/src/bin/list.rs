//! Lists the rows of the message on standard input: `list [LIMIT]`. The limit of
//! nesting is 32, as that of the listing program, or the one that is named.

use second::layout::{Layout, Rows};
use second::rules::{BYTE_LIMIT, NESTING_LIMIT, ROW_LIMIT, ROW_WORDS};
use second::{ByColumns, Read, read_within};
use std::io::{BufWriter, Read as _, Result, Write as _, stdin, stdout};

fn main() -> Result<()> {
    let limit = match std::env::args().nth(1) {
        Some(limit) => limit.parse().expect("LIMIT is a number"),
        None => NESTING_LIMIT,
    };
    // One byte over the limit is enough to refuse a longer input.
    let mut message = Vec::new();
    stdin()
        .lock()
        .take(BYTE_LIMIT as u64 + 1)
        .read_to_end(&mut message)?;
    let mut table = vec![0; ROW_LIMIT * ROW_WORDS];
    let mut output = BufWriter::new(stdout().lock());
    match read_within::<ByColumns>(&message, &mut table, limit) {
        Read::Accepted { rows, used } => {
            writeln!(output, "rows {rows} used {used}")?;
            let all = ByColumns::rows(&table).all().take(rows);
            for (index, [kind, a, b, end]) in all.enumerate() {
                writeln!(output, "{index} {kind} {a} {b} {end}")?;
            }
        }
        Read::Refused { number, place } => writeln!(output, "refused {number} at {place}")?,
    }
    output.flush()
}
