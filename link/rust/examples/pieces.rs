//! Lists a message as it comes in on standard input, piece by piece as `read`
//! gives them, as soon as it is decided: `pieces`. Ends with 1 if it is
//! refused, 2 on trouble.

use binmode::{MOST_BYTES, MOST_NESTING, Message, Pieces, Refusal, TABLE_WORDS};
use std::io::{self, BufWriter, ErrorKind, Read as _, Write as _};
use std::process::ExitCode;

fn main() -> ExitCode {
    let (mut room, mut table) = (vec![0; MOST_BYTES], vec![0; TABLE_WORDS]);
    let pieces = Pieces::start_within(&mut room, &mut table, MOST_NESTING);
    match take_all(pieces).and_then(list) {
        Ok(status) => status,
        Err(trouble) => {
            eprintln!("pieces: {trouble}");
            ExitCode::from(2)
        }
    }
}

fn take_all(mut pieces: Pieces) -> io::Result<Result<Message, Refusal>> {
    let mut input = io::stdin().lock();
    let mut piece = [0; 4096];
    while pieces.wants_more() {
        let length = match input.read(&mut piece) {
            Err(error) if error.kind() == ErrorKind::Interrupted => continue,
            other => other?,
        };
        if length == 0 {
            break;
        }
        pieces.take(&piece[..length]);
    }
    Ok(pieces.end())
}

fn list(answer: Result<Message, Refusal>) -> io::Result<ExitCode> {
    let mut output = BufWriter::new(io::stdout().lock());
    let status = match answer {
        Ok(message) => {
            let (rows, used) = (message.rows(), message.bytes().len());
            writeln!(output, "rows {rows} used {used}")?;
            for item in message.items() {
                let [kind, a, b, end] = item.words();
                writeln!(output, "{} {kind} {a} {b} {end}", item.row())?;
            }
            ExitCode::SUCCESS
        }
        Err(refusal) => {
            let (number, place) = (refusal.reason.number(), refusal.place);
            writeln!(output, "refused {number} at {place}")?;
            ExitCode::FAILURE
        }
    };
    output.flush()?;
    Ok(status)
}
