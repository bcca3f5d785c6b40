//! What each call says of a message whose Arrays and Structs are nested nine
//! deep: examples/nine-deep.bin.

use binmode::{
    Item, Job, MOST_BYTES, MOST_NESTING, Message, Pieces, ROW_WORDS, Reason, Refusal, Share,
    Station, StationPieces, USUAL_NESTING, read, read_within,
};

const MESSAGE: &[u8] = include_bytes!("../../../examples/nine-deep.bin");
const JOB: &[u8] = include_bytes!("../../../examples/jobs/nine-deep.job");
const ROWS: usize = 21;
/// The ninth, which is an Array.
const NINTH: usize = 136;
/// Numbers that are no limits.
const NO_LIMITS: [usize; 5] = [0, 33, 256 + 8, (1 << 32) + 8, usize::MAX];

/// The rows of a message, or the number of a refusal and its place.
fn told(answer: Result<Message, Refusal>) -> Result<usize, (u8, usize)> {
    answer
        .map(Message::rows)
        .map_err(|refusal| (refusal.reason.number(), refusal.place))
}

/// What a limit makes of it.
fn expected(limit: usize) -> Result<usize, (u8, usize)> {
    match limit {
        9..=32 => Ok(ROWS),
        1..9 => Err((8, place_of(limit + 1))),
        _ => Err((23, 0)),
    }
}

/// Where the Array or Struct of a level begins, counted from 1.
fn place_of(level: usize) -> usize {
    [13, 28, 61, 66, 80, 94, 116, 121, NINTH][level - 1]
}

fn limits() -> impl Iterator<Item = usize> {
    (0..=40).chain(NO_LIMITS)
}

#[test]
fn read_whole() {
    assert_eq!(USUAL_NESTING, 8);
    let mut table = [7; 100];
    assert_eq!(told(read(MESSAGE, &mut table)), Err((8, NINTH)));
    assert_eq!(table, [0; 100]);
    for limit in limits() {
        let mut table = [7; 100];
        let answer = told(read_within(MESSAGE, &mut table, limit));
        assert_eq!(answer, expected(limit), "{limit}");
        assert_eq!(table == [0; 100], answer.is_err());
    }
}

#[test]
fn read_in_pieces() {
    let take = |mut pieces: Pieces| {
        for piece in MESSAGE.chunks(10) {
            pieces.take(piece);
        }
        told(pieces.end())
    };
    let (mut room, mut table) = (vec![0; MOST_BYTES], [7; 100]);
    let pieces = Pieces::start(&mut room, &mut table);
    assert_eq!(take(pieces), Err((8, NINTH)));
    for limit in limits() {
        let pieces = Pieces::start_within(&mut room, &mut table, limit);
        assert_eq!(take(pieces), expected(limit), "{limit}");
    }
}

#[test]
fn read_into_shares() {
    let mut room = vec![0; MOST_BYTES];
    for station in [Station::Four, Station::Five] {
        let share = Share::new(station, ROWS);
        let mut table = [7; 2 * ROWS * ROW_WORDS];
        assert_eq!(told(share.read(MESSAGE, &mut table)), Err((8, NINTH)));
        for limit in limits() {
            let answer = told(share.read_within(MESSAGE, &mut table, limit));
            assert_eq!(answer, expected(limit), "{limit}");
            let mut pieces = StationPieces::start_within(share, limit);
            for piece in MESSAGE.chunks(10) {
                let taken = pieces.take(piece, &mut room, &mut table);
                assert_eq!(taken, Ok(()));
            }
            let answer = told(pieces.end(&room, &mut table));
            assert_eq!(answer, expected(limit), "{limit}");
            // Before what the limit is, that there is no share.
            let none = Share::new(station, 0);
            let answer = told(none.read_within(MESSAGE, &mut table, limit));
            assert_eq!(answer, Err((22, 0)));
        }
    }
}

#[test]
fn written() {
    let mut table = [0; 100];
    let message = read_within(MESSAGE, &mut table, MOST_NESTING).expect("32 are enough");
    let plan = [0; 20];
    let plan = &plan[..2 * strings(message)];
    let number = |answer: Result<&mut [u8], Refusal>| match answer {
        Ok(written) => {
            assert_eq!(written, MESSAGE);
            0
        }
        Err(refusal) => refusal.reason.number(),
    };
    let mut output = [7; 200];
    assert_eq!(number(message.write(&mut output)), 11);
    assert_eq!(number(message.write_planned(plan, &mut output)), 11);
    for limit in limits() {
        let expected = match expected(limit) {
            Err((23, _)) => 23,
            Err(_) => 11,
            Ok(_) => 0,
        };
        let mut output = [7; 200];
        assert_eq!(number(message.write_within(limit, &mut output)), expected);
        assert_eq!(output == [0; 200], expected != 0);
        let mut output = [7; 200];
        let planned = message.write_planned_within(plan, limit, &mut output);
        assert_eq!(number(planned), expected);
        assert_eq!(output == [0; 200], expected != 0);
    }
}

fn strings(message: Message) -> usize {
    let is_string = |item: &Item| item.kind() == binmode::Kind::String;
    message.items().filter(is_string).count()
}

/// Job files and lookups have no limit to choose.
#[test]
fn at_the_highest() {
    let (mut table, mut other) = ([7; 100], [7; 100]);
    let job = Job::new(JOB);
    let (_, message) = job.read_card(0, &mut table).expect("a card");
    assert_eq!(message.rows(), ROWS);
    let card = job.cards().next().expect("a card").expect("a sound one");
    assert_eq!(told(card.read(&mut other)), Ok(ROWS));
    let share = Share::new(Station::Four, ROWS);
    let mut table = [7; 200];
    let (_, message) = share.read_card(job, 0, &mut table).expect("a card");
    let order = message.item(3).expect("the order");
    let found = order.lookup("number");
    assert!(
        matches!(found, Ok(binmode::Member::WholeNumber(4711))),
        "{found:?}"
    );
    let refusal = order.lookup("none").expect_err("no such member");
    assert_eq!(refusal.reason, Reason::NoMember);
    let plan = [0; 20];
    assert!(message.proves_shortest(&plan[..2 * strings(message)], &vec![0; strings(message)]));
}
