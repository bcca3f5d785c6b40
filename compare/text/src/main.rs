//! How long the text check, the byte by byte check and Rust's `from_utf8` take
//! on the same texts, in one run. First the three are compared on texts, whole
//! and damaged.

use std::hint::black_box;
use std::time::Instant;

/// Rounds of a line; in each, all three take their turn.
const ROUNDS: usize = 101;
/// About how many nanoseconds a turn takes: some calls at least, since the
/// first after another check's turn finds the processor's branch prediction
/// filled with that one's.
const TURN: f64 = 1_000_000.0;
/// Bytes of a long text.
const LONG: usize = 65_000;

mod library {
    unsafe extern "C" {
        pub fn binmode_is_utf8(bytes: *const u8, length: usize) -> bool;
        pub fn binmode_is_utf8_bytewise(bytes: *const u8, length: usize) -> bool;
    }
}

type Check = fn(&[u8]) -> bool;

fn by_eights(text: &[u8]) -> bool {
    // SAFETY: the pointer and the length are those of a slice, which is only read.
    unsafe { library::binmode_is_utf8(text.as_ptr(), text.len()) }
}

fn bytewise(text: &[u8]) -> bool {
    // SAFETY: the pointer and the length are those of a slice, which is only read.
    unsafe { library::binmode_is_utf8_bytewise(text.as_ptr(), text.len()) }
}

fn from_utf8(text: &[u8]) -> bool {
    std::str::from_utf8(text).is_ok()
}

const CHECKS: [Check; 3] = [by_eights, bytewise, from_utf8];

fn main() {
    let mut random = Random(2001);
    println!("{} texts: the three answer alike\n", compare(&mut random));
    println!(
        "Nanoseconds of a check, the median of {ROUNDS} rounds in which all take turns; a ratio is the median of the rounds'\n\
         ratios, of the new check to the other: below 1, the new one is faster.\n"
    );
    println!(
        "{:36} {:>9} {:>9} {:>9} {:>12} {:>13}",
        "", "new", "bytewise", "from_utf8", "to bytewise", "to from_utf8"
    );
    for (name, texts) in lines(&mut random) {
        time(name, &texts);
    }
}

/// The texts that are timed.
fn lines(random: &mut Random) -> Vec<(&'static str, Vec<Vec<u8>>)> {
    let repeated = |text: &str| vec![text.repeat(LONG / text.len()).into_bytes()];
    let name = |random: &mut Random, other: usize| {
        let length = 4 + random.below(17);
        (0..length)
            .map(|_| {
                if other > 0 && random.below(other) == 0 {
                    '\u{e9}'
                } else {
                    char::from(b'a' + random.below(26) as u8)
                }
            })
            .collect::<String>()
            .into_bytes()
    };
    vec![
        ("65,000 ASCII bytes", repeated("a")),
        (
            "names of 4 to 20 ASCII bytes",
            (0..1000).map(|_| name(random, 0)).collect(),
        ),
        (
            "each 20th byte begins a pair",
            repeated("abcdefghijklmnopqr\u{e9}"),
        ),
        (
            "no ASCII",
            repeated("\u{e9}\u{20ac}\u{1f600}\u{3b1}\u{4e2d}\u{10348}"),
        ),
        (
            "names, each 8th character a pair",
            (0..1000).map(|_| name(random, 8)).collect(),
        ),
    ]
}

fn time(name: &str, texts: &[Vec<u8>]) {
    let turn = |check: Check, calls: usize| {
        let start = Instant::now();
        for _ in 0..calls {
            for text in texts {
                black_box(check(black_box(text)));
            }
        }
        start.elapsed().as_secs_f64() * 1e9 / (calls * texts.len()) as f64
    };
    let slowest = CHECKS
        .map(|check| turn(check, 1))
        .into_iter()
        .fold(0.0, f64::max);
    let calls = (TURN / slowest / texts.len() as f64).max(1.0) as usize;
    let mut rounds = vec![];
    for round in 0..ROUNDS {
        let mut times = [0.0; 3];
        // Who is first changes.
        for index in (0..3).map(|index| (index + round) % 3) {
            times[index] = turn(CHECKS[index], calls);
        }
        rounds.push(times);
    }
    let of = |index: usize| median(rounds.iter().map(|times| times[index]));
    let ratio = |index: usize| median(rounds.iter().map(|times| times[0] / times[index]));
    println!(
        "{name:36} {:>9.1} {:>9.1} {:>9.1} {:>12.2} {:>13.2}",
        of(0),
        of(1),
        of(2),
        ratio(1),
        ratio(2)
    );
}

fn median(numbers: impl Iterator<Item = f64>) -> f64 {
    let mut numbers: Vec<f64> = numbers.collect();
    numbers.sort_by(f64::total_cmp);
    numbers[numbers.len() / 2]
}

/// Compares the three on short texts of any bytes and on ASCII with a few other
/// bytes and characters put in; says on how many.
fn compare(random: &mut Random) -> usize {
    let characters = [
        "\u{7f}",
        "\u{80}",
        "\u{7ff}",
        "\u{800}",
        "\u{d7ff}",
        "\u{e000}",
        "\u{ffff}",
        "\u{10000}",
        "\u{10ffff}",
    ];
    let texts = 2_000_000;
    for text in 0..texts {
        let bytes: Vec<u8> = if text % 2 == 0 {
            (0..random.below(6))
                .map(|_| random.below(256) as u8)
                .collect()
        } else {
            let mut bytes = vec![b'a'; random.below(100)];
            for _ in 0..random.below(4) {
                let at = random.below(bytes.len() + 1);
                let character = characters[random.below(characters.len())];
                bytes.splice(at..at, character.bytes());
            }
            if random.below(2) == 0 && !bytes.is_empty() {
                let at = random.below(bytes.len());
                bytes[at] = random.below(256) as u8;
            }
            bytes
        };
        let answers = CHECKS.map(|check| check(&bytes));
        assert!(
            answers[0] == answers[2] && answers[1] == answers[2],
            "{bytes:x?}: {answers:?}"
        );
    }
    texts
}

/// Numbers from a seed.
struct Random(u64);

impl Random {
    fn below(&mut self, bound: usize) -> usize {
        self.0 = self
            .0
            .wrapping_mul(6_364_136_223_846_793_005)
            .wrapping_add(1_442_695_040_888_963_407);
        (self.0 >> 33) as usize % bound
    }
}
