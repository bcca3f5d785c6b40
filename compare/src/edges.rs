//! Tables at the edges of what is writable: names, sizes, texts, keys and
//! places of content, most of them just right and some just wrong.

use second::generate::{BAD_TEXTS, Random, Table, doubtful, good};
use second::rules::{STANDARD_NAMES, kind};

const GOOD_TEXTS: [&[u8]; 8] = [
    b"i",
    b"I4",
    b"ints",
    b"nil",
    b"",
    b"\xc3\xa9",
    b"\xed\x9f\xbf",
    b"\xf4\x8f\xbf\xbf",
];

/// An Array of a few items, with their content in the same bytes.
pub fn at_the_edges(random: &mut Random) -> Table {
    let mut rows = Rows::new();
    let count = random.between(1, 4);
    for _ in 0..count {
        rows.item(random);
    }
    rows.finish(count)
}

struct Rows {
    words: Vec<u32>,
    text: Vec<u8>,
}

impl Rows {
    /// With the rows of the Response and the Array, which are set last. The
    /// bytes begin with a Double that is longer than any may be.
    fn new() -> Self {
        let mut text = b"-0.".to_vec();
        text.resize(270, b'5');
        Rows {
            words: vec![0; 8],
            text,
        }
    }

    fn finish(mut self, count: usize) -> Table {
        let rows = self.words.len() / 4;
        let end = rows as u32;
        let head = [kind::RESPONSE, 0, 1, end, kind::ARRAY, 0, count as u32, end];
        self.words[..8].copy_from_slice(&head);
        Table {
            words: self.words,
            rows,
            text: self.text,
        }
    }

    fn row(&mut self, kind: u32, a: usize, b: usize, children: usize) {
        let end = self.words.len() / 4 + 1 + children;
        self.words.extend([kind, a as u32, b as u32, end as u32]);
    }

    /// A String with this text, put behind the other bytes.
    fn string(&mut self, text: &[u8]) {
        self.row(kind::STRING, self.text.len(), text.len(), 0);
        self.text.extend(text);
    }

    fn item(&mut self, random: &mut Random) {
        let with_content = [kind::DOUBLE, kind::DATE_TIME, kind::BINARY, kind::STRING];
        match random.below(9) {
            0 => {
                let name = match random.below(3) {
                    0 => *random.pick(&STANDARD_NAMES),
                    _ => *random.pick(&GOOD_TEXTS),
                };
                self.row(kind::OTHER, 0, 2, 2);
                self.string(name);
                self.row(kind::BINARY, 0, 3, 0);
            }
            1 => self.row(*random.pick(&with_content), 0, random.between(253, 257), 0),
            2 => self.double_or_date(random),
            3 | 4 => {
                let text = match random.below(3) {
                    0 => *random.pick(&BAD_TEXTS),
                    _ => *random.pick(&GOOD_TEXTS),
                };
                self.string(text);
            }
            5 => {
                // At the end of the bytes, or one too far.
                let length = random.below(5);
                let offset = self.text.len() - length + random.below(2);
                self.row(*random.pick(&with_content), offset, length, 0);
            }
            6 => {
                // Where a sum of two words may wrap.
                let length = *random.pick(&[1, 2, 1 << 31, u32::MAX as usize]);
                let offset = ((1 << 32) - length + random.below(3)) % (1 << 32);
                self.row(*random.pick(&with_content), offset, length, 0);
            }
            7 => self.keys(random),
            _ => match random.below(2) {
                0 => self.row(kind::BOOLEAN, random.below(3), random.below(8) / 7, 0),
                _ => self.row(kind::INTEGER, random.byte().into(), random.below(8) / 7, 0),
            },
        }
    }

    /// A Struct of a few keys, with a Struct of the same keys in it now and
    /// then. Their texts stand at several offsets, and lie in one another.
    fn keys(&mut self, random: &mut Random) {
        let place = self.text.len();
        self.text.extend(b"panpanpens");
        // Three of the texts stand twice.
        const SPANS: [(usize, usize); 10] = [
            (0, 3),
            (3, 3),
            (6, 3),
            (6, 4),
            (0, 2),
            (3, 2),
            (0, 6),
            (1, 2),
            (0, 0),
            (10, 0),
        ];
        let count = random.between(2, 4);
        let mut spans: Vec<usize> = (0..SPANS.len()).collect();
        for last in (1..spans.len()).rev() {
            spans.swap(last, random.between(0, last));
        }
        let holder = random.below(2 * count);
        let inner = if holder < count { 2 * count } else { 0 };
        self.row(kind::STRUCT, 0, count, 2 * count + inner);
        for (pair, &span) in spans[..count].iter().enumerate() {
            let (offset, length) = SPANS[span];
            self.row(kind::STRING, place + offset, length, 0);
            if pair != holder {
                self.row(kind::STRING, place, 3, 0);
                continue;
            }
            self.row(kind::STRUCT, 0, count, 2 * count);
            for &span in &spans[..count] {
                let (offset, length) = SPANS[span];
                self.row(kind::STRING, place + offset, length, 0);
                self.row(kind::BOOLEAN, 1, 0, 0);
            }
        }
    }

    /// A Double or DateTime behind the other bytes: right or nearly so, ASCII
    /// or not in one of its bytes, and a byte too short or too long.
    fn double_or_date(&mut self, random: &mut Random) {
        let (kind, tag) = *random.pick(&[(kind::DOUBLE, b'D'), (kind::DATE_TIME, b'8')]);
        let mut text = match random.below(2) {
            0 => good(random, tag),
            _ => doubtful(random, tag),
        };
        if !text.is_empty() && random.one_in(6) {
            let place = random.below(text.len());
            text[place] |= 128;
        }
        let length = match random.below(8) {
            0 => text.len().saturating_sub(1),
            1 => text.len() + 1,
            _ => text.len(),
        };
        self.row(kind, self.text.len(), length, 0);
        self.text.extend(text);
    }
}
