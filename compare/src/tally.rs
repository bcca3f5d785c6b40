//! How often each answer was given, and the calls that are left.

use second::generate::Random;

/// The answers are numbered 0 to 26.
const NUMBERS: usize = 27;

const MEANINGS: [&str; NUMBERS] = [
    "accepted",
    "the bytes end",
    "wrong prefix",
    "unexpected byte",
    "room too short",
    "bad text",
    "unset position",
    "standard name",
    "too deep",
    "no row left",
    "over 65,536 bytes",
    "not writable",
    "written form too long",
    "output too short",
    "other fault members",
    "job file ends",
    "wrong end of the job",
    "no such Double or date",
    "no such member",
    "too many digits",
    "the same key twice",
    "list too short",
    "row splits no table",
    "no limit of nesting",
    "plan not taken",
    "integer out of range",
    "no such card",
];

/// What every comparison goes on with.
pub struct Run {
    pub random: Random,
    pub tally: Tally,
}

pub struct Tally {
    left: usize,
    pub reading: [usize; NUMBERS],
    pub writing: [usize; NUMBERS],
    pub cards: [usize; NUMBERS],
    pub members: [usize; NUMBERS],
    pub positions: [usize; NUMBERS],
    pub pieces: [usize; NUMBERS],
    pub texts: [usize; NUMBERS],
    pub indexes: [usize; NUMBERS],
    pub through: [usize; NUMBERS],
    pub stations: [usize; NUMBERS],
    pub plans: [usize; NUMBERS],
    pub glyphs: [usize; NUMBERS],
    pub glyph_forms: [usize; NUMBERS],
}

impl Tally {
    pub fn new(calls: usize) -> Self {
        Tally {
            left: calls,
            reading: [0; NUMBERS],
            writing: [0; NUMBERS],
            cards: [0; NUMBERS],
            members: [0; NUMBERS],
            positions: [0; NUMBERS],
            pieces: [0; NUMBERS],
            texts: [0; NUMBERS],
            indexes: [0; NUMBERS],
            through: [0; NUMBERS],
            stations: [0; NUMBERS],
            plans: [0; NUMBERS],
            glyphs: [0; NUMBERS],
            glyph_forms: [0; NUMBERS],
        }
    }

    pub fn is_over(&self) -> bool {
        self.left == 0
    }

    /// Notes a call of the reader.
    pub fn read(&mut self, number: u8) {
        self.left -= 1;
        self.reading[usize::from(number)] += 1;
    }

    /// Notes a call of the writer.
    pub fn wrote(&mut self, number: u8) {
        self.left -= 1;
        self.writing[usize::from(number)] += 1;
    }

    /// Notes a call of the reader of job files.
    pub fn read_card(&mut self, number: u8) {
        self.left -= 1;
        self.cards[usize::from(number)] += 1;
    }

    /// Notes a member looked up.
    pub fn looked_up(&mut self, number: u8) {
        self.left -= 1;
        self.members[usize::from(number)] += 1;
    }

    /// Notes a position asked for.
    pub fn placed(&mut self, number: u8) {
        self.left -= 1;
        self.positions[usize::from(number)] += 1;
    }

    /// Notes a message in pieces, by its answer in the end.
    pub fn read_pieces(&mut self, number: u8) {
        self.left -= 1;
        self.pieces[usize::from(number)] += 1;
    }

    /// Notes a text asked for, with defaults behind it.
    pub fn asked_text(&mut self, number: u8) {
        self.left -= 1;
        self.texts[usize::from(number)] += 1;
    }

    /// Notes an index filled.
    pub fn filled(&mut self, number: u8) {
        self.left = self.left.saturating_sub(1);
        self.indexes[usize::from(number)] += 1;
    }

    /// Notes a key looked up through a list.
    pub fn found(&mut self, number: u8) {
        self.left -= 1;
        self.through[usize::from(number)] += 1;
    }

    /// Notes a call for a station, by its answer; none while more is wanted.
    pub fn at_station(&mut self, number: u8) {
        self.left -= 1;
        if let Some(count) = self.stations.get_mut(usize::from(number)) {
            *count += 1;
        }
    }

    /// Notes a table written with a plan.
    pub fn planned(&mut self, number: u8) {
        self.left -= 1;
        self.plans[usize::from(number)] += 1;
    }

    /// Notes a hyperglyph or glyph message read.
    pub fn read_glyph(&mut self, number: u8) {
        self.left -= 1;
        self.glyphs[usize::from(number)] += 1;
    }

    /// Notes a table written as a hyperglyph or glyph message.
    pub fn wrote_glyph(&mut self, number: u8) {
        self.left -= 1;
        self.glyph_forms[usize::from(number)] += 1;
    }

    pub fn print(&self) {
        let columns = [
            ("reading", &self.reading),
            ("writing", &self.writing),
            ("cards", &self.cards),
            ("members", &self.members),
            ("positions", &self.positions),
            ("in pieces", &self.pieces),
            ("texts", &self.texts),
            ("indexes", &self.indexes),
            ("through", &self.through),
            ("stations", &self.stations),
            ("plans", &self.plans),
            ("glyphs", &self.glyphs),
            ("forms", &self.glyph_forms),
        ];
        let line = |number: &str, meaning: &str, cells: Vec<String>| {
            let cells: String = cells.iter().map(|cell| format!(" {cell:>10}")).collect();
            println!("{number:>3} {meaning:22}{cells}");
        };
        let cells = |cell: &dyn Fn(&[usize; NUMBERS]) -> usize| {
            columns.map(|(_, counts)| cell(counts).to_string()).to_vec()
        };
        line(
            "no.",
            "answer",
            columns.map(|(name, _)| name.into()).to_vec(),
        );
        for (number, meaning) in MEANINGS.iter().enumerate() {
            line(
                &number.to_string(),
                meaning,
                cells(&|counts| counts[number]),
            );
        }
        line("", "calls", cells(&|counts| counts.iter().sum()));
    }
}
