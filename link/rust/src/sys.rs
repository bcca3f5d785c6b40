//! The library's functions as `link/binmode.h` declares them, with what they
//! ask of their caller. The rest of this crate is safe.

/// The state of a message in pieces: six numbers, of which any have an answer.
/// Zeros, the default, are a message of which nothing has come, as
/// `binmode_pieces_start` leaves one.
#[repr(C)]
#[derive(Clone, Copy, Debug, Default, PartialEq, Eq)]
pub struct Pieces {
    /// 255 if more is wanted, 0 if the message is accepted, else the number of
    /// the refusal.
    pub answer: usize,
    /// The number of rows; 0 unless accepted.
    pub rows: usize,
    /// The number of bytes used; 0 unless accepted.
    pub used: usize,
    /// The place of a refusal; where more is wanted, the place that refusal 1
    /// would have if no more came.
    pub place: usize,
    /// Where more is wanted, how many bytes are held in the room; else 0.
    pub held: usize,
    /// Where more is wanted: with fewer bytes than this held no other answer
    /// comes (it may be no more than are held, and is at most 65,537, the byte
    /// with which there is an answer in any case); else 0.
    pub wanted: usize,
}

/// An entry of an index: a member by its two rows. Both are 0 if it is unused.
#[repr(C)]
#[derive(Clone, Copy, Debug, Default, PartialEq, Eq)]
pub struct Entry {
    pub key: u32,
    pub value: u32,
}

/// What is reported of one key: what `binmode_lookup` gives and sets.
#[repr(C)]
#[derive(Clone, Copy, Debug, Default, PartialEq)]
pub struct Report {
    /// 0, or the number of the refusal.
    pub refusal: u8,
    pub sort: u8,
    pub number: i64,
    pub decimal: f64,
    pub offset: usize,
    pub length: usize,
}

/// The answer of an accepted message.
pub const ACCEPTED: u8 = 0;
/// The answer of a message in pieces that is not decided.
pub const MORE_WANTED: u8 = 255;
/// The answer where a row does not split the table between the stations.
pub const NOT_SPLIT: u8 = 22;

unsafe extern "C" {
    pub fn binmode_version_2() -> u32;

    pub fn binmode_read(
        message: *const u8,
        message_len: usize,
        table: *mut u32,
        table_words: usize,
        rows: *mut usize,
        used: *mut usize,
        place: *mut usize,
    ) -> u8;

    pub fn binmode_read_within(
        message: *const u8,
        message_len: usize,
        table: *mut u32,
        table_words: usize,
        limit: usize,
        rows: *mut usize,
        used: *mut usize,
        place: *mut usize,
    ) -> u8;

    pub fn binmode_read_hyperglyph(
        message: *const u8,
        message_len: usize,
        table: *mut u32,
        table_words: usize,
        limit: usize,
        rows: *mut usize,
        used: *mut usize,
        place: *mut usize,
    ) -> u8;

    pub fn binmode_read_glyph(
        message: *const u8,
        message_len: usize,
        table: *mut u32,
        table_words: usize,
        limit: usize,
        rows: *mut usize,
        used: *mut usize,
        place: *mut usize,
    ) -> u8;

    pub fn binmode_write(
        table: *const u32,
        table_words: usize,
        rows: usize,
        text: *const u8,
        text_len: usize,
        output: *mut u8,
        output_len: usize,
        length: *mut usize,
    ) -> u8;

    pub fn binmode_write_within(
        table: *const u32,
        table_words: usize,
        rows: usize,
        text: *const u8,
        text_len: usize,
        limit: usize,
        output: *mut u8,
        output_len: usize,
        length: *mut usize,
    ) -> u8;

    pub fn binmode_write_hyperglyph(
        table: *const u32,
        table_words: usize,
        rows: usize,
        text: *const u8,
        text_len: usize,
        limit: usize,
        output: *mut u8,
        output_len: usize,
        length: *mut usize,
    ) -> u8;

    pub fn binmode_write_glyph(
        table: *const u32,
        table_words: usize,
        rows: usize,
        text: *const u8,
        text_len: usize,
        limit: usize,
        output: *mut u8,
        output_len: usize,
        length: *mut usize,
    ) -> u8;

    pub fn binmode_write_planned(
        table: *const u32,
        table_words: usize,
        rows: usize,
        text: *const u8,
        text_len: usize,
        plan: *const u8,
        plan_len: usize,
        output: *mut u8,
        output_len: usize,
        length: *mut usize,
    ) -> u8;

    pub fn binmode_write_planned_within(
        table: *const u32,
        table_words: usize,
        rows: usize,
        text: *const u8,
        text_len: usize,
        plan: *const u8,
        plan_len: usize,
        limit: usize,
        output: *mut u8,
        output_len: usize,
        length: *mut usize,
    ) -> u8;

    pub fn binmode_proves_shortest(
        table: *const u32,
        table_words: usize,
        rows: usize,
        text: *const u8,
        text_len: usize,
        plan: *const u8,
        plan_len: usize,
        prices: *const u32,
        prices_len: usize,
    ) -> u8;

    pub fn binmode_read_card(
        file: *const u8,
        file_len: usize,
        number: usize,
        table: *mut u32,
        table_words: usize,
        rows: *mut usize,
        used: *mut usize,
        place: *mut usize,
        body: *mut usize,
    ) -> u8;

    pub fn binmode_next_card(
        file: *const u8,
        file_len: usize,
        number: usize,
        from: usize,
        start: *mut usize,
        length: *mut usize,
        place: *mut usize,
    ) -> u8;

    pub fn binmode_lookup(
        table: *const u32,
        table_words: usize,
        rows: usize,
        text: *const u8,
        text_len: usize,
        row: usize,
        key: *const u8,
        key_len: usize,
        sort: *mut u8,
        number: *mut i64,
        decimal: *mut f64,
        offset: *mut usize,
        length: *mut usize,
    ) -> u8;

    pub fn binmode_position(
        table: *const u32,
        table_words: usize,
        rows: usize,
        text: *const u8,
        text_len: usize,
        row: usize,
        x: *mut f64,
        y: *mut f64,
        turn: *mut f64,
    ) -> u8;

    pub fn binmode_index_fill(
        table: *const u32,
        table_words: usize,
        rows: usize,
        text: *const u8,
        text_len: usize,
        row: usize,
        list: *mut Entry,
        list_len: usize,
    ) -> u8;

    pub fn binmode_index_find(
        table: *const u32,
        table_words: usize,
        rows: usize,
        text: *const u8,
        text_len: usize,
        row: usize,
        list: *const Entry,
        list_len: usize,
        keys: *const u8,
        keys_len: usize,
        ends: *const u32,
        ends_len: usize,
        reports: *mut Report,
        reports_len: usize,
    ) -> u8;

    pub fn binmode_default_text(
        table: *const u32,
        table_words: usize,
        rows: usize,
        text: *const u8,
        text_len: usize,
        row: usize,
        defaults_table: *const u32,
        defaults_words: usize,
        defaults_rows: usize,
        defaults_text: *const u8,
        defaults_len: usize,
        defaults_row: usize,
        key: *const u8,
        key_len: usize,
        source: *mut u8,
        offset: *mut usize,
        length: *mut usize,
    ) -> u8;

    pub fn binmode_pieces_start(state: *mut Pieces);

    pub fn binmode_pieces_next(
        state: *mut Pieces,
        piece: *const u8,
        piece_len: usize,
        room: *mut u8,
        room_len: usize,
        table: *mut u32,
        table_words: usize,
    ) -> u8;

    pub fn binmode_pieces_next_within(
        state: *mut Pieces,
        piece: *const u8,
        piece_len: usize,
        room: *mut u8,
        room_len: usize,
        table: *mut u32,
        table_words: usize,
        limit: usize,
    ) -> u8;

    pub fn binmode_pieces_end(
        state: *mut Pieces,
        room: *const u8,
        room_len: usize,
        table: *mut u32,
        table_words: usize,
    ) -> u8;

    pub fn binmode_pieces_end_within(
        state: *mut Pieces,
        room: *const u8,
        room_len: usize,
        table: *mut u32,
        table_words: usize,
        limit: usize,
    ) -> u8;

    pub fn binmode_share(
        table_words: usize,
        split: usize,
        station: u8,
        first: *mut usize,
        length: *mut usize,
    ) -> u8;

    pub fn binmode_station_read(
        message: *const u8,
        message_len: usize,
        table: *mut u32,
        table_words: usize,
        split: usize,
        station: u8,
        rows: *mut usize,
        used: *mut usize,
        place: *mut usize,
    ) -> u8;

    pub fn binmode_station_read_within(
        message: *const u8,
        message_len: usize,
        table: *mut u32,
        table_words: usize,
        split: usize,
        station: u8,
        limit: usize,
        rows: *mut usize,
        used: *mut usize,
        place: *mut usize,
    ) -> u8;

    pub fn binmode_station_read_hyperglyph(
        message: *const u8,
        message_len: usize,
        table: *mut u32,
        table_words: usize,
        split: usize,
        station: u8,
        limit: usize,
        rows: *mut usize,
        used: *mut usize,
        place: *mut usize,
    ) -> u8;

    pub fn binmode_station_read_glyph(
        message: *const u8,
        message_len: usize,
        table: *mut u32,
        table_words: usize,
        split: usize,
        station: u8,
        limit: usize,
        rows: *mut usize,
        used: *mut usize,
        place: *mut usize,
    ) -> u8;

    pub fn binmode_station_read_card(
        file: *const u8,
        file_len: usize,
        number: usize,
        table: *mut u32,
        table_words: usize,
        split: usize,
        station: u8,
        rows: *mut usize,
        used: *mut usize,
        place: *mut usize,
        body: *mut usize,
    ) -> u8;

    pub fn binmode_station_pieces_next(
        state: *mut Pieces,
        piece: *const u8,
        piece_len: usize,
        room: *mut u8,
        room_len: usize,
        table: *mut u32,
        table_words: usize,
        split: usize,
        station: u8,
    ) -> u8;

    pub fn binmode_station_pieces_next_within(
        state: *mut Pieces,
        piece: *const u8,
        piece_len: usize,
        room: *mut u8,
        room_len: usize,
        table: *mut u32,
        table_words: usize,
        split: usize,
        station: u8,
        limit: usize,
    ) -> u8;

    pub fn binmode_station_pieces_end(
        state: *mut Pieces,
        room: *const u8,
        room_len: usize,
        table: *mut u32,
        table_words: usize,
        split: usize,
        station: u8,
    ) -> u8;

    pub fn binmode_station_pieces_end_within(
        state: *mut Pieces,
        room: *const u8,
        room_len: usize,
        table: *mut u32,
        table_words: usize,
        split: usize,
        station: u8,
        limit: usize,
    ) -> u8;

    pub fn binmode_station_write(
        table: *const u32,
        table_words: usize,
        split: usize,
        station: u8,
        rows: usize,
        text: *const u8,
        text_len: usize,
        output: *mut u8,
        output_len: usize,
        length: *mut usize,
    ) -> u8;

    pub fn binmode_station_write_within(
        table: *const u32,
        table_words: usize,
        split: usize,
        station: u8,
        rows: usize,
        text: *const u8,
        text_len: usize,
        limit: usize,
        output: *mut u8,
        output_len: usize,
        length: *mut usize,
    ) -> u8;

    pub fn binmode_station_write_hyperglyph(
        table: *const u32,
        table_words: usize,
        split: usize,
        station: u8,
        rows: usize,
        text: *const u8,
        text_len: usize,
        limit: usize,
        output: *mut u8,
        output_len: usize,
        length: *mut usize,
    ) -> u8;

    pub fn binmode_station_write_glyph(
        table: *const u32,
        table_words: usize,
        split: usize,
        station: u8,
        rows: usize,
        text: *const u8,
        text_len: usize,
        limit: usize,
        output: *mut u8,
        output_len: usize,
        length: *mut usize,
    ) -> u8;

    pub fn binmode_station_write_planned(
        table: *const u32,
        table_words: usize,
        split: usize,
        station: u8,
        rows: usize,
        text: *const u8,
        text_len: usize,
        plan: *const u8,
        plan_len: usize,
        output: *mut u8,
        output_len: usize,
        length: *mut usize,
    ) -> u8;

    pub fn binmode_station_write_planned_within(
        table: *const u32,
        table_words: usize,
        split: usize,
        station: u8,
        rows: usize,
        text: *const u8,
        text_len: usize,
        plan: *const u8,
        plan_len: usize,
        limit: usize,
        output: *mut u8,
        output_len: usize,
        length: *mut usize,
    ) -> u8;

    pub fn binmode_station_lookup(
        table: *const u32,
        table_words: usize,
        split: usize,
        station: u8,
        rows: usize,
        text: *const u8,
        text_len: usize,
        row: usize,
        key: *const u8,
        key_len: usize,
        sort: *mut u8,
        number: *mut i64,
        decimal: *mut f64,
        offset: *mut usize,
        length: *mut usize,
    ) -> u8;

    pub fn binmode_station_position(
        table: *const u32,
        table_words: usize,
        split: usize,
        station: u8,
        rows: usize,
        text: *const u8,
        text_len: usize,
        row: usize,
        x: *mut f64,
        y: *mut f64,
        turn: *mut f64,
    ) -> u8;
}

/// Whatever links this crate refers to the library's major version.
#[used]
static LINKED: unsafe extern "C" fn() -> u32 = binmode_version_2;
