//! The C functions of the library `dbn_c`, as `include/dbn_start.h` declares them.
//!
//! Each answers a refusal number (0: accepted), but [`dbn_text`], [`dbn_date`] and [`dbn_day`], which answer 1 for yes and 0 for no.
//! A slice is a pointer and a length; the pointer may be null where the length is 0. What `out` does not name keeps its value. A buffer
//! that is lent for writing overlaps no other. The header says what a call needs of the stack.

/// The length of a type sheet.
pub const SHEET: usize = 520;

/// Numbers in one row of symbology: kind, start, length, x, y and owner. The owner of an interval is the index of its mapping's row, and
/// of every other row its own index.
///
/// A table of n numbers has six columns, each n / 6 rows high: number c of row r stands at c * (n / 6) + r. A call writes no cell past the
/// last row of a column, nor any after the six columns.
pub const SYMBOLOGY_ROW: usize = 6;

/// Numbers in one row of a layout. The rows of a table stand one after the other.
pub const LAYOUT_ROW: usize = 9;

/// Where `out` has the place of a refusal that has one, 10 to 12, 20 to 55 and 120 to 123. After any other refusal it keeps its value.
pub const PLACE: usize = 13;

/// The same in `out` of [`dbn_prelude`].
pub const PRELUDE_PLACE: usize = 3;

/// Where the fields of [`dbn_write_block`] have the dataset's start in the text.
pub const DATASET_START: usize = 13;

/// The largest day number, that of 31 December of year 9999. 1 January of year 0 has the number 0.
pub const DAY_LAST: u32 = 3_652_424;

/// The bytes of a block of a house file.
pub const HOUSE_BLOCK: usize = 512;

/// The bytes of a stored start that a block of a house file holds. Every block but the last is full.
pub const HOUSE_PAYLOAD: usize = 504;

/// The most blocks of a house file.
pub const HOUSE_MOST: usize = 65_536;

/// The bytes of a record's header, which are the fewest that a record has.
pub const FRAME_HEADER: usize = 16;

/// The most bytes that a record has. A store of so many is never refused by 101.
pub const FRAME_MOST: usize = 1020;

extern "C" {
    /// Whether the bytes are UTF-8.
    pub fn dbn_text(s: *const u8, n: usize) -> u32;

    /// Whether the number is a date, year x 10000 + month x 100 + day. 1: `out[0]` is its day number. 0: `out` keeps its value.
    pub fn dbn_date(yyyymmdd: u32, out: *mut [u64; 1]) -> u32;

    /// Whether the number is a day number, at most [`DAY_LAST`]. 1: `out[0]` is its date, year x 10000 + month x 100 + day.
    /// 0: `out` keeps its value.
    pub fn dbn_day(day: u32, out: *mut [u64; 1]) -> u32;

    /// Below 8 bytes: 0, `out` = {8 - n, 0, 0, 0}. Else 10, 11, 12 with `out[3]` the place, or 0 with `out` = {0, version,
    /// block length, 0}.
    pub fn dbn_prelude(s: *const u8, n: usize, out: *mut [u64; 4]) -> u32;

    /// 0: `out` = {dataset length, schema, start, end, limit, stype_in, stype_out, ts_out, width, layout version,
    /// symbology rows, layout rows, presence bits (1 schema, 2 end, 4 limit, 8 stype_in), 0, 0, 0}.
    /// 3: `out[10]` and `out[11]` are the rows needed. 11, 20 to 55: `out[13]` is the place.
    pub fn dbn_block(
        version: u8,
        block: *const u8,
        n: usize,
        sheet: *const [u16; SHEET],
        symbology: *mut u32,
        sn: usize,
        layout: *mut u32,
        ln: usize,
        out: *mut [u64; 16],
    ) -> u32;

    /// Always: `out[16]` taken, `out[17]` held, `out[18]` needed (0 when done or refused).
    /// Done: `out[0..16]` as [`dbn_block`]. 3: `out[10]` and `out[11]`. 10 to 12, 20 to 55: `out[13]`, which counts from the
    /// prelude for 10 to 12 and from the block for the others.
    pub fn dbn_feed(
        held: u64,
        store: *mut u8,
        storelen: usize,
        piece: *const u8,
        n: usize,
        sheet: *const [u16; SHEET],
        symbology: *mut u32,
        sn: usize,
        layout: *mut u32,
        ln: usize,
        out: *mut [u64; 20],
    ) -> u32;

    /// Always: `out[0]` taken, `out[1]` held, `out[2]` needed (0 with a record or a refusal).
    /// 0 with nothing needed: a record, `out[3]` its length and `out[4]` its rtype. 100, 101 and 1: refused.
    pub fn dbn_frame(held: u64, store: *mut u8, storelen: usize, piece: *const u8, n: usize, out: *mut [u64; 5])
        -> u32;

    /// 0: `out[0]` the length written. 10 to 12, 20 to 55: `out[13]` is the place, counted as [`dbn_feed`] counts it. 134: the stream ends too
    /// early. 130 above [`HOUSE_MOST`] blocks, then 112 for an output that is too short.
    pub fn dbn_house_store(
        stream: *const u8,
        n: usize,
        sheet: *const [u16; SHEET],
        output: *mut u8,
        on: usize,
        out: *mut [u64; 16],
    ) -> u32;

    /// 130 to 133, and 1 for a store below the bytes that the file holds, leave store, tables and `out` as they were. Else the bytes stand at the
    /// front of the store, `out[16]` is 0, `out[17]` their count, and the answer is that of [`dbn_feed`] with so many held and an empty piece;
    /// but 134 where that needs more bytes, `out[18]` of them.
    pub fn dbn_house_load(
        file: *const u8,
        fn_: usize,
        store: *mut u8,
        storelen: usize,
        sheet: *const [u16; SHEET],
        symbology: *mut u32,
        sn: usize,
        layout: *mut u32,
        ln: usize,
        out: *mut [u64; 20],
    ) -> u32;

    /// 0: `out[9]` layout version, `out[11]` rows. 3: `out[11]`. 50 to 55: `out[13]` is the place.
    pub fn dbn_layout(
        layout: *const u8,
        n: usize,
        width: u16,
        sheet: *const [u16; SHEET],
        rows: *mut u32,
        rn: usize,
        out: *mut [u64; 16],
    ) -> u32;

    /// The answer of [`dbn_layout`] without a table, 81 to 83 by the plain engine. 0: `out[9]` layout version, `out[11]`
    /// rows. 50 to 55: `out[13]` is the place.
    pub fn dbn_layout_plain(
        layout: *const u8,
        n: usize,
        width: u16,
        sheet: *const [u16; SHEET],
        out: *mut [u64; 16],
    ) -> u32;

    /// 0: tidy, and `out` keeps its value. Else the number of [`dbn_layout`], 3 apart, or 120 to 123 for the first untidy thing in wire order.
    /// 50 to 55 and 120 to 123: `out[13]` is the place.
    pub fn dbn_tidy(layout: *const u8, n: usize, width: u16, sheet: *const [u16; SHEET], out: *mut [u64; 16]) -> u32;

    /// 0: `out[0]` the written length.
    pub fn dbn_write_layout(
        rows: *const u32,
        rn: usize,
        text: *const u8,
        tn: usize,
        version: u16,
        width: u16,
        sheet: *const [u16; SHEET],
        output: *mut u8,
        on: usize,
        out: *mut [u64; 16],
    ) -> u32;

    /// 0: `out[0]` the written length, the prelude's eight bytes among them. A refusal has no place, also by a number from reading.
    ///
    /// The fields 0 to 9 and 12 are as [`dbn_block`] gives them, and [`DATASET_START`] has the dataset's start in the text; 10, 11, 14 and 15 are
    /// not looked at. `rows` symbology rows stand in columns of height sn / 6. Their starts, and those of the layout rows, count from the text.
    pub fn dbn_write_block(
        version: u8,
        fields: *const [u64; 16],
        symbology: *const u32,
        sn: usize,
        rows: u64,
        layout: *const u32,
        ln: usize,
        text: *const u8,
        tn: usize,
        sheet: *const [u16; SHEET],
        output: *mut u8,
        on: usize,
        out: *mut [u64; 16],
    ) -> u32;

    /// 0: `out` = {start, length} in the block. 90: {0, 0}. `rows` and `rn` are the table as it was lent, whose length tells its columns; how
    /// many rows were read into it is not known here.
    pub fn dbn_symbology_name(
        block: *const u8,
        n: usize,
        rows: *const u32,
        rn: usize,
        index: u64,
        out: *mut [u64; 2],
    ) -> u32;

    /// 0: `out` = {start, length} in the layout. 90: {0, 0}.
    pub fn dbn_layout_name(
        layout: *const u8,
        n: usize,
        rows: *const u32,
        rn: usize,
        index: u64,
        out: *mut [u64; 2],
    ) -> u32;
}
