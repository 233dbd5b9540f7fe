//! The block writer: each number that it gives and in which order, what it writes, and that it reads back.
#[path = "../fuzz/calls.rs"]
mod calls;
#[allow(dead_code)]
#[path = "../fuzz/columns.rs"]
mod columns;
mod common;

use common::{plain, stream_of, symbology, TEXT, U64};
use dbn_start::{
    ffi, Block, BlockBuilder, Day, Feed, LayoutRows, Limits, MappingInterval, RefusalKind, Step, SymbolMapping, Tables,
};

/// The texts of a start, each once, and some that only break a rule.
const TEXTS: [&str; 13] =
    ["XNAS.ITCH", "ES", "é", "NQ.c.0", "ESH3", "ESM3", "TradeMsg", "hd", "Level", "bid", "Side", "Ask", "Bid"];
const NUL: &[u8] = b"A\0B\0";
const NOT_UTF8: &[u8] = b"A\xFF";

/// Where a text stands, and its length.
fn span(text: &str) -> [u32; 2] {
    let before = TEXTS.iter().take_while(|one| **one != text).map(|one| one.len()).sum::<usize>();
    [before as u32, text.len() as u32]
}

/// What is lent to the writer, by rows.
#[derive(Clone)]
struct Given {
    version: u8,
    fields: [u64; 16],
    rows: Vec<[u32; 6]>,
    layout: Vec<[u32; 9]>,
    text: Vec<u8>,
}

/// A symbology row with this text.
fn row(kind: u32, text: &str, [x, y, owner]: [u32; 3]) -> [u32; 6] {
    let [start, length] = span(text);
    [kind, start, length, x, y, owner]
}

/// A layout row with this text.
fn item(kind: u32, text: &str, rest: [u32; 6]) -> [u32; 9] {
    let ([start, length], [a, b, c, d, e, f]) = (span(text), rest);
    [kind, start, length, a, b, c, d, e, f]
}

/// The rows of a layout with a record, a struct and a label def of two labels.
fn layout() -> Vec<[u32; 9]> {
    vec![
        item(10, "TradeMsg", [0x1A0, 3, 24, 1, 0x5566_7788, 0x1122_3344]),
        [11, 1, 0, 24, TEXT as u32, 0, 0, 0, 0],
        item(12, "hd", [0; 6]),
        item(13, "Level", [8, 1, 0, 0, 0, 0]),
        [11, 1, 0, 8, U64 as u32, 0, 0, 0, 0],
        item(12, "bid", [0; 6]),
        item(14, "Side", [2, 0, 0, 0, 0, 0]),
        item(15, "Ask", [65, 0, 0, 0, 0, 0]),
        item(15, "Bid", [66, 0, 0, 0, 0, 0]),
    ]
}

/// The day numbers of two days.
const DAYS: [u32; 2] = [738_961, 739_052];
const DATES: [u32; 2] = [20230317, 20230616];
const START: u64 = 1_672_531_200_000_000_000;
const END: u64 = 1_700_000_000_000_000_000;

/// A start of every part, symbols 8 bytes wide, 22 in version 1.
fn given(version: u8) -> Given {
    let width = if version == 1 { 22 } else { 8 };
    let [from, length] = span("XNAS.ITCH").map(u64::from);
    let layout_version = if version == 4 { 7 } else { 0 };
    let rows = vec![
        row(0, "ES", [0, 0, 0]),
        row(0, "NQ.c.0", [0, 0, 1]),
        row(1, "é", [0, 0, 2]),
        row(2, "ES", [0, 0, 3]),
        row(3, "ES", [2, 0, 4]),
        row(4, "ESH3", [DAYS[0], DAYS[1], 4]),
        row(4, "ESM3", [DAYS[1], DAYS[0], 4]),
        row(3, "NQ.c.0", [0, 0, 7]),
    ];
    let text = [TEXTS.concat().as_bytes(), NUL, NOT_UTF8, &[b'x'; 300]].concat();
    let fields = [length, 1, START, END, 9, 4, 12, 1, width, layout_version, 77, 78, 15, from, 79, 80];
    let layout = if version == 4 { layout() } else { Vec::new() };
    Given { version, fields, rows, layout, text }
}

impl Given {
    /// Where the bytes that break a rule stand.
    fn nul(&self) -> u32 {
        TEXTS.concat().len() as u32
    }

    fn not_utf8(&self) -> u32 {
        self.nul() + NUL.len() as u32
    }

    /// Where 300 letters stand.
    fn letters(&self) -> u32 {
        self.not_utf8() + NOT_UTF8.len() as u32
    }

    /// With a table that is higher than the rows, and not of six.
    fn start(&self) -> calls::Start {
        let symbology = columns::filled(&vec![0xEEEE_EEEE; 6 * (self.rows.len() + 2) + 5], &self.rows);
        calls::Start {
            version: self.version,
            fields: self.fields,
            symbology,
            rows: self.rows.len() as u64,
            layout: self.layout.concat(),
            text: self.text.clone(),
        }
    }

    fn write(&self) -> Result<Vec<u8>, u32> {
        write(&self.start(), 1 << 12)
    }

    /// The number that refuses it with one change.
    fn with(&self, change: impl Fn(&mut Self)) -> u32 {
        let mut given = self.clone();
        change(&mut given);
        given.write().map_or_else(|number| number, |_| 0)
    }
}

/// What is written to an output of so many bytes. A refusal leaves it and `out` as they were, and else what is past the length is as it was.
fn write(start: &calls::Start, room: usize) -> Result<Vec<u8>, u32> {
    let (output, out) = (vec![0xEE; room], [7 << 40; 16]);
    let a = calls::write_block(start, plain().numbers(), &output, &out);
    assert_eq!(a.out[1..], out[1..], "out after {}", a.number);
    if a.number != 0 {
        assert_eq!((a.output, a.out[0]), (output, out[0]), "output and out after {}", a.number);
        return Err(a.number);
    }
    let length = a.out[0] as usize;
    assert!(a.output[length..].iter().all(|&byte| byte == 0xEE), "past the length");
    Ok(a.output[..length].to_vec())
}

/// The bytes of `layout()` in version 7.
fn layout_bytes() -> Vec<u8> {
    let entry = |size: u8, type_id: u8| [&[1, 0, 0, 0, size, 0, type_id][..], &[0; 9]].concat();
    let record = [
        &b"\xA0\x01\x03\0\x18\0\x88\x77\x66\x55\x44\x33\x22\x11\x08TradeMsg\0\x01\0"[..],
        &entry(24, TEXT),
        b"\x02hd\0",
    ]
    .concat();
    let item = [&b"\x08\0\x05Level\0\x01\0"[..], &entry(8, U64), b"\x03bid\0"].concat();
    let labels = b"\x04Side\0\x02\0\x41\0\x03Ask\0\x42\0\x03Bid\0".to_vec();
    let mut out = vec![7, 0];
    for body in [record, item, labels] {
        out.extend([1, 0, body.len() as u8 + 2, 0]);
        out.extend(body);
    }
    out
}

/// The stream that `given(version)` is, put together by hand.
fn by_hand(version: u8) -> Vec<u8> {
    let mut block = b"XNAS.ITCH".to_vec();
    block.resize(if version == 4 { 38 } else { 16 }, 0);
    block.extend([1, 0]);
    for number in [START, END, 9] {
        block.extend(number.to_le_bytes());
    }
    if version == 1 {
        block.extend([0xFF; 8]);
    }
    block.extend([4, 12, 1]);
    if version > 1 {
        block.extend([8, 0]);
    }
    block.resize(100, 0);
    let layout = if version == 4 { layout_bytes() } else { Vec::new() };
    block.extend((layout.len() as u32).to_le_bytes());
    block.extend(layout);
    let intervals = [(DATES[0], DATES[1], "ESH3"), (DATES[1], DATES[0], "ESM3")];
    let mappings: [(&str, &[_]); 2] = [("ES", &intervals), ("NQ.c.0", &[])];
    let symbols = symbology(if version == 1 { 22 } else { 8 }, [&["ES", "NQ.c.0"], &["é"], &["ES"]], &mappings);
    if version == 4 {
        block.extend((symbols.len() as u32).to_le_bytes());
    }
    block.extend(symbols);
    stream_of(version, &block)
}

#[test]
fn every_version_is_written_byte_for_byte() {
    for version in 1..=4 {
        assert_eq!(given(version).write(), Ok(by_hand(version)), "version {version}");
    }
}

#[test]
fn an_output_below_the_length_is_refused_and_one_of_the_length_is_filled() {
    for version in 1..=4 {
        let (start, length) = (given(version).start(), by_hand(version).len());
        assert_eq!(write(&start, length), Ok(by_hand(version)));
        for room in [0, 1, 8, 100, length - 1] {
            assert_eq!(write(&start, room), Err(112), "{room} of {length} bytes");
        }
    }
}

#[test]
fn what_is_absent_has_its_own_number_on_the_wire() {
    for version in 1..=4 {
        let mut absent = given(version);
        for field in [1, 3, 4, 5, 12] {
            absent.fields[field] = 0;
        }
        let block = &absent.write().expect("a start")[8..];
        let schema = if version == 4 { 38 } else { 16 };
        let stype_in = schema + if version == 1 { 34 } else { 26 };
        assert_eq!(block[schema..schema + 2], [0xFF; 2], "schema");
        assert_eq!(block[schema + 10..schema + 26], [[0xFF; 8], [0; 8]].concat(), "end and limit");
        assert_eq!(block[stype_in], 255);
        let mut tables = Tables::default();
        let fields = Block::read(version, block, &plain(), &mut tables).expect("a block").fields();
        assert_eq!((fields.schema, fields.end, fields.limit, fields.stype_in), (None, None, None, None));
    }
}

#[test]
fn skipped_bytes_are_zero_and_the_record_count_is_the_largest() {
    for (version, reserved) in [(1, 53), (2, 47), (3, 47), (4, 69)] {
        let stream = given(version).write().expect("a start");
        assert!(stream[8 + reserved..108].iter().all(|&byte| byte == 0), "version {version}");
        if version == 1 {
            assert_eq!(stream[8 + 42..8 + 50], u64::MAX.to_le_bytes());
        }
    }
}

/// The given start as owned values.
fn builder(version: u8) -> BlockBuilder {
    let [first, end] = DATES.map(|date| Day::from_yyyymmdd(date).expect("a date"));
    let mut start = BlockBuilder::new(version);
    start.dataset = "XNAS.ITCH".into();
    let fields = &mut start.fields;
    (fields.schema, fields.start, fields.end, fields.limit) = (Some(1), START, Some(END), Some(9));
    (fields.stype_in, fields.stype_out, fields.ts_out) = (Some(4), 12, true);
    if version > 1 {
        fields.symbol_cstr_len = 8;
    }
    start.symbols = vec!["ES".into(), "NQ.c.0".into()];
    start.partial = vec!["é".into()];
    start.not_found = vec!["ES".into()];
    let intervals = vec![
        MappingInterval { start_date: first, end_date: end, symbol: "ESH3".into() },
        MappingInterval { start_date: end, end_date: first, symbol: "ESM3".into() },
    ];
    let none = SymbolMapping { raw_symbol: "NQ.c.0".into(), intervals: Vec::new() };
    start.mappings = vec![SymbolMapping { raw_symbol: "ES".into(), intervals }, none];
    if version == 4 {
        start.fields.layout_version = Some(7);
        start.layout = LayoutRows { numbers: layout().concat(), text: TEXTS.concat().into_bytes() };
    }
    start
}

#[test]
fn what_is_written_reads_back_with_the_same_fields_rows_and_names() {
    for version in 1..=4 {
        let (given, stream) = (given(version), builder(version).write(&plain()).expect("a start"));
        assert_eq!(stream, by_hand(version));
        let mut tables = Tables::default();
        let block = Block::read(version, &stream[8..], &plain(), &mut tables).expect("a block");
        assert_eq!((block.dataset(), block.fields()), ("XNAS.ITCH", builder(version).fields));
        let without = |row: [u32; 6]| [row[0], row[2], row[3], row[4], row[5]];
        assert!(block.rows().map(without).eq(given.rows.iter().copied().map(without)), "version {version}");
        let names = ["ES", "NQ.c.0", "é", "ES", "ES", "ESH3", "ESM3", "NQ.c.0"];
        assert!((0..8).map(|row| block.name(row).expect("a name")).eq(names));
        let Some(layout) = block.layout() else { continue };
        assert_eq!((layout.version(), layout.bytes()), (7, &layout_bytes()[..]));
        assert!(layout.rows().map(|row| row[0]).eq(given.layout.iter().map(|row| row[0])));
        let names = ["TradeMsg", "hd", "Level", "bid", "Side", "Ask", "Bid"];
        assert!((0..9).filter_map(|row| layout.name(row).ok()).eq(names));
    }
}

#[test]
fn what_is_written_reads_back_at_every_cut() {
    for version in 1..=4 {
        let stream = builder(version).write(&plain()).expect("a start");
        for cut in 0..=stream.len() {
            let mut feed = Feed::new(Limits::default()).with_sheet(plain());
            let (first, second) = stream.split_at(cut);
            for piece in [first, second, b"records"] {
                feed.feed(piece).expect("a start that is accepted");
            }
            assert_eq!((feed.step(), feed.held()), (Ok(Step::Done), &stream[..]), "cut at {cut}");
            let read = feed.block().expect("a block").to_builder();
            let mut wanted = builder(version);
            wanted.layout = read.layout.clone();
            assert_eq!(read, wanted, "version {version} cut at {cut}");
        }
    }
}

#[test]
fn what_is_read_is_written_again_as_the_same_bytes() {
    for version in 1..=4 {
        let stream = by_hand(version);
        let mut tables = Tables::default();
        let mut read = Block::read(version, &stream[8..], &plain(), &mut tables).expect("a block").to_builder();
        assert_eq!(read.write(&plain()), Ok(stream.clone()));
        read.mappings[0].intervals[1].symbol = "ESU3".into();
        let changed = read.write(&plain()).expect("a start");
        let differ: Vec<usize> = (0..stream.len()).filter(|&i| changed[i] != stream[i]).collect();
        assert_eq!(differ.len(), 1, "version {version}");
        assert_eq!((changed[differ[0]], stream[differ[0]]), (b'U', b'M'));
    }
    let (bytes, _) = common::capture();
    let mut feed = Feed::new(Limits::default());
    feed.feed(&bytes).expect("the capture's stand-in");
    assert_eq!(feed.block().expect("a block").to_builder().write(None), Ok(bytes));
}

/// One change and its number.
type Change = (u32, &'static str, fn(&mut Given));

/// Fields that are malformed in every version.
const FIELDS: [Change; 19] = [
    (110, "presence bits above 15", |g| g.fields[12] = 31),
    (110, "presence bits alone above 15", |g| g.fields[12] = 1 << 40 | 15),
    (110, "a schema beside absent", |g| g.fields[12] = 14),
    (110, "an end beside absent", |g| g.fields[12] = 13),
    (110, "a limit beside absent", |g| g.fields[12] = 11),
    (110, "a stype_in beside absent", |g| g.fields[12] = 7),
    (110, "schema 65535", |g| g.fields[1] = 65535),
    (110, "schema 65536", |g| g.fields[1] = 65536),
    (110, "end 0", |g| g.fields[3] = 0),
    (110, "end 2^64-1", |g| g.fields[3] = u64::MAX),
    (110, "limit 0", |g| g.fields[4] = 0),
    (110, "stype_in 255", |g| g.fields[5] = 255),
    (110, "stype_in 256", |g| g.fields[5] = 256),
    (110, "stype_out 256", |g| g.fields[6] = 256),
    (110, "ts_out 2", |g| g.fields[7] = 2),
    (110, "a dataset outside", |g| g.fields[13] = g.text.len() as u64 - 8),
    (110, "a dataset past the last number", |g| g.fields[13] = u64::MAX),
    (110, "a dataset as long as numbers go", |g| g.fields[0] = u64::MAX),
    (110, "a dataset that ends in a NUL", |g| (g.fields[0], g.fields[13]) = (4, g.nul().into())),
];

/// Rows that are malformed in every version.
const ROWS: [Change; 24] = [
    (110, "a span outside", |g| g.rows[0][1] = g.text.len() as u32 - 1),
    (110, "a span after the text", |g| g.rows[4][1] = g.text.len() as u32 + 1),
    (110, "a span past the last number", |g| g.rows[5][1] = u32::MAX),
    (110, "an empty span after the text", |g| (g.rows[7][1], g.rows[7][2]) = (g.text.len() as u32 + 1, 0)),
    (110, "a list's text that ends in a NUL", |g| (g.rows[0][1], g.rows[0][2]) = (g.nul(), 2)),
    (110, "a raw symbol that ends in a NUL", |g| (g.rows[4][1], g.rows[4][2]) = (g.nul(), 4)),
    (110, "an interval's text that is a NUL", |g| (g.rows[5][1], g.rows[5][2]) = (g.nul() + 1, 1)),
    (110, "a kind before its own", |g| g.rows[0][0] = 1),
    (110, "a kind after its own", |g| g.rows[3][0] = 0),
    (110, "a list's kind among mappings", |g| g.rows[7][0] = 0),
    (110, "no such kind", |g| g.rows[2][0] = 5),
    (110, "an interval before a mapping", |g| g.rows[3][0] = 4),
    (110, "a mapping in the place of an interval", |g| g.rows[5] = [3, 0, 0, 0, 0, 5]),
    (110, "fewer intervals than x", |g| g.rows[7][3] = 1),
    (110, "more intervals than x", |g| g.rows[4][3] = 1),
    (110, "x of a list's row", |g| g.rows[1][3] = 1),
    (110, "y of a list's row", |g| g.rows[2][4] = 1),
    (110, "y of a mapping", |g| g.rows[4][4] = 1),
    (110, "a first day after the last", |g| g.rows[5][3] = 3_652_425),
    (110, "an end after the last day", |g| g.rows[6][4] = 3_652_425),
    (110, "an owner of a list's row", |g| g.rows[2][5] = 1),
    (110, "an owner of a mapping", |g| g.rows[7][5] = 4),
    (110, "an owner of an interval that is itself", |g| g.rows[5][5] = 5),
    (110, "an owner of an interval after it", |g| g.rows[6][5] = 7),
];

/// What is too wide in versions 2 and 3.
const WIDE: [Change; 5] = [
    (111, "a dataset of 17 bytes", |g| (g.fields[0], g.fields[13]) = (17, g.letters().into())),
    (111, "a list's symbol of 9 bytes", |g| (g.rows[2][1], g.rows[2][2]) = (g.letters(), 9)),
    (111, "a raw symbol of 9 bytes", |g| (g.rows[7][1], g.rows[7][2]) = (g.letters(), 9)),
    (111, "an interval's symbol of 300 bytes", |g| (g.rows[6][1], g.rows[6][2]) = (g.letters(), 300)),
    (111, "a width below a symbol", |g| g.fields[8] = 5),
];

/// What the reader would refuse in every version.
const READ: [Change; 11] = [
    (20, "a dataset that is not UTF-8", |g| (g.fields[0], g.fields[13]) = (2, g.not_utf8().into())),
    (29, "a dataset with a NUL inside", |g| (g.fields[0], g.fields[13]) = (3, g.nul().into())),
    (21, "schema 20", |g| g.fields[1] = 20),
    (22, "stype_in 13", |g| g.fields[5] = 13),
    (23, "stype_out 13", |g| g.fields[6] = 13),
    (32, "a list's symbol that is not UTF-8", |g| (g.rows[3][1], g.rows[3][2]) = (g.not_utf8(), 2)),
    (41, "a list's symbol with a NUL inside", |g| (g.rows[0][1], g.rows[0][2]) = (g.nul(), 3)),
    (36, "a raw symbol that is not UTF-8", |g| (g.rows[7][1], g.rows[7][2]) = (g.not_utf8(), 2)),
    (42, "a raw symbol with a NUL inside", |g| (g.rows[4][1], g.rows[4][2]) = (g.nul(), 3)),
    (40, "an interval's symbol that is not UTF-8", |g| (g.rows[5][1], g.rows[5][2]) = (g.not_utf8() + 1, 1)),
    (43, "an interval's symbol with a NUL inside", |g| (g.rows[6][1], g.rows[6][2]) = (g.nul(), 3)),
];

/// What the layout rows of version 4 are refused by, those that are too many or too long apart.
const LAYOUT: [Change; 9] = [
    (90, "a kind out of place", |g| g.layout[0][0] = 13),
    (90, "a name outside", |g| g.layout[6][1] = g.text.len() as u32),
    (90, "a number that does not fit", |g| g.layout[1][1] = 65536),
    (90, "an unused number", |g| g.layout[2][3] = 1),
    (90, "a label less than its def says", |g| g.layout.truncate(8)),
    (92, "a name of 256 bytes", |g| (g.layout[0][1], g.layout[0][2]) = (g.letters(), 256)),
    (93, "a name with a NUL", |g| (g.layout[3][1], g.layout[3][2]) = (g.nul(), 3)),
    (93, "a name that is not UTF-8", |g| (g.layout[5][1], g.layout[5][2]) = (g.not_utf8(), 2)),
    (95, "label codes that do not rise", |g| g.layout[8][3] = 65),
];

/// The rules that the written layout breaks.
const RULES: [Change; 6] = [
    (60, "a struct's size", |g| g.layout[3][3] = 12),
    (62, "an rtype's low byte", |g| g.layout[0][3] = 0x14E),
    (64, "a base not of 8", |g| g.layout[0][5] = 25),
    (75, "a field of size 0", |g| g.layout[4][3] = 0),
    (79, "an extension mark", |g| g.layout[1][5] = 64),
    (82, "a base that is not covered", |g| g.layout[0][5] = 32),
];

fn each_is_refused(version: u8, changes: &[Change]) {
    for (number, what, change) in changes {
        assert_eq!(given(version).with(change), *number, "{what}, version {version}");
    }
}

#[test]
fn each_refusal_leaves_the_output() {
    for version in 1..=4 {
        [&FIELDS[..], &ROWS, &READ].into_iter().for_each(|changes| each_is_refused(version, changes));
    }
    [2, 3].into_iter().for_each(|version| each_is_refused(version, &WIDE));
    each_is_refused(4, &WIDE[1..]);
    [&LAYOUT[..], &RULES].into_iter().for_each(|changes| each_is_refused(4, changes));
}

#[test]
fn a_version_is_one_of_four() {
    for version in [0, 5, 6, 255] {
        assert_eq!(given(3).with(|g| g.version = version), 11);
    }
}

#[test]
fn a_width_fits_its_place() {
    for version in 2..=4 {
        for width in [65536, 1 << 32, u64::MAX] {
            assert_eq!(given(version).with(|g| g.fields[8] = width), 110, "width {width}");
        }
        let mut wide = given(version);
        (wide.fields[8], wide.rows) = (65535, Vec::new());
        assert!(wide.write().is_ok(), "a width that fits, and no symbols");
    }
    for width in [0, 21, 23, 71, 65535, 65536, u64::MAX] {
        assert_eq!(given(1).with(|g| g.fields[8] = width), 111, "width {width} in version 1");
    }
    for (version, most) in [(1, 16), (2, 16), (3, 16), (4, 38)] {
        let dataset = |length: u64| given(version).with(|g| (g.fields[0], g.fields[13]) = (length, g.letters().into()));
        assert_eq!([dataset(0), dataset(most), dataset(most + 1)], [0, 0, 111], "version {version}");
    }
    let symbol = |length: u32| given(1).with(|g| (g.rows[0][1], g.rows[0][2]) = (g.letters(), length));
    assert_eq!([symbol(0), symbol(22), symbol(23)], [0, 0, 111]);
}

#[test]
fn a_layout_version_is_of_two_bytes_and_0_below_version_4() {
    for version in 1..=3 {
        assert_eq!([1, 7, 65536].map(|number| given(version).with(|g| g.fields[9] = number)), [110; 3]);
    }
    let four = |number: u64| given(4).with(|g| g.fields[9] = number);
    assert_eq!([four(0), four(65535), four(65536), four(u64::MAX)], [0, 0, 110, 110]);
}

#[test]
fn no_more_rows_than_the_table_is_high() {
    for version in 1..=4 {
        let mut start = given(version).start();
        start.symbology = columns::filled(&vec![0; 6 * 8 + 5], &given(version).rows);
        assert!(write(&start, 4096).is_ok(), "as many rows as it is high, and a length that is not of six");
        for rows in [9, 10, 1 << 32, u64::MAX] {
            start.rows = rows;
            assert_eq!(write(&start, 4096), Err(110), "{rows} rows");
        }
        (start.symbology, start.rows) = (vec![0; 5], 1);
        assert_eq!(write(&start, 4096), Err(110), "a table without a row");
        start.rows = 0;
        assert!(write(&start, 4096).is_ok(), "no rows");
    }
}

#[test]
fn a_width_of_0_has_no_lists() {
    for version in 2..=4 {
        let mut none = given(version);
        none.fields[8] = 0;
        none.rows.iter_mut().for_each(|row| row[2] = 0);
        assert_eq!(none.write(), Err(31), "symbols of a list");
        none.rows.drain(..4);
        for (row, owner) in none.rows.iter_mut().zip([0, 0, 0, 3]) {
            row[5] = owner;
        }
        let stream = none.write().expect("mappings have a length without their symbols");
        let mut tables = Tables::default();
        let block = Block::read(version, &stream[8..], &plain(), &mut tables).expect("a block");
        assert_eq!((block.mappings().count(), block.intervals().count()), (2, 2));
    }
}

#[test]
fn layout_rows_below_version_4_are_refused_by_25_where_they_are_good() {
    for version in 1..=3 {
        let mut rows = given(version);
        rows.layout = layout();
        assert_eq!(rows.write(), Err(25));
        for (number, what, change) in LAYOUT {
            assert_eq!(rows.with(change), number, "{what}, version {version}");
        }
        assert_eq!(rows.with(|g| (RULES[1].2)(g)), 25, "no rule is asked");
        assert_eq!(rows.with(|g| g.fields[6] = 13), 23, "23 comes before 25");
        assert_eq!(rows.with(|g| (READ[6].2)(g)), 25, "25 comes before the symbology");
        assert_eq!(rows.with(|g| g.layout.truncate(0)), 0);
    }
    let mut none = given(4);
    none.layout.clear();
    let stream = none.write().expect("a start");
    assert_eq!(stream[108..124], *b"\x08\0\0\0\x07\0\0\0\0\0\0\0\x68\0\0\0", "a layout of eight bytes");
}

/// A label def of so many labels, with codes that rise or not.
fn labels(count: u32, rising: bool) -> Vec<[u32; 9]> {
    let mut rows = vec![[14, 0, 0, count, 0, 0, 0, 0, 0]];
    rows.extend((0..count).map(|code| [15, 0, 0, if rising { code.min(65535) } else { 0 }, 0, 0, 0, 0, 0]));
    rows
}

#[test]
fn a_layout_that_is_too_large_is_refused() {
    for version in [3, 4] {
        assert_eq!(given(version).with(|g| g.layout = labels(65_536, true)), 91, "a count");
        assert_eq!(given(version).with(|g| g.layout = labels(16_384, true)), 94, "a section");
        assert_eq!(given(version).with(|g| g.layout = labels(16_384, false)), 94, "94 before 95");
        assert_eq!(given(version).with(|g| g.layout = labels(2, false)), 95);
        let mut start = given(version).start();
        start.layout.push(10);
        assert_eq!(write(&start, 4096), Err(90), "a length that is not of nine");
    }
}

#[test]
fn a_block_is_at_most_as_long_as_four_bytes_say() {
    // Symbols and mappings of no letters, 65,535 bytes wide: few rows of a long block, none of which is written.
    let long = |symbols: u32, mappings: u32, change: &dyn Fn(&mut Given)| {
        let mut given = given(2);
        let kinds = (0..symbols).map(|_| 0).chain((0..mappings).map(|_| 3));
        given.rows = kinds.enumerate().map(|(own, kind)| [kind, 0, 0, 0, 0, own as u32]).collect();
        given.fields[8] = 65_535;
        change(&mut given);
        given.write().map(|stream| stream.len())
    };
    assert_eq!(120 + (28 + 65_505) * 65_535 + 65_505 * 4, u32::MAX as u64);
    assert_eq!(long(28, 65_505, &|_| {}), Err(112), "4,294,967,295 bytes");
    assert_eq!(long(27, 65_506, &|_| {}), Err(13), "4,294,967,299 bytes");
    assert_eq!(long(27, 65_506, &|given| given.fields[1] = 20), Err(13), "13 before 21");
    assert_eq!(long(0, 70_000, &|given| given.rows[0][4] = 1), Err(110), "110 before 13");
    let mut start = BlockBuilder::new(2);
    (start.fields.symbol_cstr_len, start.symbols) = (65_535, vec![String::new(); 70_000]);
    assert_eq!(start.write(None).expect_err("a refusal").kind(), RefusalKind::Size);
}

/// Changes that do not meet in one number or text, in the order of their refusals.
const IN_ORDER: [Change; 16] = [
    (11, "a version", |g| g.version = 5),
    (110, "ts_out 2", |g| g.fields[7] = 2),
    (111, "a wide symbol", |g| (g.rows[1][1], g.rows[1][2]) = (g.letters(), 23)),
    (90, "an unused number", |g| g.layout[7][4] = 1),
    (92, "a name of 256 bytes", |g| (g.layout[2][1], g.layout[2][2]) = (g.letters(), 256)),
    (93, "a name with a NUL", |g| (g.layout[5][1], g.layout[5][2]) = (g.nul(), 3)),
    (95, "label codes", |g| g.layout[8][3] = 65),
    (20, "a dataset", |g| (g.fields[0], g.fields[13]) = (2, g.not_utf8().into())),
    (21, "schema 20", |g| g.fields[1] = 20),
    (22, "stype_in 13", |g| g.fields[5] = 13),
    (23, "stype_out 255", |g| g.fields[6] = 255),
    (60, "a struct's size", |g| g.layout[3][3] = 12),
    (62, "an rtype's low byte", |g| g.layout[0][3] = 0x4E),
    (41, "a list's symbol", |g| (g.rows[2][1], g.rows[2][2]) = (g.nul(), 3)),
    (36, "a raw symbol", |g| (g.rows[4][1], g.rows[4][2]) = (g.not_utf8(), 2)),
    (40, "an interval's symbol", |g| (g.rows[5][1], g.rows[5][2]) = (g.not_utf8(), 2)),
];

#[test]
fn of_two_faults_the_first_in_order_decides() {
    for (i, (number, one, first)) in IN_ORDER.iter().enumerate() {
        assert_eq!(given(4).with(first), *number, "{one}");
        for (_, two, second) in &IN_ORDER[i + 1..] {
            let both = |g: &mut Given| {
                first(g);
                second(g);
            };
            assert_eq!(given(4).with(both), *number, "{one} and {two}");
        }
        let mut short = given(4);
        first(&mut short);
        assert_eq!(write(&short.start(), 10), Err(*number), "{one} and an output that is too short");
    }
    let dataset = |g: &mut Given| (READ[1].2)(g);
    let both = |g: &mut Given| {
        dataset(g);
        g.fields[1] = 20;
    };
    assert_eq!(given(2).with(both), 29, "29 before 21");
    assert_eq!(given(1).with(|g| (g.fields[8], g.fields[12]) = (0, 16)), 110, "110 before the width of version 1");
}

#[test]
fn texts_may_overlap_and_stand_anywhere() {
    let mut given = given(3);
    given.rows.iter_mut().for_each(|row| (row[1], row[2]) = (given.fields[13] as u32, 8));
    let stream = given.write().expect("a start");
    let mut tables = Tables::default();
    let block = Block::read(3, &stream[8..], None, &mut tables).expect("a block");
    assert!((0..8).all(|row| block.name(row) == Ok("XNAS.ITC")));
}

#[test]
fn a_start_with_nothing_in_it_is_written() {
    for (version, length) in [(1, 128), (2, 128), (3, 128), (4, 140)] {
        let stream = BlockBuilder::new(version).write(&plain()).expect("a start");
        assert_eq!((stream.len(), stream[3]), (length, version));
        let mut tables = Tables::default();
        let read = Block::read(version, &stream[8..], &plain(), &mut tables).expect("a block").to_builder();
        assert_eq!(read.fields, BlockBuilder::new(version).fields);
        assert_eq!((read.dataset.len(), read.symbols.len(), read.mappings.len()), (0, 0, 0));
    }
}

#[test]
fn a_builder_writes_into_an_output() {
    for version in 1..=4 {
        let wanted = by_hand(version);
        let mut output = vec![0xEE; wanted.len() + 3];
        assert_eq!(builder(version).write_into(&plain(), &mut output), Ok(wanted.len()));
        assert_eq!((&output[..wanted.len()], &output[wanted.len()..]), (&wanted[..], &[0xEE; 3][..]));
        let mut short = vec![0xEE; wanted.len() - 1];
        let refusal = builder(version).write_into(&plain(), &mut short).expect_err("a refusal");
        assert_eq!((refusal.kind(), refusal.place()), (RefusalKind::StartOutputShort, None));
        assert!(short.iter().all(|&byte| byte == 0xEE));
    }
}

#[test]
fn a_builder_is_judged_by_the_library() {
    let refused = |version: u8, change: &dyn Fn(&mut BlockBuilder)| {
        let mut start = builder(version);
        change(&mut start);
        let refusal = start.write(&plain()).expect_err("a refusal");
        assert_eq!(refusal.place(), None);
        refusal.number()
    };
    assert_eq!(refused(9, &|_| {}), 11);
    assert_eq!(refused(2, &|start| start.symbols[0].push('\0')), 110);
    assert_eq!(refused(2, &|start| start.fields.end = Some(0)), 110);
    assert_eq!(refused(3, &|start| start.fields.limit = Some(0)), 110);
    assert_eq!(refused(3, &|start| start.fields.schema = Some(65535)), 110);
    assert_eq!(refused(3, &|start| start.fields.layout_version = Some(1)), 110);
    assert_eq!(refused(3, &|start| start.fields.symbol_cstr_len = usize::MAX), 110);
    assert_eq!(refused(1, &|start| start.fields.symbol_cstr_len = usize::MAX), 111);
    assert_eq!(refused(3, &|start| start.dataset = "D".repeat(17)), 111);
    assert_eq!(refused(4, &|start| start.layout.numbers[0] = 16), 90);
    assert_eq!(refused(4, &|start| start.layout.numbers.push(10)), 90);
    assert_eq!(refused(4, &|start| start.layout.numbers[1] = u32::MAX), 90);
    assert_eq!(refused(4, &|start| start.layout.text.truncate(20)), 90, "a name outside the layout's own text");
    assert_eq!(refused(3, &|start| start.dataset = "A\0B".into()), 29);
    assert_eq!(refused(3, &|start| start.layout.numbers = layout().concat()), 90);
    assert_eq!(refused(3, &|start| start.layout = builder(4).layout), 25);
    assert_eq!(refused(4, &|start| start.fields.stype_out = 255), 23);
    assert_eq!(builder(4).write(None).expect_err("no sheet").kind(), RefusalKind::NoSheet);
}

#[test]
fn the_output_of_a_builder_is_always_long_enough() {
    let mut start = builder(4);
    // Long names, and as many labels as a section has room for.
    start.layout.text = vec![b'n'; 255];
    start.layout.numbers = [&labels(250, true).concat()[..], &labels(16_000, true).concat()].concat();
    start.layout.numbers.chunks_mut(9).take(251).for_each(|row| row[2] = 255);
    start.symbols = (0..10_000).map(|i| format!("S{i}")).collect();
    start.fields.symbol_cstr_len = 300;
    let stream = start.write(&plain()).expect("a start");
    let mut tables = Tables::default();
    let block = Block::read(4, &stream[8..], &plain(), &mut tables).expect("a block");
    assert_eq!((block.symbols().count(), block.layout().expect("a layout").rows().len()), (10_000, 16_252));
}

#[test]
fn the_header_s_place_of_the_dataset_is_this_package_s() {
    const HEADER: &str = include_str!("../../include/dbn_start.h");
    assert!(HEADER.contains(&format!("DBN_FIELD_DATASET_START = {}", ffi::DATASET_START)));
    assert!(HEADER.contains("DBN_WRITE_LENGTH = 0"));
}
