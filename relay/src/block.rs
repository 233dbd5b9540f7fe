use crate::{
    ffi::{self, LAYOUT_ROW},
    layout, promise,
    symbology::Symbology,
    text, Columns, Day, Interval, Layout, Mapping, Refusal, RefusalKind, Sheet, Tables,
};
use std::fmt;

/// The refusal of tables that are too short.
pub(crate) const TABLE_SHORT: u32 = RefusalKind::TableShort.number();
/// The first version that has a layout.
const WITH_LAYOUT: u8 = 4;
/// The fewest bytes of a block that a row of symbology is guessed for.
const SYMBOL_LEAST: usize = 16;
/// What is lent where a stream has no layout to judge.
pub(crate) const NO_TYPES: &[u16; ffi::SHEET] = &[0; ffi::SHEET];

/// The sheet to lend for a version. Below version 4 any will do, since nothing is judged by it.
pub(crate) fn lent(version: u8, sheet: Option<&Sheet>) -> Result<&[u16; ffi::SHEET], Refusal> {
    match sheet {
        Some(sheet) => Ok(sheet.numbers()),
        None if version == WITH_LAYOUT => Err(Refusal::own(RefusalKind::NoSheet)),
        None => Ok(NO_TYPES),
    }
}

/// The fields of a block. What the stream leaves absent is `None`.
#[derive(Debug, Clone, Copy, PartialEq, Eq)]
pub struct Fields {
    /// The schema's code.
    pub schema: Option<u16>,
    /// The start of the query's range, in nanoseconds since 1970.
    pub start: u64,
    /// The end of the query's range, in nanoseconds since 1970.
    pub end: Option<u64>,
    /// The most records that were asked for.
    pub limit: Option<u64>,
    /// The code of the symbol type that was asked in.
    pub stype_in: Option<u8>,
    /// The code of the symbol type that is answered in.
    pub stype_out: u8,
    /// Whether each record has the time at which it was sent.
    pub ts_out: bool,
    /// The width of a symbol in bytes, 22 in version 1.
    pub symbol_cstr_len: usize,
    /// The version of the layout, which version 4 has.
    pub layout_version: Option<u16>,
}

/// An accepted block: its fields, its symbology and its layout, with every name a part of the block's own bytes.
///
/// No name holds a NUL. The dataset and the symbols are filled with NULs to their width, which are no part of the name, and one that
/// has more than NULs after a NUL is refused: by 29, 41, 42 and 43. So a name is the same one to whoever stops at the first NUL and to
/// whoever takes NULs off the end.
#[derive(Clone, Copy)]
pub struct Block<'a> {
    version: u8,
    bytes: &'a [u8],
    fields: Fields,
    dataset: &'a str,
    symbology: Symbology<'a>,
    layout: &'a [u32],
}

impl<'a> Block<'a> {
    /// Reads a whole block (the bytes after the prelude). The tables grow as needed, up to their limit. Below version 4 the sheet
    /// may be `None`.
    pub fn read<'s>(
        version: u8,
        bytes: &'a [u8],
        sheet: impl Into<Option<&'s Sheet>>,
        tables: &'a mut Tables,
    ) -> Result<Self, Refusal> {
        let sheet = lent(version, sheet.into())?;
        guess(version, bytes, tables);
        let mut out = [0; 16];
        let mut number = call(version, bytes, sheet, tables, &mut out);
        if number == TABLE_SHORT {
            tables.grow(out[10], out[11])?;
            number = call(version, bytes, sheet, tables, &mut out);
            assert_ne!(number, TABLE_SHORT, "the library dbn_c broke its promise: the rows it needs are not enough");
        }
        Refusal::unless_read(number, out[ffi::PLACE])?;
        Ok(Self::accepted(version, bytes, &out, tables))
    }

    /// The block that the numbers in `out` and the tables tell of.
    pub(crate) fn accepted(version: u8, bytes: &'a [u8], out: &[u64; 16], tables: &'a Tables) -> Self {
        let present = |bit: u64, value: u64| (out[12] & bit != 0).then_some(value);
        let fields = Fields {
            schema: present(1, out[1]).map(|x| promise(x, "a schema")),
            start: out[2],
            end: present(2, out[3]),
            limit: present(4, out[4]),
            stype_in: present(8, out[5]).map(|x| promise(x, "an input symbol type")),
            stype_out: promise(out[6], "an output symbol type"),
            ts_out: out[7] != 0,
            symbol_cstr_len: promise(out[8], "a symbol width"),
            layout_version: (version == WITH_LAYOUT).then(|| promise(out[9], "a layout version")),
        };
        let [dataset, symbology, layout] =
            [(out[0], "a dataset's length"), (out[10], "the symbology rows"), (out[11], "the layout rows")]
                .map(|(number, what)| promise::<usize, u64>(number, what));
        Self {
            version,
            bytes,
            fields,
            dataset: text(&bytes[..dataset]),
            symbology: Symbology::accepted(bytes, &tables.symbology, symbology),
            layout: &tables.layout[..layout * LAYOUT_ROW],
        }
    }

    /// The stream's version, 1 to 4.
    pub fn version(&self) -> u8 {
        self.version
    }

    /// The block's own bytes.
    pub fn bytes(&self) -> &'a [u8] {
        self.bytes
    }

    /// The block's fields.
    pub fn fields(&self) -> Fields {
        self.fields
    }

    /// The dataset's name, which holds no NUL.
    pub fn dataset(&self) -> &'a str {
        self.dataset
    }

    /// The symbology by column, as the library stores it: every kind, every start, every length, and so on. Nothing is copied.
    ///
    /// ```
    /// use dbn_start::{Block, Tables};
    /// // A block of version 3 with symbols of 6 bytes: two that were asked for, two empty lists and no mappings.
    /// let mut bytes = vec![0; 104];
    /// bytes[45] = 6;
    /// bytes.extend(b"\x02\0\0\0ES.c.0ESH3\0\0");
    /// bytes.extend([0; 12]);
    /// let mut tables = Tables::default();
    /// let block = Block::read(3, &bytes, None, &mut tables).expect("an accepted block");
    /// let columns = block.columns();
    /// assert_eq!((columns.starts, columns.lengths), (&[108, 114][..], &[6, 4][..]));
    /// assert_eq!(block.rows().next(), Some([0, 108, 6, 0, 0, 0]));
    /// ```
    pub fn columns(&self) -> Columns<'a> {
        self.symbology.columns()
    }

    /// The symbology rows, put together from the [columns](Self::columns): kind, start, length, x, y and owner of each.
    pub fn rows(&self) -> impl ExactSizeIterator<Item = [u32; 6]> + use<'a> {
        self.symbology.rows()
    }

    /// The name of a symbology row, which holds no NUL, or 90 where there is no such row.
    pub fn name(&self, row: usize) -> Result<&'a str, Refusal> {
        self.symbology.name(row)
    }

    /// The symbols that were asked for. Like every name of a block, they hold no NUL.
    pub fn symbols(&self) -> impl Iterator<Item = &'a str> + use<'a> {
        self.symbology.list(0)
    }

    /// The symbols that resolved for a part of the time.
    pub fn partial(&self) -> impl Iterator<Item = &'a str> + use<'a> {
        self.symbology.list(1)
    }

    /// The symbols that did not resolve.
    pub fn not_found(&self) -> impl Iterator<Item = &'a str> + use<'a> {
        self.symbology.list(2)
    }

    /// Each mapping with its intervals.
    pub fn mappings(&self) -> impl Iterator<Item = Mapping<'a>> + use<'a> {
        self.symbology.mappings()
    }

    /// Every interval of the block, in the stream's order. [`Interval::mapping`] tells which symbol it belongs to.
    pub fn intervals(&self) -> impl Iterator<Item = Interval<'a>> + use<'a> {
        self.symbology.intervals()
    }

    /// The intervals that have that day, in the stream's order: those that start on it or before, and end after it.
    pub fn intervals_on(&self, day: Day) -> impl Iterator<Item = Interval<'a>> + use<'a> {
        self.symbology.intervals_on(day)
    }

    /// What a symbol stood for on a day: the first interval in the stream's order that has that day and belongs to a mapping of that
    /// raw symbol, or `None` where there is none.
    ///
    /// ```
    /// use dbn_start::{Block, Day, Tables};
    /// // A block of version 3 with symbols of 6 bytes: three empty lists, and a mapping of two intervals.
    /// let mut bytes = vec![0; 116];
    /// bytes[45] = 6;
    /// bytes.extend(b"\x01\0\0\0ES.c.0\x02\0\0\0");
    /// for (start, end, contract) in [(20230101_u32, 20230317_u32, b"ESH3\0\0"), (20230317, 20230616, b"ESM3\0\0")] {
    ///     bytes.extend([&start.to_le_bytes()[..], &end.to_le_bytes(), contract].concat());
    /// }
    /// let mut tables = Tables::default();
    /// let block = Block::read(3, &bytes, None, &mut tables).expect("an accepted block");
    /// let day = |date| Day::from_yyyymmdd(date).expect("a date");
    /// let interval = block.interval_on("ES.c.0", day(20230401)).expect("a contract");
    /// assert_eq!((interval.symbol, interval.mapping().raw_symbol), ("ESM3", "ES.c.0"));
    /// assert_eq!(block.interval_on("ES.c.0", day(20230616)), None);
    /// ```
    pub fn interval_on(&self, raw_symbol: &str, day: Day) -> Option<Interval<'a>> {
        self.intervals_on(day).find(|interval| interval.mapping().raw_symbol == raw_symbol)
    }

    /// The layout, which version 4 has.
    pub fn layout(&self) -> Option<Layout<'a>> {
        let version = self.fields.layout_version?;
        let length = u32::from_le_bytes(self.bytes[100..104].try_into().expect("four bytes"));
        Some(Layout::accepted(&self.bytes[104..][..length as usize], version, self.layout))
    }
}

impl fmt::Debug for Block<'_> {
    fn fmt(&self, f: &mut fmt::Formatter<'_>) -> fmt::Result {
        let mut shown = f.debug_struct("Block");
        shown.field("version", &self.version).field("dataset", &self.dataset).field("fields", &self.fields);
        shown.field("rows", &self.rows().len()).finish_non_exhaustive()
    }
}

/// Makes room for the rows that a block may have. Where that is enough the block is read once, and else twice: the first reading tells how
/// many rows it needs.
pub(crate) fn guess(version: u8, bytes: &[u8], tables: &mut Tables) {
    let [symbology, layout] = guessed(version, bytes);
    tables.guess(symbology, layout);
}

/// The rows of symbology and of layout that a block may have, by its bytes. Each row of symbology has a symbol of the stated width in it, so below
/// version 4 this is enough for symbols that are [`SYMBOL_LEAST`] wide or wider. A guess that is too low costs a second reading.
///
/// A row of symbology takes 24 bytes of a table and one of a layout 36. So what is guessed takes at most three times the block's own bytes,
/// whatever the block claims.
fn guessed(version: u8, bytes: &[u8]) -> [usize; 2] {
    let number = |at: usize, count: usize| {
        bytes.get(at..at + count).map_or(0, |part| part.iter().rev().fold(0, |sum, &byte| sum << 8 | byte as usize))
    };
    let (width, layout) = match version {
        1 => (22, 0),
        WITH_LAYOUT => (number(67, 2), number(100, 4).min(bytes.len())),
        _ => (number(45, 2), 0),
    };
    [(bytes.len() - layout) / width.max(SYMBOL_LEAST), layout / layout::ROW_LEAST]
}

/// One reading of a block with the tables as they are.
fn call(version: u8, bytes: &[u8], sheet: &[u16; ffi::SHEET], tables: &mut Tables, out: &mut [u64; 16]) -> u32 {
    let Tables { symbology, layout, .. } = tables;
    // SAFETY: each pointer and length are those of a slice, and no two of them overlap.
    unsafe {
        ffi::dbn_block(
            version,
            bytes.as_ptr(),
            bytes.len(),
            sheet,
            symbology.as_mut_ptr(),
            symbology.len(),
            layout.as_mut_ptr(),
            layout.len(),
            out,
        )
    }
}

#[cfg(test)]
mod tests {
    use super::*;

    /// A block of that version, width and count of symbols, which are NULs, and its rows.
    fn of_symbols(version: u8, width: u16, count: usize) -> Vec<u8> {
        let mut bytes = vec![0; 104];
        if version > 1 {
            bytes[45..47].copy_from_slice(&width.to_le_bytes());
        }
        bytes.extend((count as u32).to_le_bytes());
        bytes.resize(108 + count * width as usize + 12, 0);
        bytes
    }

    #[test]
    fn a_guess_is_enough_for_wide_symbols_and_no_more_than_the_bytes_hold() {
        for (version, width) in [(1, 22), (2, 16), (2, 71), (3, 71), (3, 1_000)] {
            for count in [0, 1, 3, 1_000] {
                let bytes = of_symbols(version, width, count);
                let [symbology, layout] = guessed(version, &bytes);
                assert!(symbology >= count && symbology * SYMBOL_LEAST <= bytes.len(), "{symbology} for {count}");
                assert_eq!(layout, 0);
                let mut tables = Tables::new(symbology);
                assert_eq!(Block::read(version, &bytes, None, &mut tables).map(|block| block.rows().len()), Ok(count));
            }
        }
    }

    #[test]
    fn a_guess_that_is_too_low_costs_no_more_than_a_second_reading() {
        let bytes = of_symbols(3, 1, 1_000);
        assert_eq!(guessed(3, &bytes), [1_120 / SYMBOL_LEAST, 0]);
        let mut tables = Tables::new(1_000);
        assert_eq!(Block::read(3, &bytes, None, &mut tables).map(|block| block.rows().len()), Ok(1_000));
        assert_eq!(tables.symbology.len(), 6_000);
    }

    #[test]
    fn bytes_that_are_no_block_are_guessed_too() {
        for version in 0..=255 {
            for length in 0..110 {
                let [symbology, layout] = guessed(version, &vec![0xFF; length]);
                assert!(24 * symbology + 36 * layout <= 3 * length, "version {version}, {length} bytes");
            }
        }
    }
}
