use crate::{
    block::lent,
    ffi::{self, LAYOUT_ROW, SYMBOLOGY_ROW},
    promise,
    symbology::{INTERVAL, MAPPING},
    tables::zeroed,
    Block, Day, Fields, Interval, Layout, Mapping, Refusal, RefusalKind, Sheet,
};

/// The kind of a layout row that has no name, so that its second number is no start.
const FIELD: u32 = 11;
/// The most bytes of a name in a layout.
const NAME_MOST: usize = 255;
/// The most bytes of a layout that a row stands for, its name apart: those of a record.
const ROW_MOST: usize = 20;
/// The bytes before the layout, those of a layout without rows, and those of a symbology without rows, both with their length.
const FIXED: usize = 8 + 100 + 4 + 8 + 4 + 16;

/// A symbol that is to be written, and what it stood for at which time.
#[derive(Debug, Clone, Default, PartialEq, Eq)]
pub struct SymbolMapping {
    /// The symbol that was asked for.
    pub raw_symbol: String,
    /// The mapping's intervals.
    pub intervals: Vec<MappingInterval>,
}

/// An interval of a mapping that is to be written.
#[derive(Debug, Clone, PartialEq, Eq)]
pub struct MappingInterval {
    /// The first day.
    pub start_date: Day,
    /// The day after the last.
    pub end_date: Day,
    /// What the symbol stood for.
    pub symbol: String,
}

/// The rows of a layout that is to be written, and the text that their names are parts of.
#[derive(Debug, Clone, Default, PartialEq, Eq)]
pub struct LayoutRows {
    /// The rows, nine numbers each, as [`Layout::numbers`] has them.
    pub numbers: Vec<u32>,
    /// What the starts of the names count from, as [`Layout::bytes`].
    pub text: Vec<u8>,
}

impl From<&Layout<'_>> for LayoutRows {
    fn from(layout: &Layout<'_>) -> Self {
        Self { numbers: layout.numbers().to_vec(), text: layout.bytes().to_vec() }
    }
}

impl From<Mapping<'_>> for SymbolMapping {
    fn from(mapping: Mapping<'_>) -> Self {
        Self { raw_symbol: mapping.raw_symbol.into(), intervals: mapping.intervals().map(Into::into).collect() }
    }
}

impl From<Interval<'_>> for MappingInterval {
    fn from(interval: Interval<'_>) -> Self {
        let Interval { start_date, end_date, symbol, .. } = interval;
        Self { start_date, end_date, symbol: symbol.into() }
    }
}

impl Block<'_> {
    /// What was read as values of its own, which can be changed and written.
    pub fn to_builder(&self) -> BlockBuilder {
        BlockBuilder {
            version: self.version(),
            dataset: self.dataset().into(),
            fields: self.fields(),
            symbols: self.symbols().map(Into::into).collect(),
            partial: self.partial().map(Into::into).collect(),
            not_found: self.not_found().map(Into::into).collect(),
            mappings: self.mappings().map(Into::into).collect(),
            layout: self.layout().as_ref().map(Into::into).unwrap_or_default(),
        }
    }
}

/// The start of a stream that is to be written: prelude and block, from owned values.
///
/// [`BlockBuilder::new`] has nothing in it yet, and [`Block::to_builder`] has what was read. Every part can be set, and nothing is judged before it
/// is written: then the library refuses what no reader would take, by the reader's number, and what is malformed by 110, too wide by 111.
///
/// ```
/// use dbn_start::{Block, BlockBuilder, Day, MappingInterval, SymbolMapping, Tables};
/// let day = |date| Day::from_yyyymmdd(date).expect("a date");
/// let mut start = BlockBuilder::new(3);
/// start.dataset = "GLBX.MDP3".into();
/// start.fields.schema = Some(0);
/// start.symbols = vec!["ES.c.0".into()];
/// let interval = MappingInterval { start_date: day(20230101), end_date: day(20230317), symbol: "ESH3".into() };
/// start.mappings = vec![SymbolMapping { raw_symbol: "ES.c.0".into(), intervals: vec![interval] }];
/// let stream = start.write(None)?;
/// assert_eq!(stream[..4], *b"DBN\x03");
///
/// // What was written is read, a symbol is changed, and it is written again.
/// let mut tables = Tables::default();
/// let mut read = Block::read(3, &stream[8..], None, &mut tables)?.to_builder();
/// assert_eq!(read, start);
/// read.mappings[0].intervals[0].symbol = "ESM3".into();
/// let other = read.write(None)?;
/// assert_eq!(other.len(), stream.len());
///
/// // No symbol is wider than its field, which has 71 bytes here.
/// read.symbols.push("E".repeat(72));
/// assert_eq!(read.write(None).expect_err("a refusal").number(), 111);
/// # Ok::<(), dbn_start::Refusal>(())
/// ```
#[derive(Debug, Clone, PartialEq, Eq)]
pub struct BlockBuilder {
    /// The stream's version, 1 to 4.
    pub version: u8,
    /// The dataset's name.
    pub dataset: String,
    /// The fields. A layout version that is `None` is written as 0, which is the only one below version 4.
    pub fields: Fields,
    /// The symbols that were asked for.
    pub symbols: Vec<String>,
    /// The symbols that resolved for a part of the time.
    pub partial: Vec<String>,
    /// The symbols that did not resolve.
    pub not_found: Vec<String>,
    /// Each mapping with its intervals.
    pub mappings: Vec<SymbolMapping>,
    /// The rows of the layout, which version 4 has. Below it any row is refused by 25.
    pub layout: LayoutRows,
}

impl BlockBuilder {
    /// A start of that version with nothing in it: no dataset, no symbols, every value that may be absent absent, and the others 0. The symbol width
    /// is 22 in version 1 and else 71, and the layout of version 4 has version 1 and no rows.
    pub fn new(version: u8) -> Self {
        let fields = Fields {
            schema: None,
            start: 0,
            end: None,
            limit: None,
            stype_in: None,
            stype_out: 0,
            ts_out: false,
            symbol_cstr_len: if version == 1 { 22 } else { 71 },
            layout_version: (version == 4).then_some(1),
        };
        Self {
            version,
            dataset: String::new(),
            fields,
            symbols: Vec::new(),
            partial: Vec::new(),
            not_found: Vec::new(),
            mappings: Vec::new(),
            layout: LayoutRows::default(),
        }
    }

    /// Writes the start, prelude and block. Version 4 wants the type sheet that its layout is judged by; below it the sheet may be `None`.
    ///
    /// The library is called once, with an output that is long enough. Texts of 4,294,967,295 bytes or more in all are refused by 13, whatever
    /// else is wrong with them, since a row has no place so far. Where the system has no memory for the output the answer is
    /// [`RefusalKind::NoMemory`].
    pub fn write<'s>(&self, sheet: impl Into<Option<&'s Sheet>>) -> Result<Vec<u8>, Refusal> {
        let (sheet, parts) = (lent(self.version, sheet.into())?, self.parts()?);
        let mut output = zeroed(self.most()).ok_or(Refusal::own(RefusalKind::NoMemory))?;
        let length = self.call(&parts, sheet, &mut output)?;
        output.truncate(length);
        Ok(output)
    }

    /// Writes the start to the front of `output`, as [`BlockBuilder::write`] does, and gives the length. Bytes past that length, and the whole
    /// output where the start is refused, keep what they held. 112 where the output is too short.
    pub fn write_into<'s>(&self, sheet: impl Into<Option<&'s Sheet>>, output: &mut [u8]) -> Result<usize, Refusal> {
        self.call(&self.parts()?, lent(self.version, sheet.into())?, output)
    }

    /// What the library is lent for reading, 13 where the texts are too long for rows.
    fn parts(&self) -> Result<Parts, Refusal> {
        let mut parts = Parts { text: self.dataset.as_bytes().to_vec(), ..Parts::default() };
        for (kind, list) in [&self.symbols, &self.partial, &self.not_found].into_iter().enumerate() {
            list.iter().for_each(|symbol| parts.push_own(kind as u32, symbol, 0));
        }
        for mapping in &self.mappings {
            parts.push_mapping(mapping);
        }
        parts.push_layout(&self.layout);
        // A start that was raised as far as numbers go lies outside a text of this length.
        if parts.text.len() >= u32::MAX as usize {
            return Err(Refusal::own(RefusalKind::Size));
        }
        Ok(parts)
    }

    /// The sixteen numbers of the fields, as the library takes them. The dataset is the first of the texts.
    fn numbers(&self) -> [u64; 16] {
        let Fields { schema, start, end, limit, stype_in, stype_out, ts_out, symbol_cstr_len, layout_version } =
            self.fields;
        let present = [schema.is_some(), end.is_some(), limit.is_some(), stype_in.is_some()];
        let mut numbers = [0; 16];
        numbers[..10].copy_from_slice(&[
            self.dataset.len() as u64,
            schema.unwrap_or(0).into(),
            start,
            end.unwrap_or(0),
            limit.unwrap_or(0),
            stype_in.unwrap_or(0).into(),
            stype_out.into(),
            ts_out.into(),
            symbol_cstr_len as u64,
            layout_version.unwrap_or(0).into(),
        ]);
        numbers[12] = present.iter().zip([1, 2, 4, 8]).filter(|(here, _)| **here).map(|(_, bit)| bit).sum();
        numbers[ffi::DATASET_START] = 0;
        numbers
    }

    /// A length that no start of these parts has more than, where it is written. A width of more than two bytes, and symbols of more than four, are
    /// refused before the output is looked at.
    fn most(&self) -> usize {
        let width = u16::try_from(self.fields.symbol_cstr_len).map_or(0, usize::from);
        let symbols = self.symbols.len() + self.partial.len() + self.not_found.len();
        let (mappings, intervals) =
            (self.mappings.len(), self.mappings.iter().map(|mapping| mapping.intervals.len()).sum::<usize>());
        let symbols = symbols * width + mappings * (width + 4) + intervals * (width + 8);
        let row = |row: &[u32]| ROW_MOST + row.get(2).map_or(0, |&length| NAME_MOST.min(length as usize));
        let layout: usize = self.layout.numbers.chunks(LAYOUT_ROW).map(row).sum();
        FIXED + layout + if symbols > u32::MAX as usize { 0 } else { symbols }
    }

    fn call(&self, parts: &Parts, sheet: &[u16; ffi::SHEET], output: &mut [u8]) -> Result<usize, Refusal> {
        let Parts { text, columns, layout } = parts;
        let (symbology, mut out) = (columns.concat(), [0; 16]);
        // SAFETY: each pointer and length are those of a slice, and what is lent for writing overlaps nothing.
        let number = unsafe {
            ffi::dbn_write_block(
                self.version,
                &self.numbers(),
                symbology.as_ptr(),
                symbology.len(),
                parts.rows() as u64,
                layout.as_ptr(),
                layout.len(),
                text.as_ptr(),
                text.len(),
                sheet,
                output.as_mut_ptr(),
                output.len(),
                &mut out,
            )
        };
        Refusal::unless_written(number)?;
        Ok(promise(out[0], "the written length"))
    }
}

/// What the library is lent for reading: the text, the columns of the symbology, and the rows of the layout, whose starts count from that text.
#[derive(Default)]
struct Parts {
    text: Vec<u8>,
    columns: [Vec<u32>; SYMBOLOGY_ROW],
    layout: Vec<u32>,
}

impl Parts {
    fn rows(&self) -> usize {
        self.columns[0].len()
    }

    /// A row of that kind with x, y and owner. Its text comes after the others.
    fn push(&mut self, kind: u32, symbol: &str, [x, y, owner]: [u32; 3]) {
        let row = [kind, number(self.text.len()), number(symbol.len()), x, y, owner];
        self.columns.iter_mut().zip(row).for_each(|(column, number)| column.push(number));
        self.text.extend(symbol.as_bytes());
    }

    /// A row that is no interval: it owns itself.
    fn push_own(&mut self, kind: u32, symbol: &str, x: u32) {
        self.push(kind, symbol, [x, 0, number(self.rows())]);
    }

    fn push_mapping(&mut self, mapping: &SymbolMapping) {
        let owner = number(self.rows());
        self.push_own(MAPPING, &mapping.raw_symbol, number(mapping.intervals.len()));
        for MappingInterval { start_date, end_date, symbol } in &mapping.intervals {
            self.push(INTERVAL, symbol, [start_date.number(), end_date.number(), owner]);
        }
    }

    /// The rows of the layout, whose text comes after all others: so a name that is outside of it is outside of all.
    fn push_layout(&mut self, LayoutRows { numbers, text }: &LayoutRows) {
        let before = number(self.text.len());
        self.layout.extend(numbers);
        for row in self.layout.chunks_mut(LAYOUT_ROW).filter(|row| row.len() > 1 && row[0] != FIELD) {
            row[1] = row[1].saturating_add(before);
        }
        self.text.extend(text);
    }
}

/// A place or a count as a row has it. What does not fit is refused, since there are then too many bytes or rows.
fn number(number: usize) -> u32 {
    u32::try_from(number).unwrap_or(u32::MAX)
}
