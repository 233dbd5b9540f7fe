use crate::{
    block::TABLE_SHORT,
    ffi::{self, LAYOUT_ROW as ROW},
    named, part, promise,
    tables::rows,
    Refusal, Sheet, Tables,
};
use std::fmt;

/// The fewest bytes of a layout that one of its rows is guessed for. The row itself takes 36, so what is guessed is at most three times the
/// layout's own bytes.
pub(crate) const ROW_LEAST: usize = 12;

/// An accepted layout, with every name a part of the layout's own bytes.
#[derive(Clone, Copy)]
pub struct Layout<'a> {
    bytes: &'a [u8],
    version: u16,
    rows: &'a [u32],
}

impl<'a> Layout<'a> {
    /// Reads a layout for a stream of that symbol width. The table grows as needed, up to its limit.
    pub fn read(bytes: &'a [u8], width: u16, sheet: &Sheet, tables: &'a mut Tables) -> Result<Self, Refusal> {
        let mut out = [0; 16];
        tables.guess(0, bytes.len() / ROW_LEAST);
        let mut number = call(bytes, width, sheet, tables, &mut out);
        if number == TABLE_SHORT {
            tables.grow(0, out[11])?;
            number = call(bytes, width, sheet, tables, &mut out);
            assert_ne!(number, TABLE_SHORT, "the library dbn_c broke its promise: the rows it needs are not enough");
        }
        Refusal::unless_read(number, out[ffi::PLACE])?;
        let count: usize = promise(out[11], "the layout rows");
        Ok(Self::accepted(bytes, promise(out[9], "a layout version"), &tables.layout[..count * ROW]))
    }

    /// Whether a layout for a stream of that symbol width is tidy: the bytes that [`write_layout`] gives for the rows that it reads to, with its
    /// own version. No table is needed, and nothing is written.
    ///
    /// Refused first by the reader's own number, then by the first untidy thing in wire order: 120 for bytes left over in a section, 121 for a
    /// label's code that is not above the one before it, 122 for a skipped byte of an entry that is not zero, 123 for bytes left over after the
    /// label defs. Each tells its place.
    ///
    /// ```
    /// # use dbn_start::{Layout, Sheet, SheetIds};
    /// # let sheet = Sheet::new(SheetIds { struct_id: 1, symbol_id: 2, decimal_id: 4, padding_id: 0, extension_weight: 64, no_label_def: 65535, header_size: 24 });
    /// let empty = [1, 0, 0, 0, 0, 0, 0, 0]; // a version and three counts
    /// assert_eq!(Layout::tidy(&empty, 71, &sheet), Ok(()));
    /// let refusal = Layout::tidy(&[&empty[..], &[0]].concat(), 71, &sheet).expect_err("a byte left over");
    /// assert_eq!(refusal.to_string(), "refused by 123 at byte 8: bytes are left over after the label defs");
    /// ```
    pub fn tidy(bytes: &[u8], width: u16, sheet: &Sheet) -> Result<(), Refusal> {
        let mut out = [0; 16];
        // SAFETY: the pointer and length are those of a slice, and `out` is ours.
        let number = unsafe { ffi::dbn_tidy(bytes.as_ptr(), bytes.len(), width, sheet.numbers(), &mut out) };
        Refusal::unless_read(number, out[ffi::PLACE])
    }

    /// The layout that these rows tell of.
    pub(crate) fn accepted(bytes: &'a [u8], version: u16, rows: &'a [u32]) -> Self {
        Self { bytes, version, rows }
    }

    /// The layout's version.
    pub fn version(&self) -> u16 {
        self.version
    }

    /// The layout's bytes, which its names are parts of.
    pub fn bytes(&self) -> &'a [u8] {
        self.bytes
    }

    /// All numbers of the rows, nine each: what [`write_layout`] takes.
    pub fn numbers(&self) -> &'a [u32] {
        self.rows
    }

    /// The rows, nine numbers each.
    pub fn rows(&self) -> impl ExactSizeIterator<Item = &'a [u32; 9]> + use<'a> {
        rows(self.rows)
    }

    /// The name of a row, or 90 where the row has none.
    pub fn name(&self, row: usize) -> Result<&'a str, Refusal> {
        let mut out = [0; 2];
        let (bytes, rows) = (self.bytes, self.rows);
        // SAFETY: each pointer and length are those of a slice.
        let number = unsafe {
            ffi::dbn_layout_name(bytes.as_ptr(), bytes.len(), rows.as_ptr(), rows.len(), row as u64, &mut out)
        };
        part(self.bytes, number, out)
    }

    /// The record layouts.
    pub fn record_layouts(&self) -> impl Iterator<Item = RecordLayout<'a>> + use<'a> {
        let layout = *self;
        self.of_kind(10).map(move |(at, row)| RecordLayout {
            layout,
            name: named(layout.name(at)),
            rtype: promise(row[3], "an rtype"),
            schema: promise(row[4], "a record's schema"),
            base_record_size: promise(row[5], "a base size"),
            layout_hash: row[7] as u64 | (row[8] as u64) << 32,
            first: at + 1,
            count: row[6] as usize,
        })
    }

    /// The struct layouts.
    pub fn struct_layouts(&self) -> impl Iterator<Item = StructLayout<'a>> + use<'a> {
        let layout = *self;
        self.of_kind(13).map(move |(at, row)| StructLayout {
            layout,
            name: named(layout.name(at)),
            size: promise(row[3], "a struct's size"),
            first: at + 1,
            count: row[4] as usize,
        })
    }

    /// The label defs.
    pub fn label_defs(&self) -> impl Iterator<Item = LabelDef<'a>> + use<'a> {
        let layout = *self;
        self.of_kind(14).map(move |(at, row)| LabelDef {
            layout,
            name: named(layout.name(at)),
            first: at + 1,
            count: row[3] as usize,
        })
    }

    fn of_kind(&self, kind: u32) -> impl Iterator<Item = (usize, &'a [u32; ROW])> + use<'a> {
        self.rows().enumerate().filter(move |(_, row)| row[0] == kind)
    }

    /// `count` rows from `first` on, each with its index.
    fn some(&self, first: usize, count: usize) -> impl Iterator<Item = (usize, &'a [u32; ROW])> + use<'a> {
        (first..).zip(rows(&self.rows[first * ROW..][..count * ROW]))
    }

    /// The fields whose entries begin at a row: `count` entries, then as many names.
    fn fields(&self, first: usize, count: usize) -> impl Iterator<Item = Field<'a>> + use<'a> {
        let layout = *self;
        self.some(first, count).map(move |(at, row)| Field {
            name: named(layout.name(at + count)),
            field_id: promise(row[1], "a field id"),
            offset: promise(row[2], "an offset"),
            size: promise(row[3], "a field's size"),
            type_id: promise(row[4], "a type id"),
            flags: promise(row[5], "a field's flags"),
            def_index: promise(row[6], "a def index"),
            scale: promise::<u8, u32>(row[7], "a scale byte") as i8,
        })
    }
}

impl fmt::Debug for Layout<'_> {
    fn fmt(&self, f: &mut fmt::Formatter<'_>) -> fmt::Result {
        let mut shown = f.debug_struct("Layout");
        shown.field("version", &self.version).field("rows", &self.rows().len()).finish_non_exhaustive()
    }
}

/// One reading of a layout with the table as it is.
fn call(bytes: &[u8], width: u16, sheet: &Sheet, tables: &mut Tables, out: &mut [u64; 16]) -> u32 {
    let table = &mut tables.layout;
    // SAFETY: each pointer and length are those of a slice, and no two of them overlap.
    unsafe {
        ffi::dbn_layout(bytes.as_ptr(), bytes.len(), width, sheet.numbers(), table.as_mut_ptr(), table.len(), out)
    }
}

/// The layout of one record type.
#[derive(Debug, Clone, Copy)]
pub struct RecordLayout<'a> {
    layout: Layout<'a>,
    /// The record's name.
    pub name: &'a str,
    /// The record's type.
    pub rtype: u16,
    /// The code of the record's schema.
    pub schema: u16,
    /// The size of the record without its extensions.
    pub base_record_size: u16,
    /// The hash that the stream gives for the record, as stored.
    pub layout_hash: u64,
    first: usize,
    count: usize,
}

impl<'a> RecordLayout<'a> {
    /// The record's fields.
    pub fn fields(&self) -> impl Iterator<Item = Field<'a>> + use<'a> {
        self.layout.fields(self.first, self.count)
    }
}

/// The layout of a struct within records.
#[derive(Debug, Clone, Copy)]
pub struct StructLayout<'a> {
    layout: Layout<'a>,
    /// The struct's name.
    pub name: &'a str,
    /// Its size in bytes.
    pub size: u16,
    first: usize,
    count: usize,
}

impl<'a> StructLayout<'a> {
    /// The struct's fields.
    pub fn fields(&self) -> impl Iterator<Item = Field<'a>> + use<'a> {
        self.layout.fields(self.first, self.count)
    }
}

/// One field of a record or a struct.
#[derive(Debug, Clone, Copy, PartialEq, Eq)]
pub struct Field<'a> {
    /// The field's name.
    pub name: &'a str,
    /// Its id, which stands once in a record or struct; padding may have any.
    pub field_id: u16,
    /// Where it begins in the record or struct.
    pub offset: u16,
    /// Its size in bytes.
    pub size: u16,
    /// Its type, as the type sheet has it.
    pub type_id: u8,
    /// Its flags, of which the type sheet names the extension bit.
    pub flags: u8,
    /// Which struct or label def it names, for the types that name one.
    pub def_index: u16,
    /// The scale of a decimal, -9.
    pub scale: i8,
}

/// The labels of an enum or a bit set.
#[derive(Debug, Clone, Copy)]
pub struct LabelDef<'a> {
    layout: Layout<'a>,
    /// The def's name.
    pub name: &'a str,
    first: usize,
    count: usize,
}

/// One label.
#[derive(Debug, Clone, Copy, PartialEq, Eq)]
pub struct Label<'a> {
    /// The label's code.
    pub code: u16,
    /// Its name.
    pub name: &'a str,
}

impl<'a> LabelDef<'a> {
    /// The labels, in the layout's order.
    pub fn labels(&self) -> impl Iterator<Item = Label<'a>> + use<'a> {
        let layout = self.layout;
        let label = move |(at, row): (usize, &[u32; ROW])| Label {
            code: promise(row[3], "a label code"),
            name: named(layout.name(at)),
        };
        layout.some(self.first, self.count).map(label)
    }
}

/// The verdict on a layout for a stream of that symbol width, by the plain engine: its version and how many rows it has. The
/// answer is that of [`Layout::read`], which searches; this one marks every byte of every record with its owner.
pub fn check_layout_plain(bytes: &[u8], width: u16, sheet: &Sheet) -> Result<(u16, usize), Refusal> {
    let mut out = [0; 16];
    // SAFETY: the pointer and length are those of a slice, and `out` is ours.
    let number = unsafe { ffi::dbn_layout_plain(bytes.as_ptr(), bytes.len(), width, sheet.numbers(), &mut out) };
    Refusal::unless_read(number, out[ffi::PLACE])?;
    Ok((promise(out[9], "a layout version"), promise(out[11], "the layout rows")))
}

/// Writes the layout that `rows` tell of, with names from `text`, to the start of `output`. Gives the written length.
/// Bytes past that length, and the whole output where the rows are refused, keep what they held.
pub fn write_layout(
    rows: &[u32],
    text: &[u8],
    version: u16,
    width: u16,
    sheet: &Sheet,
    output: &mut [u8],
) -> Result<usize, Refusal> {
    let mut out = [0; 16];
    // SAFETY: each pointer and length are those of a slice, and no two of them overlap.
    let number = unsafe {
        ffi::dbn_write_layout(
            rows.as_ptr(),
            rows.len(),
            text.as_ptr(),
            text.len(),
            version,
            width,
            sheet.numbers(),
            output.as_mut_ptr(),
            output.len(),
            &mut out,
        )
    };
    Refusal::unless_accepted(number)?;
    Ok(promise(out[0], "the written length"))
}
