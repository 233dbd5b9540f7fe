//! The C functions on the same bytes again and again, with tables and outputs that are lent to them.
use super::{shapes, written::Written};
use dbn_start::{ffi, write_layout, Layout, Tables};
use std::{fmt, hint::black_box};

/// The rows of symbology and of layout that tables are made for.
pub type Rows = [usize; 2];

/// Which function is called.
#[derive(Clone, Copy, PartialEq, Eq)]
pub enum Function {
    Block,
    Layout,
    Tidy,
    Write,
    WriteBlock,
}

impl fmt::Display for Function {
    fn fmt(&self, f: &mut fmt::Formatter<'_>) -> fmt::Result {
        f.write_str(match self {
            Self::Block => "dbn_block",
            Self::Layout => "dbn_layout",
            Self::Tidy => "dbn_tidy",
            Self::Write => "dbn_write_layout",
            Self::WriteBlock => "dbn_write_block",
        })
    }
}

/// What a call answers: its number, and the rows that it read or needs.
#[derive(Debug, Clone, Copy, PartialEq, Eq)]
pub struct Answer {
    pub number: u32,
    pub rows: Rows,
}

impl Answer {
    /// The bytes of a call on so many, and 24 for each row. A call that is refused has no rows.
    pub fn cost(self, bytes: usize) -> f64 {
        let rows = if self.number == 0 { self.rows.iter().sum() } else { 0 };
        (bytes + 24 * rows) as f64
    }
}

/// A call that can be made again and again.
pub type Call<'a> = Box<dyn FnMut() -> Answer + 'a>;

impl Function {
    /// The call on a block of that version or on a layout. The tables have as many rows as it needs: another call tells these.
    pub fn exact(self, version: u8, bytes: &[u8]) -> Call<'_> {
        let Answer { number, rows } = match self {
            Self::Block => block(version, bytes, [0; 2])(),
            Self::Layout => layout(bytes, [0; 2])(),
            Self::Tidy | Self::Write | Self::WriteBlock => return self.with(version, bytes, [0; 2]),
        };
        self.with(version, bytes, if number == 3 { rows } else { [0; 2] })
    }

    /// The same with tables that are long enough for any block or layout that gives a row for each byte, so that no other call is made.
    pub fn ample(self, version: u8, bytes: &[u8]) -> Call<'_> {
        self.with(version, bytes, [bytes.len(); 2])
    }

    fn with(self, version: u8, bytes: &[u8], rows: Rows) -> Call<'_> {
        match self {
            Self::Block => Box::new(block(version, bytes, rows)),
            Self::Layout => Box::new(layout(bytes, rows)),
            Self::Tidy => Box::new(tidy(bytes)),
            Self::Write => Box::new(write(bytes)),
            Self::WriteBlock => Box::new(write_block(version, bytes)),
        }
    }
}

fn block(version: u8, bytes: &[u8], rows: Rows) -> impl FnMut() -> Answer + '_ {
    let (sheet, mut out) = (shapes::sheet(), [0; 16]);
    let (mut symbology, mut layout) = (vec![0; rows[0] * ffi::SYMBOLOGY_ROW], vec![0; rows[1] * ffi::LAYOUT_ROW]);
    move || {
        // SAFETY: every pointer is to a buffer of the given length, and no two overlap.
        let number = unsafe {
            ffi::dbn_block(
                version,
                black_box(bytes).as_ptr(),
                bytes.len(),
                sheet.numbers(),
                symbology.as_mut_ptr(),
                symbology.len(),
                layout.as_mut_ptr(),
                layout.len(),
                &mut out,
            )
        };
        Answer { number, rows: [out[10], out[11]].map(|rows| rows as usize) }
    }
}

fn layout(bytes: &[u8], rows: Rows) -> impl FnMut() -> Answer + '_ {
    let (sheet, mut out, mut table) = (shapes::sheet(), [0; 16], vec![0; rows[1] * ffi::LAYOUT_ROW]);
    move || {
        let bytes = black_box(bytes);
        // SAFETY: every pointer is to a buffer of the given length, and no two overlap.
        let number = unsafe {
            ffi::dbn_layout(bytes.as_ptr(), bytes.len(), 71, sheet.numbers(), table.as_mut_ptr(), table.len(), &mut out)
        };
        Answer { number, rows: [0, out[11] as usize] }
    }
}

/// Whether that layout is tidy. No table is lent, and no row is written.
fn tidy(bytes: &[u8]) -> impl FnMut() -> Answer + '_ {
    let (sheet, mut out) = (shapes::sheet(), [0; 16]);
    move || {
        let bytes = black_box(bytes);
        // SAFETY: every pointer is to a buffer of the given length, and no two overlap.
        let number = unsafe { ffi::dbn_tidy(bytes.as_ptr(), bytes.len(), 71, sheet.numbers(), &mut out) };
        Answer { number, rows: [0; 2] }
    }
}

/// The writer on the rows of that layout, which it must write as it was.
fn write(bytes: &[u8]) -> impl FnMut() -> Answer + '_ {
    let (sheet, mut tables) = (shapes::sheet(), Tables::default());
    let read = Layout::read(bytes, 71, &sheet, &mut tables).expect("an accepted layout");
    let (rows, mut output) = (read.numbers().to_vec(), vec![0; bytes.len()]);
    move || {
        let written = write_layout(black_box(&rows), bytes, 1, 71, &sheet, &mut output);
        assert_eq!(written, Ok(bytes.len()), "the length written");
        Answer { number: 0, rows: [0, rows.len() / ffi::LAYOUT_ROW] }
    }
}

/// The block writer on what was read of that block, which has no leftovers, so that it is written as long as it was.
fn write_block(version: u8, bytes: &[u8]) -> impl FnMut() -> Answer + '_ {
    let mut written = Written::of(version, bytes, shapes::sheet());
    let rows = written.rows();
    let (number, stream) = written.write();
    assert_eq!((number, stream.len()), (0, 8 + bytes.len()), "the length written");
    move || Answer { number: black_box(&mut written).write().0, rows }
}
