//! Calls of the C functions with guarded buffers.
//!
//! Each call copies what is lent into a buffer between two pages that nobody may touch (`lent.rs`), calls, sees that no guard byte and
//! nothing that was lent for reading has changed, and gives back the number and every buffer that was lent for writing.
#![allow(dead_code)]
#[path = "lent.rs"]
pub mod lent;

use dbn_start::ffi;
use lent::Lent;

/// A reading of a block.
#[derive(Debug, Clone, PartialEq)]
pub struct BlockAnswer {
    pub number: u32,
    pub out: [u64; 16],
    pub symbology: Vec<u32>,
    pub layout: Vec<u32>,
}

pub fn block(
    version: u8,
    block: &[u8],
    sheet: &[u16; 520],
    symbology: &[u32],
    layout: &[u32],
    out: &[u64; 16],
) -> BlockAnswer {
    let (bytes, lent_sheet) = (Lent::new(block), Lent::new(sheet));
    let (mut first, mut second, mut values) = (Lent::new(symbology), Lent::new(layout), Lent::new(out));
    // SAFETY: every pointer is to a buffer of the given length, and no two overlap.
    let number = unsafe {
        ffi::dbn_block(
            version,
            bytes.at(),
            block.len(),
            lent_sheet.at().cast(),
            first.at_mut(),
            symbology.len(),
            second.at_mut(),
            layout.len(),
            values.at_mut().cast(),
        )
    };
    bytes.unchanged("the block", block);
    lent_sheet.unchanged("the sheet", sheet);
    BlockAnswer {
        number,
        out: values.content("out").try_into().unwrap(),
        symbology: first.content("the symbology table").to_vec(),
        layout: second.content("the layout table").to_vec(),
    }
}

/// What a feed left.
#[derive(Debug, Clone, PartialEq)]
pub struct FeedAnswer {
    pub number: u32,
    pub out: [u64; 20],
    pub store: Vec<u8>,
    pub symbology: Vec<u32>,
    pub layout: Vec<u32>,
}

pub fn feed(
    held: u64,
    store: &[u8],
    piece: &[u8],
    sheet: &[u16; 520],
    symbology: &[u32],
    layout: &[u32],
    out: &[u64; 20],
) -> FeedAnswer {
    let (bytes, lent_sheet) = (Lent::new(piece), Lent::new(sheet));
    let (mut first, mut second) = (Lent::new(symbology), Lent::new(layout));
    let (mut kept, mut values) = (Lent::new(store), Lent::new(out));
    // SAFETY: every pointer is to a buffer of the given length, and no two overlap.
    let number = unsafe {
        ffi::dbn_feed(
            held,
            kept.at_mut(),
            store.len(),
            bytes.at(),
            piece.len(),
            lent_sheet.at().cast(),
            first.at_mut(),
            symbology.len(),
            second.at_mut(),
            layout.len(),
            values.at_mut().cast(),
        )
    };
    bytes.unchanged("the piece", piece);
    lent_sheet.unchanged("the sheet", sheet);
    FeedAnswer {
        number,
        out: values.content("out").try_into().unwrap(),
        store: kept.content("the store").to_vec(),
        symbology: first.content("the symbology table").to_vec(),
        layout: second.content("the layout table").to_vec(),
    }
}

/// What the load of a house file left.
pub fn house_load(
    file: &[u8],
    store: &[u8],
    sheet: &[u16; 520],
    symbology: &[u32],
    layout: &[u32],
    out: &[u64; 20],
) -> FeedAnswer {
    let (bytes, lent_sheet) = (Lent::new(file), Lent::new(sheet));
    let (mut first, mut second) = (Lent::new(symbology), Lent::new(layout));
    let (mut kept, mut values) = (Lent::new(store), Lent::new(out));
    // SAFETY: every pointer is to a buffer of the given length, and no two overlap.
    let number = unsafe {
        ffi::dbn_house_load(
            bytes.at(),
            file.len(),
            kept.at_mut(),
            store.len(),
            lent_sheet.at().cast(),
            first.at_mut(),
            symbology.len(),
            second.at_mut(),
            layout.len(),
            values.at_mut().cast(),
        )
    };
    bytes.unchanged("the file", file);
    lent_sheet.unchanged("the sheet", sheet);
    FeedAnswer {
        number,
        out: values.content("out").try_into().unwrap(),
        store: kept.content("the store").to_vec(),
        symbology: first.content("the symbology table").to_vec(),
        layout: second.content("the layout table").to_vec(),
    }
}

/// What a call for a record left.
#[derive(Debug, Clone, PartialEq)]
pub struct FrameAnswer {
    pub number: u32,
    pub out: [u64; 5],
    pub store: Vec<u8>,
}

pub fn frame(held: u64, store: &[u8], piece: &[u8], out: &[u64; 5]) -> FrameAnswer {
    let (bytes, mut kept, mut values) = (Lent::new(piece), Lent::new(store), Lent::new(out));
    // SAFETY: every pointer is to a buffer of the given length, and no two overlap.
    let number =
        unsafe { ffi::dbn_frame(held, kept.at_mut(), store.len(), bytes.at(), piece.len(), values.at_mut().cast()) };
    bytes.unchanged("the piece", piece);
    FrameAnswer { number, out: values.content("out").try_into().unwrap(), store: kept.content("the store").to_vec() }
}

/// A reading of a layout.
#[derive(Debug, Clone, PartialEq)]
pub struct LayoutAnswer {
    pub number: u32,
    pub out: [u64; 16],
    pub rows: Vec<u32>,
}

pub fn layout(layout: &[u8], width: u16, sheet: &[u16; 520], rows: &[u32], out: &[u64; 16]) -> LayoutAnswer {
    let (bytes, lent_sheet) = (Lent::new(layout), Lent::new(sheet));
    let (mut table, mut values) = (Lent::new(rows), Lent::new(out));
    // SAFETY: every pointer is to a buffer of the given length, and no two overlap.
    let number = unsafe {
        ffi::dbn_layout(
            bytes.at(),
            layout.len(),
            width,
            lent_sheet.at().cast(),
            table.at_mut(),
            rows.len(),
            values.at_mut().cast(),
        )
    };
    bytes.unchanged("the layout", layout);
    lent_sheet.unchanged("the sheet", sheet);
    LayoutAnswer {
        number,
        out: values.content("out").try_into().unwrap(),
        rows: table.content("the row table").to_vec(),
    }
}

/// The number and `out` of a layout by the plain engine.
pub fn layout_plain(layout: &[u8], width: u16, sheet: &[u16; 520], out: &[u64; 16]) -> (u32, [u64; 16]) {
    verdict(ffi::dbn_layout_plain, layout, width, sheet, out)
}

/// The number and `out` of a layout that may be tidy.
pub fn tidy(layout: &[u8], width: u16, sheet: &[u16; 520], out: &[u64; 16]) -> (u32, [u64; 16]) {
    verdict(ffi::dbn_tidy, layout, width, sheet, out)
}

/// A function that judges a layout without a table.
type Judge = unsafe extern "C" fn(*const u8, usize, u16, *const [u16; 520], *mut [u64; 16]) -> u32;

fn verdict(judge: Judge, layout: &[u8], width: u16, sheet: &[u16; 520], out: &[u64; 16]) -> (u32, [u64; 16]) {
    let (bytes, lent_sheet, mut values) = (Lent::new(layout), Lent::new(sheet), Lent::new(out));
    // SAFETY: every pointer is to a buffer of the given length, and no two overlap.
    let number = unsafe { judge(bytes.at(), layout.len(), width, lent_sheet.at().cast(), values.at_mut().cast()) };
    bytes.unchanged("the layout", layout);
    lent_sheet.unchanged("the sheet", sheet);
    (number, values.content("out").try_into().unwrap())
}

/// What a writer left.
#[derive(Debug, Clone, PartialEq)]
pub struct WriteAnswer {
    pub number: u32,
    pub out: [u64; 16],
    pub output: Vec<u8>,
}

pub fn write(
    rows: &[u32],
    text: &[u8],
    version: u16,
    width: u16,
    sheet: &[u16; 520],
    output: &[u8],
    out: &[u64; 16],
) -> WriteAnswer {
    let (table, names, lent_sheet) = (Lent::new(rows), Lent::new(text), Lent::new(sheet));
    let (mut bytes, mut values) = (Lent::new(output), Lent::new(out));
    // SAFETY: every pointer is to a buffer of the given length, and no two overlap.
    let number = unsafe {
        ffi::dbn_write_layout(
            table.at(),
            rows.len(),
            names.at(),
            text.len(),
            version,
            width,
            lent_sheet.at().cast(),
            bytes.at_mut(),
            output.len(),
            values.at_mut().cast(),
        )
    };
    table.unchanged("the rows", rows);
    names.unchanged("the text", text);
    lent_sheet.unchanged("the sheet", sheet);
    WriteAnswer { number, out: values.content("out").try_into().unwrap(), output: bytes.content("the output").to_vec() }
}

/// What storing a start in a house file left.
pub fn house_store(stream: &[u8], sheet: &[u16; 520], output: &[u8], out: &[u64; 16]) -> WriteAnswer {
    let (bytes, lent_sheet) = (Lent::new(stream), Lent::new(sheet));
    let (mut file, mut values) = (Lent::new(output), Lent::new(out));
    // SAFETY: every pointer is to a buffer of the given length, and no two overlap.
    let number = unsafe {
        ffi::dbn_house_store(
            bytes.at(),
            stream.len(),
            lent_sheet.at().cast(),
            file.at_mut(),
            output.len(),
            values.at_mut().cast(),
        )
    };
    bytes.unchanged("the stream", stream);
    lent_sheet.unchanged("the sheet", sheet);
    WriteAnswer { number, out: values.content("out").try_into().unwrap(), output: file.content("the output").to_vec() }
}

/// What the block writer is lent for reading, the sheet apart.
#[derive(Debug, Clone, PartialEq)]
pub struct Start {
    pub version: u8,
    pub fields: [u64; 16],
    pub symbology: Vec<u32>,
    pub rows: u64,
    pub layout: Vec<u32>,
    pub text: Vec<u8>,
}

pub fn write_block(start: &Start, sheet: &[u16; 520], output: &[u8], out: &[u64; 16]) -> WriteAnswer {
    let Start { version, fields, symbology, rows, layout, text } = start;
    let (lent_fields, lent_sheet, names) = (Lent::new(fields), Lent::new(sheet), Lent::new(text));
    let (first, second) = (Lent::new(symbology), Lent::new(layout));
    let (mut bytes, mut values) = (Lent::new(output), Lent::new(out));
    // SAFETY: every pointer is to a buffer of the given length, and no two overlap.
    let number = unsafe {
        ffi::dbn_write_block(
            *version,
            lent_fields.at().cast(),
            first.at(),
            symbology.len(),
            *rows,
            second.at(),
            layout.len(),
            names.at(),
            text.len(),
            lent_sheet.at().cast(),
            bytes.at_mut(),
            output.len(),
            values.at_mut().cast(),
        )
    };
    lent_fields.unchanged("the fields", fields);
    lent_sheet.unchanged("the sheet", sheet);
    names.unchanged("the text", text);
    first.unchanged("the symbology table", symbology);
    second.unchanged("the layout rows", layout);
    WriteAnswer { number, out: values.content("out").try_into().unwrap(), output: bytes.content("the output").to_vec() }
}

/// The number and {start, length} for the name of a row in a whole table: of symbology or of a layout, by how many numbers a row has.
pub fn name(bytes: &[u8], table: &[u32], width: usize, index: u64) -> (u32, [u64; 2]) {
    let (lent, rows) = (Lent::new(bytes), Lent::new(table));
    let mut values = Lent::new(&[77u64, 78]);
    let call = if width == ffi::SYMBOLOGY_ROW { ffi::dbn_symbology_name } else { ffi::dbn_layout_name };
    // SAFETY: every pointer is to a buffer of the given length, and no two overlap.
    let number = unsafe { call(lent.at(), bytes.len(), rows.at(), table.len(), index, values.at_mut().cast()) };
    lent.unchanged("the bytes", bytes);
    rows.unchanged("the table", table);
    (number, values.content("out").try_into().unwrap())
}

/// The answer and `out` for the day number of a date.
pub fn date(yyyymmdd: u32, out: &[u64; 1]) -> (u32, [u64; 1]) {
    told(ffi::dbn_date, yyyymmdd, out)
}

/// The answer and `out` for the date of a day number.
pub fn day(day: u32, out: &[u64; 1]) -> (u32, [u64; 1]) {
    told(ffi::dbn_day, day, out)
}

fn told(call: unsafe extern "C" fn(u32, *mut [u64; 1]) -> u32, number: u32, out: &[u64; 1]) -> (u32, [u64; 1]) {
    let mut values = Lent::new(out);
    // SAFETY: the pointer is to a buffer of the given length.
    let answer = unsafe { call(number, values.at_mut().cast()) };
    (answer, values.content("out").try_into().unwrap())
}

/// The number and `out` of a prelude.
pub fn prelude(bytes: &[u8], out: &[u64; 4]) -> (u32, [u64; 4]) {
    let lent = Lent::new(bytes);
    let mut values = Lent::new(out);
    // SAFETY: both pointers are to buffers of the given length.
    let number = unsafe { ffi::dbn_prelude(lent.at(), bytes.len(), values.at_mut().cast()) };
    lent.unchanged("the bytes", bytes);
    (number, values.content("out").try_into().unwrap())
}
