//! Blocks and layouts of stated sizes: what a relay meets every day, and what a hostile sender would make.
use dbn_start::{Sheet, SheetIds};

pub const STRUCT: u8 = 1;
pub const TEXT: u8 = 3;
pub const DECIMAL: u8 = 4;
pub const U8: u8 = 5;
pub const U64: u8 = 8;
pub const ENUM: u8 = 13;
/// The length of the header.
pub const HEADER: u16 = 24;

/// A made sheet.
pub fn sheet() -> Sheet {
    let ids = SheetIds {
        struct_id: STRUCT,
        symbol_id: 2,
        decimal_id: DECIMAL,
        padding_id: 0,
        extension_weight: 64,
        no_label_def: 65535,
        header_size: HEADER,
    };
    let types = [(DECIMAL, 8), (U8, 1), (6, 2), (7, 4), (U64, 8)];
    types.into_iter().fold(Sheet::new(ids).with_label_type(ENUM, 1), |sheet, (id, size)| sheet.with_type(id, size))
}

/// The fixed part of a block.
fn fixed(version: u8, width: u16) -> Vec<u8> {
    let mut out = vec![0; if version == 4 { 38 } else { 16 }];
    out[..9].copy_from_slice(b"GLBX.MDP3");
    out.extend([1, 0]);
    out.extend([0; 24]);
    if version == 1 {
        out.extend([0xFF; 8]);
    }
    out.extend([1, 0, 0]);
    if version != 1 {
        out.extend(width.to_le_bytes());
    }
    out.resize(100, 0);
    out
}

/// A block below version 4 of these symbology bytes.
pub fn block(version: u8, width: u16, symbology: &[u8]) -> Vec<u8> {
    let mut out = fixed(version, width);
    out.extend([0; 4]);
    out.extend(symbology);
    out
}

/// A version 4 block with that layout and no symbols.
pub fn block4(layout: &[u8]) -> Vec<u8> {
    let mut out = fixed(4, 71);
    out.extend((layout.len() as u32).to_le_bytes());
    out.extend(layout);
    out.extend(16u32.to_le_bytes());
    out.extend([0; 16]);
    out
}

pub fn stream_of(version: u8, block: &[u8]) -> Vec<u8> {
    let mut out = b"DBN".to_vec();
    out.push(version);
    out.extend((block.len() as u32).to_le_bytes());
    out.extend(block);
    out
}

fn padded(text: &str, width: usize) -> Vec<u8> {
    let mut out = text.as_bytes().to_vec();
    out.resize(width, 0);
    out
}

/// A symbol of five letters.
pub fn symbol(i: usize, width: usize) -> Vec<u8> {
    padded(&format!("SY{:03}", i % 1000), width)
}

/// A list of symbols, and mappings of that many intervals.
pub fn symbology(width: usize, symbols: usize, mappings: usize, intervals: usize) -> Vec<u8> {
    let mut out = (symbols as u32).to_le_bytes().to_vec();
    for i in 0..symbols {
        out.extend(symbol(i, width));
    }
    out.extend([0; 8]);
    out.extend((mappings as u32).to_le_bytes());
    for i in 0..mappings {
        out.extend(symbol(i, width));
        out.extend((intervals as u32).to_le_bytes());
        for j in 0..intervals {
            out.extend((20230101 + j as u32 % 11 * 100).to_le_bytes());
            out.extend((20230201 + j as u32 % 11 * 100).to_le_bytes());
            out.extend(symbol(i + j, width));
        }
    }
    out
}

/// One mapping with intervals of symbols of no bytes, whose dates are spread over the first so many months of the calendar.
pub fn intervals(intervals: usize, months: usize) -> Vec<u8> {
    let mut out = vec![0; 12];
    out.extend(1u32.to_le_bytes());
    out.extend((intervals as u32).to_le_bytes());
    for i in 0..2 * intervals {
        let month = i * 7919 % months;
        out.extend(((month / 12 * 10000 + (month % 12 + 1) * 100 + 1) as u32).to_le_bytes());
    }
    out
}

/// Symbols of these letters in turn, as many as the width has room for, then NULs.
pub fn lettered(width: usize, symbols: usize, letters: &str) -> Vec<u8> {
    let mut text = String::new();
    text.extend(letters.chars().cycle().scan(width, |left, letter| {
        *left = left.checked_sub(letter.len_utf8())?;
        Some(letter)
    }));
    let mut out = (symbols as u32).to_le_bytes().to_vec();
    out.extend(padded(&text, width).repeat(symbols));
    out.extend([0; 12]);
    out
}

fn name(out: &mut Vec<u8>, text: &[u8]) {
    out.push(text.len() as u8);
    out.extend(text);
    out.push(0);
}

/// id, offset, size, type, flags, def index.
type Entry = (u16, u16, u16, u8, u8, u16);

fn fields(out: &mut Vec<u8>, entries: &[Entry], names: impl Fn(usize) -> Vec<u8>) {
    out.extend((entries.len() as u16).to_le_bytes());
    for &(id, offset, size, type_id, flags, def_index) in entries {
        for number in [id, offset, size] {
            out.extend(number.to_le_bytes());
        }
        out.extend([type_id, flags]);
        out.extend(def_index.to_le_bytes());
        out.push(if type_id == DECIMAL { 0xF7 } else { 0 });
        out.extend([0; 5]);
    }
    for i in 0..entries.len() {
        name(out, &names(i));
    }
}

fn record(rtype: u16, base: u16, text: &[u8], entries: &[Entry], names: impl Fn(usize) -> Vec<u8>) -> Vec<u8> {
    let mut out = Vec::new();
    for number in [rtype, 1, base] {
        out.extend(number.to_le_bytes());
    }
    out.extend([7; 8]);
    name(&mut out, text);
    fields(&mut out, entries, names);
    out
}

fn struct_(size: u16, text: &[u8], entries: &[Entry], names: impl Fn(usize) -> Vec<u8>) -> Vec<u8> {
    let mut out = size.to_le_bytes().to_vec();
    name(&mut out, text);
    fields(&mut out, entries, names);
    out
}

/// A layout of these section bodies.
fn layout(records: &[Vec<u8>], structs: &[Vec<u8>], labels: &[Vec<u8>]) -> Vec<u8> {
    let mut out = vec![1, 0];
    for part in [records, structs, labels] {
        out.extend((part.len() as u16).to_le_bytes());
        for body in part {
            let length = u16::try_from(body.len() + 2).expect("a section of at most 65535 bytes");
            out.extend(length.to_le_bytes());
            out.extend(body);
        }
    }
    out
}

fn no_name(_: usize) -> Vec<u8> {
    Vec::new()
}

/// What a version 4 stream carries: 20 records with 405 fields in all, 2 structs, 3 label defs of 8 labels.
pub fn daily() -> Vec<u8> {
    daily_of(20)
}

/// The same with so many records, the first five of them of 21 fields and the others of 20.
pub fn daily_of(records: usize) -> Vec<u8> {
    let named = |i: usize| format!("field_{i:02}").into_bytes();
    let records: Vec<Vec<u8>> = (0..records)
        .map(|r| {
            let mut entries: Vec<Entry> = vec![(1, 0, HEADER, TEXT, 0, 0)];
            let mut at = HEADER;
            let more = if r < 5 { 20 } else { 19 };
            for i in 0..more {
                // The flag 0x80 says that the field is an array of its type.
                let (size, type_id, flags, def) = match i % 6 {
                    0 => (8, DECIMAL, 0, 0),
                    1 | 4 => (8, U64, 0, 0),
                    2 => (16, STRUCT, 0, (r % 2) as u16),
                    3 => (8, 7, 0x80, 0),
                    _ => (8, ENUM, 0x80, (r % 3) as u16),
                };
                entries.push((2 + i as u16, at, size, type_id, flags, def));
                at += size;
            }
            record(100 + r as u16, at, b"RecordMsg", &entries, named)
        })
        .collect();
    let level = |text: &[u8]| struct_(16, text, &[(1, 0, 8, U64, 0, 0), (2, 8, 8, DECIMAL, 0, 0)], named);
    let labels: Vec<Vec<u8>> = (0..3)
        .map(|_| {
            let mut out = Vec::new();
            name(&mut out, b"Side");
            out.extend(8u16.to_le_bytes());
            for code in 0..8u16 {
                out.extend((65 + code).to_le_bytes());
                name(&mut out, format!("label_{code}").as_bytes());
            }
            out
        })
        .collect();
    layout(&records, &[level(b"BidAskPair"), level(b"Level")], &labels)
}

/// `n` structs with nothing in them.
pub fn structs(n: usize) -> Vec<u8> {
    layout(&[], &vec![struct_(0, b"", &[], no_name); n], &[])
}

/// A record of `n` fields that all name the last of `n` structs, which has `n` fields itself.
pub fn last_struct(n: usize) -> Vec<u8> {
    let mut entries: Vec<Entry> = vec![(0, 0, HEADER, TEXT, 0, 0)];
    entries.extend((0..n as u16).map(|i| (i + 1, HEADER + 8 * i, 8, STRUCT, 0, n as u16 - 1)));
    let big: Vec<Entry> = (0..n as u16).map(|i| (i, i, 1, U8, 0, 0)).collect();
    let mut structs = vec![struct_(0, b"", &[], no_name); n - 1];
    structs.push(struct_(n as u16, b"", &big, no_name));
    layout(&[record(1, HEADER + 8 * n as u16, b"", &entries, no_name)], &structs, &[])
}

/// `n` records of one field each.
pub fn records(n: usize) -> Vec<u8> {
    let rtypes = (0..=u16::MAX).filter(|rtype| rtype % 256 != 0x4E).take(n);
    let records: Vec<Vec<u8>> =
        rtypes.map(|rtype| record(rtype, HEADER, b"", &[(1, 0, HEADER, TEXT, 0, 0)], no_name)).collect();
    layout(&records, &[], &[])
}

/// One label def of `n` labels; the last code stands twice where `twice`.
pub fn labels(n: usize, twice: bool) -> Vec<u8> {
    let mut out = Vec::new();
    name(&mut out, b"");
    out.extend((n as u16).to_le_bytes());
    for code in 0..n as u16 {
        let code = if twice && code as usize == n - 1 { code - 1 } else { code };
        out.extend(code.to_le_bytes());
        name(&mut out, b"");
    }
    layout(&[], &[], &[out])
}

/// `n` label defs of one label each.
pub fn label_defs(n: usize) -> Vec<u8> {
    let mut out = Vec::new();
    name(&mut out, b"");
    out.extend([1, 0, 66, 0]);
    name(&mut out, b"");
    layout(&[], &[], &vec![out; n])
}

/// The order of a record's fields.
#[derive(Debug, Clone, Copy)]
pub enum Order {
    Rising,
    Reverse,
    Shuffled,
}

impl Order {
    pub fn put<T>(self, items: &mut [T]) {
        match self {
            Self::Rising => {}
            Self::Reverse => items.reverse(),
            Self::Shuffled => {
                let mut state = 12345usize;
                for i in (1..items.len()).rev() {
                    state = state.wrapping_mul(6364136223846793005).wrapping_add(1442695040888963407);
                    items.swap(i, (state >> 33) % (i + 1));
                }
            }
        }
    }
}

/// As many records as there are lists, each of fields at these offsets with these sizes; those from the base on are extensions.
pub fn spanned(base: u16, records: &[Vec<(u16, u16)>]) -> Vec<u8> {
    let rtypes = (0..=u16::MAX).filter(|rtype| rtype % 256 != 0x4E);
    let bodies: Vec<Vec<u8>> = rtypes
        .zip(records)
        .map(|(rtype, spans)| {
            let entry = |(id, &(at, size)): (usize, &(u16, u16))| {
                (id as u16, at, size, TEXT, if at < base { 0 } else { 64 }, 0)
            };
            let entries: Vec<Entry> = spans.iter().enumerate().map(entry).collect();
            record(rtype, base, b"", &entries, no_name)
        })
        .collect();
    layout(&bodies, &[], &[])
}

/// Records of `n` fields of `size` bytes after the header, which tile the base, in that order.
pub fn tiled(n: usize, size: u16, records: usize, order: Order) -> Vec<u8> {
    let mut spans: Vec<(u16, u16)> = (0..n as u16 - 1).map(|i| (HEADER + size * i, size)).collect();
    let end = HEADER + size * (n as u16 - 1);
    let base = end.next_multiple_of(8);
    spans.insert(0, (0, HEADER));
    spans.last_mut().expect("a field").1 += base - end;
    order.put(&mut spans);
    spanned(base, &vec![spans; records])
}
