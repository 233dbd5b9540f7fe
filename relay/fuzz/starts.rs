//! What the block writer is lent: the fields and rows of a block that was read, with their texts moved to a text of their own; and bent.
#![allow(dead_code)]
use super::{
    calls::Start,
    columns::{self, Row},
    gen::Rng,
};
use dbn_start::ffi::{DATASET_START, LAYOUT_ROW, SYMBOLOGY_ROW};

/// The kind of a layout row without a text.
const FIELD: u32 = 11;

/// A block that was read: its version and its bytes, its numbers as `dbn_block` gives them, and its rows.
pub struct Read<'a> {
    pub version: u8,
    pub block: &'a [u8],
    pub out: &'a [u64; 16],
    pub rows: &'a [Row],
    pub layout: &'a [u32],
}

impl Read<'_> {
    /// The most bytes that are written for it. A block may have leftovers, which are not written.
    pub fn most(&self) -> usize {
        8 + self.block.len()
    }

    /// What is lent to write it again: its texts from the last to the first, with gaps; a table that may be higher than the rows, and other numbers
    /// where none is looked at.
    pub fn moved(&self, r: &mut Rng) -> Start {
        let (mut fields, mut rows, mut layout) = (*self.out, self.rows.to_vec(), self.layout.to_vec());
        for unseen in [10, 11, 14, 15] {
            fields[unseen] = r.next();
        }
        let mut text = Vec::new();
        let mut put = |r: &mut Rng, from: usize, length: u32| {
            text.extend((0..r.pick(&[0, 0, 0, 1, 3])).map(|_| r.byte()));
            text.extend(&self.block[from..from + length as usize]);
            text.len() as u32 - length
        };
        for row in layout.chunks_mut(LAYOUT_ROW).rev().filter(|row| row[0] != FIELD) {
            row[1] = put(r, 104 + row[1] as usize, row[2]);
        }
        for row in rows.iter_mut().rev() {
            row[1] = put(r, row[1] as usize, row[2]);
        }
        fields[DATASET_START] = put(r, 0, fields[0] as u32).into();
        let cells = SYMBOLOGY_ROW * (rows.len() + r.pick(&[0, 0, 1, 5])) + r.below(SYMBOLOGY_ROW);
        let table: Vec<u32> = (0..cells).map(|_| r.next() as u32).collect();
        let (symbology, count) = (columns::filled(&table, &rows), rows.len() as u64);
        Start { version: self.version, fields, symbology, rows: count, layout, text }
    }
}

/// One change that tends to break a rule.
pub fn bend(r: &mut Rng, start: &mut Start) {
    match r.below(13) {
        0 => start.version = r.pick(&[0, 1, 2, 3, 4, 4, 5, 255]),
        1..=3 => bend_fields(r, start),
        4 => {
            let height = (start.symbology.len() / SYMBOLOGY_ROW) as u64;
            start.rows = r.pick(&[start.rows.wrapping_sub(1), height, height + 1, height + 1, u64::MAX, 1 << 32]);
        }
        5 => {
            let length = start.symbology.len().saturating_sub(1 + r.below(7));
            start.symbology.truncate(length);
        }
        6 => start.text.truncate(r.below(start.text.len() + 1)),
        7 if !start.text.is_empty() => {
            let place = r.below(start.text.len());
            start.text[place] = r.pick(&[0, 0, 0xFF, 0x80, b'x']);
        }
        8 if start.layout.is_empty() => start.layout.extend([14, 0, 0, 0, 0, 0, 0, 0, 0]),
        8 => {
            let place = r.below(start.layout.len());
            start.layout[place] = r.pick(&[0, 1, 10, 13, 15, 255, 256, 65536, u32::MAX]);
        }
        9 => {
            let length = start.layout.len().saturating_sub(r.pick(&[1, 9, 9, 18]));
            start.layout.truncate(length);
        }
        10 => full_width(r, start),
        _ => bend_rows(r, start),
    }
}

/// A text that fills its field, or is a letter longer.
fn full_width(r: &mut Rng, start: &mut Start) {
    let (height, rows) = (start.symbology.len() / SYMBOLOGY_ROW, start.rows as usize);
    let more = r.below(2);
    let from = start.text.len();
    if rows == 0 || rows > height || r.one_in(4) {
        let length = if start.version == 4 { 38 } else { 16 } + more;
        (start.fields[0], start.fields[DATASET_START]) = (length as u64, from as u64);
    } else {
        let (row, length) = (r.below(rows), start.fields[8].min(100) as usize + more);
        (start.symbology[height + row], start.symbology[2 * height + row]) = (from as u32, length as u32);
    }
    start.text.extend([b'w'; 101]);
}

/// The numbers beside which a field is refused, or is not: its place, the number, and the presence bit that goes with it.
const EDGES: [(usize, u64, u64); 20] = [
    (1, 65534, 1),
    (1, 65535, 1),
    (1, 20, 1),
    (3, 0, 2),
    (3, 1, 2),
    (3, u64::MAX, 2),
    (3, u64::MAX - 1, 2),
    (4, 0, 4),
    (4, u64::MAX, 4),
    (5, 13, 8),
    (5, 254, 8),
    (5, 255, 8),
    (6, 13, 0),
    (6, 256, 0),
    (7, 2, 0),
    (8, 0, 0),
    (8, 22, 0),
    (8, 65536, 0),
    (9, 65536, 0),
    (12, 16, 0),
];

fn bend_fields(r: &mut Rng, start: &mut Start) {
    if r.one_in(2) {
        let (place, number, bit) = r.pick(&EDGES);
        start.fields[place] = number;
        start.fields[12] |= bit;
        return;
    }
    let place = r.pick(&[0, 1, 2, 3, 4, 5, 6, 7, 8, 9, 12, 12, DATASET_START]);
    let most = start.text.len() as u64;
    start.fields[place] = match r.below(4) {
        0 => start.fields[place] ^ (1 << r.below(5)),
        1 => r.pick(&[0, 1, 2, 12, 13, 15, 16, 19, 20, 22, 255, 256, 65535, 65536, u64::MAX, u64::MAX - 1]),
        2 => r.below(most as usize + 2) as u64,
        _ => start.fields[place].wrapping_add(r.pick(&[1, u64::MAX, 1 << 32])),
    };
    if r.one_in(3) {
        start.fields[12] = r.below(17) as u64;
    }
}

fn bend_rows(r: &mut Rng, start: &mut Start) {
    let (height, rows) = (start.symbology.len() / SYMBOLOGY_ROW, start.rows as usize);
    if rows == 0 || rows > height {
        return;
    }
    let (one, two) = (r.below(rows), r.below(rows));
    let cell = |row: usize, number: usize| number * height + row;
    match r.below(6) {
        0 => start.symbology[cell(one, 0)] = r.below(6) as u32,
        1 => (0..SYMBOLOGY_ROW).for_each(|number| start.symbology.swap(cell(one, number), cell(two, number))),
        2 => start.symbology[cell(one, 5)] = r.pick(&[one as u32, two as u32, 0, rows as u32, u32::MAX]),
        3 => {
            // An interval, where there is one.
            let row = (one..rows).chain(0..one).find(|&row| start.symbology[row] == 4).unwrap_or(one);
            start.symbology[cell(row, 3 + r.below(2))] = r.pick(&[0, 1, 2, 3_652_424, 3_652_425, 3_652_425, u32::MAX]);
        }
        4 => {
            start.symbology[cell(one, 1 + r.below(2))] = r.pick(&[0, 1, 22, 23, 71, start.text.len() as u32, u32::MAX])
        }
        _ => {
            let number = &mut start.symbology[cell(one, r.below(SYMBOLOGY_ROW))];
            *number = number.wrapping_add(r.pick(&[1, u32::MAX]));
        }
    }
}
