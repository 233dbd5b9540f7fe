//! Request 6 of document 02 as a plain program: the bytes of the start that fields, columns, layout rows and a text stand for, or the number that
//! refuses to write them. The reader's numbers are those of `paper.rs` for the block that is about to be written.
use crate::{
    calls::Start,
    columns::{self, Row},
    paper::{self, Sheet},
};

/// Presence bits: schema, end, limit, stype_in.
const BITS: [u64; 4] = [1, 2, 4, 8];
/// The last day of year 9999.
const LAST_DAY: u32 = 3_652_424;

/// The bytes of the start, for an output that is long enough, or the number.
pub fn write(start: &Start, s: &Sheet) -> Result<Vec<u8>, u32> {
    let version = start.version;
    if !(1..=4).contains(&version) {
        return Err(11);
    }
    if start.rows > (start.symbology.len() / 6) as u64 || start.rows > u32::MAX as u64 || !fields_fit(start) {
        return Err(110);
    }
    let rows = columns::rows(&start.symbology, start.rows as usize);
    if !rows.iter().enumerate().all(|(index, row)| row_fits(start, index, row)) || !in_order(&rows) {
        return Err(110);
    }
    let [width, dataset] = [start.fields[8], if version == 4 { 38 } else { 16 }];
    let wide = start.fields[0] > dataset || rows.iter().any(|row| row[2] as u64 > width);
    if wide || version == 1 && width != 22 {
        return Err(111);
    }
    let mut layout = paper::printed(&start.layout, &start.text, start.fields[9] as u16)?;
    if version < 4 && start.layout.is_empty() {
        layout.clear();
    }
    if length(version, width, &rows, layout.len()) > u32::MAX as u64 {
        return Err(13);
    }
    let block = block(start, &rows, layout);
    paper::block(version, &block, s).map_err(|(number, _)| number)?;
    let prelude = [&b"DBN"[..], &[version], &(block.len() as u32).to_le_bytes()].concat();
    Ok([prelude, block].concat())
}

/// The length of a block: the fixed part, the layout with its length, the length of the symbology in version 4, its four counts and its rows.
fn length(version: u8, width: u64, rows: &[Row], layout: usize) -> u64 {
    let own = |row: &Row| width + [0, 0, 0, 4, 8][row[0] as usize];
    100 + 4 + layout as u64 + if version == 4 { 4 } else { 0 } + 16 + rows.iter().map(own).sum::<u64>()
}

/// Whether a value is present.
fn has(start: &Start, bit: u64) -> bool {
    start.fields[12] & bit != 0
}

/// Fields that are not malformed.
fn fields_fit(start: &Start) -> bool {
    let f = &start.fields;
    let options = [f[1] < 65535, f[3] != 0 && f[3] != u64::MAX, f[4] != 0, f[5] < 255];
    let absent = [f[1], f[3], f[4], f[5]].map(|value| value == 0);
    let present =
        BITS.into_iter().zip(options).zip(absent).all(|((bit, fits), zero)| if has(start, bit) { fits } else { zero });
    let numbers = f[12] <= 15 && f[6] <= 255 && f[7] <= 1 && (start.version == 1 || f[8] <= 65535);
    let layout_version = f[9] <= if start.version == 4 { 65535 } else { 0 };
    present && numbers && layout_version && text(start, f[13], f[0]).is_some()
}

/// A text of so many bytes from a place on, unless it is outside or ends in a NUL.
fn text(start: &Start, from: u64, length: u64) -> Option<&[u8]> {
    let end = from.checked_add(length).filter(|&end| end <= start.text.len() as u64)?;
    Some(&start.text[from as usize..end as usize]).filter(|text| text.last() != Some(&0))
}

/// The numbers of a row, and its text. The owner of an interval is left to [`in_order`].
fn row_fits(start: &Start, index: usize, &[kind, from, length, x, y, owner]: &Row) -> bool {
    let own = owner as usize == index;
    let numbers = match kind {
        0..=2 => x == 0 && y == 0 && own,
        3 => y == 0 && own,
        4 => x <= LAST_DAY && y <= LAST_DAY,
        _ => false,
    };
    numbers && text(start, from.into(), length.into()).is_some()
}

/// Rows of kinds 0, 1 and 2, then each mapping with its intervals, which it owns.
fn in_order(rows: &[Row]) -> bool {
    let lists = rows.iter().take_while(|row| row[0] < 3).count();
    let mut at = lists;
    while at < rows.len() {
        let [kind, _, _, x, ..] = rows[at];
        let Some(intervals) = rows[at + 1..].get(..x as usize).filter(|_| kind == 3) else { return false };
        if !intervals.iter().all(|row| row[0] == 4 && row[5] as usize == at) {
            return false;
        }
        at += 1 + x as usize;
    }
    rows[..lists].is_sorted_by_key(|row| row[0])
}

/// The block of well-formed parts.
fn block(start: &Start, rows: &[Row], layout: Vec<u8>) -> Vec<u8> {
    let (version, f) = (start.version, &start.fields);
    let or = |bit: u64, value: u64, absent: u64| if has(start, bit) { value } else { absent };
    let filled = |from: u64, length: u64, width: u64| {
        let mut text = text(start, from, length).expect("a text").to_vec();
        text.resize(width as usize, 0);
        text
    };
    let mut out = filled(f[13], f[0], if version == 4 { 38 } else { 16 });
    out.extend((or(1, f[1], 65535) as u16).to_le_bytes());
    for number in [f[2], or(2, f[3], u64::MAX), f[4]] {
        out.extend(number.to_le_bytes());
    }
    if version == 1 {
        out.extend([0xFF; 8]);
    }
    out.extend([or(8, f[5], 255) as u8, f[6] as u8, f[7] as u8]);
    if version > 1 {
        out.extend((f[8] as u16).to_le_bytes());
    }
    out.resize(100, 0);
    out.extend((layout.len() as u32).to_le_bytes());
    out.extend(layout);
    let symbology = symbology(rows, |row| filled(row[1].into(), row[2].into(), f[8]));
    if version == 4 {
        out.extend((symbology.len() as u32).to_le_bytes());
    }
    [out, symbology].concat()
}

/// The three lists and the mappings of rows in order.
fn symbology(rows: &[Row], symbol: impl Fn(&Row) -> Vec<u8>) -> Vec<u8> {
    let of = |kind: u32| rows.iter().filter(move |row| row[0] == kind);
    let mut out = Vec::new();
    for kind in 0..3 {
        out.extend((of(kind).count() as u32).to_le_bytes());
        of(kind).for_each(|row| out.extend(symbol(row)));
    }
    out.extend((of(3).count() as u32).to_le_bytes());
    for row in rows.iter().filter(|row| row[0] > 2) {
        if row[0] == 4 {
            [row[3], row[4]].into_iter().for_each(|day| out.extend(paper::date_of(day).to_le_bytes()));
        }
        out.extend(symbol(row));
        if row[0] == 3 {
            out.extend(row[3].to_le_bytes());
        }
    }
    out
}

#[cfg(test)]
mod tests {
    //! Bytes counted by hand.
    use super::*;

    const SHEET: Sheet = [0; 520];

    /// A start of version 2, width 3, with one symbol of the first list and a mapping of one interval; the text is `ESA`, a NUL and `B`.
    fn start() -> Start {
        let mut fields = [0; 16];
        (fields[8], fields[12]) = (3, 9);
        let rows = [[0, 0, 2, 0, 0, 0], [3, 2, 1, 1, 0, 1], [4, 1, 2, 366, 3_652_424, 1]];
        let symbology = columns::filled(&[7; 20], &rows);
        Start { version: 2, fields, symbology, rows: 3, layout: vec![], text: b"ESA\0B".to_vec() }
    }

    /// The number that refuses the start with a change.
    fn with(change: impl Fn(&mut Start)) -> u32 {
        let mut start = start();
        change(&mut start);
        write(&start, &SHEET).err().unwrap_or(0)
    }

    #[test]
    fn a_start_is_written_as_it_is_by_hand() {
        let parts: [&[u8]; 9] = [
            b"DBN\x02\x8D\0\0\0",
            &[0; 26],
            &[0xFF; 8],
            &[0; 11],
            &[3, 0],
            &[0; 57],
            b"\x01\0\0\0ES\0",
            &[0; 8],
            b"\x01\0\0\0A\0\0\x01\0\0\0\x75\x27\0\0\xBF\xBE\xF5\x05SA\0",
        ];
        assert_eq!(write(&start(), &SHEET), Ok(parts.concat()));
        assert_eq!(length(2, 3, &columns::rows(&start().symbology, 3), 0), 141);
    }

    #[test]
    fn what_is_malformed_too_wide_or_too_long() {
        for (place, number) in
            [(0, 6), (1, 65535), (3, 1), (4, 1), (6, 256), (7, 2), (8, 65536), (9, 1), (12, 25), (13, 6)]
        {
            assert_eq!(with(|start| start.fields[place] = number), 110, "fields[{place}] = {number}");
        }
        // The height is 3, so a column's cells stand three apart.
        for (cell, number) in [
            (0, 1),
            (1, 4),
            (2, 3),
            (3, 4),
            (9, 1),
            (10, 0),
            (10, 2),
            (12, 1),
            (13, 1),
            (14, 3_652_425),
            (15, 1),
            (17, 2),
        ] {
            let fault = with(|start| start.symbology[cell] = number);
            assert_eq!(fault, if (cell, number) == (0, 1) { 0 } else { 110 }, "cell {cell} = {number}");
        }
        assert_eq!([with(|start| start.rows = 4), with(|start| start.symbology[7] = 2)], [110; 2]);
        assert_eq!([with(|start| start.fields[8] = 1), with(|start| start.version = 1)], [111; 2]);
        assert_eq!([with(|start| start.version = 0), with(|start| start.layout = vec![15; 9])], [11, 90]);
        let no_rows = |start: &mut Start, version: u8| (start.version, start.rows, start.fields[8]) = (version, 0, 22);
        assert_eq!([1, 2, 3].map(|version| with(|start| no_rows(start, version))), [0; 3]);
        let label = |start: &mut Start| start.layout = vec![14, 0, 0, 0, 0, 0, 0, 0, 0];
        assert_eq!(with(label), 25);
        assert_eq!(with(|start| (start.symbology[7], start.symbology[4]) = (3, 2)), 42, "A, a NUL and B");
    }
}
