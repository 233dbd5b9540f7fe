//! Lent tables and outputs: a refusal leaves them as they were, and what is accepted writes the cells of its rows and no other.
mod common;
use common::{capture, p10, plain};
use dbn_start::ffi;

const MARK: u32 = 0xA5A5_5A5A;

/// `dbn_block` with marked tables of these lengths: number, out, tables.
fn block(version: u8, bytes: &[u8], sn: usize, ln: usize) -> (u32, [u64; 16], Vec<u32>, Vec<u32>) {
    let (mut symbology, mut layout, mut out) = (vec![MARK; sn], vec![MARK; ln], [99; 16]);
    // SAFETY: every pointer is to a buffer of the given length, and no two overlap.
    let number = unsafe {
        ffi::dbn_block(
            version,
            bytes.as_ptr(),
            bytes.len(),
            plain().numbers(),
            symbology.as_mut_ptr(),
            sn,
            layout.as_mut_ptr(),
            ln,
            &mut out,
        )
    };
    (number, out, symbology, layout)
}

#[test]
fn a_refusal_leaves_the_tables_and_out_but_for_its_place() {
    let (stream, _) = capture();
    let good = &stream[8..];
    // Each place broken in turn: dataset, schema, stype_in, stype_out, layout length, list count, a symbol, the mapping
    // count, the raw symbol, the interval count, dates, and the last interval's symbol; and each text's last byte, after its NULs.
    let last = good.len() - 71;
    let broken = [
        (0, 0xFE, 20, 0),
        (15, b'x', 29, 0),
        (17, 0xFE, 21, 16),
        (42, 0xFE, 22, 42),
        (43, 0xFE, 23, 43),
        (103, 0xFE, 44, 104),
        (107, 0xFE, 31, 104),
        (109, 0xFE, 32, 108),
        (178, b'x', 41, 108),
        (190, 0xFE, 34, 187),
        (192, 0xFE, 36, 191),
        (261, b'x', 42, 191),
        (265, 0xFE, 37, 262),
        (last - 5, 0xFE, 38, last - 8),
        (last - 1, 0xFE, 39, last - 4),
        (last + 1, 0xFE, 40, last),
        (last + 70, b'x', 43, last),
    ];
    for (byte, value, number, place) in broken {
        let mut bytes = good.to_vec();
        bytes[byte] = value;
        let (got, mut out, symbology, layout) = block(2, &bytes, 100, 100);
        assert_eq!(got, number, "byte {byte}");
        assert_eq!(std::mem::replace(&mut out[ffi::PLACE], 99), place as u64, "the place of {number}");
        assert_eq!(out, [99; 16], "out after {number}");
        assert!(symbology.iter().chain(&layout).all(|&x| x == MARK), "tables after {number}");
    }
}

#[test]
fn a_short_table_is_3_with_the_rows_needed_and_nothing_else() {
    let (stream, _) = capture();
    for sn in 0..36 {
        let (number, out, symbology, layout) = block(2, &stream[8..], sn, 4);
        assert_eq!(number, 3, "{sn} numbers");
        let mut wanted = [99; 16];
        (wanted[10], wanted[11]) = (6, 0);
        assert_eq!(out, wanted);
        assert!(symbology.iter().chain(&layout).all(|&x| x == MARK));
    }
}

/// The rows of the capture.
const ROWS: [[u32; 6]; 6] = [
    [0, 108, 6, 0, 0, 0],
    [3, 191, 6, 4, 0, 1],
    // 1 January, 17 March, 16 June, 15 September and 15 December 2023 as day numbers; all four belong to row 1.
    [4, 274, 4, 738_886, 738_961, 1],
    [4, 353, 6, 738_961, 739_052, 1],
    [4, 432, 5, 739_052, 739_143, 1],
    [4, 511, 6, 739_143, 739_234, 1],
];

/// Number c of row r stands at c * h + r, where h is the rows that the table can hold. Every other cell has its mark.
fn stand_in_columns(table: &[u32], rows: &[[u32; 6]]) {
    let height = table.len() / 6;
    for (place, &cell) in table.iter().enumerate() {
        let (number, row) = (place / height, place % height);
        let wanted = rows.get(row).and_then(|row| row.get(number)).copied().unwrap_or(MARK);
        assert_eq!(cell, wanted, "number {number} of row {row} in a table of {} numbers", table.len());
    }
}

#[test]
fn rows_stand_in_columns_and_no_other_cell_is_written() {
    let (stream, _) = capture();
    // As high as the rows, with up to five numbers left over, and higher.
    for more in 0..40 {
        let (number, out, symbology, layout) = block(2, &stream[8..], 36 + more, 4);
        assert_eq!((number, out[10], out[11]), (0, 6, 0), "{more} numbers more");
        stand_in_columns(&symbology, &ROWS);
        assert!(layout.iter().all(|&x| x == MARK));
    }
}

#[test]
fn one_row_in_tables_of_one_row_and_of_two() {
    const M: u32 = MARK;
    let tables: [&[u32]; 4] = [
        &[0, 108, 2, 0, 0, 0],
        &[0, 108, 2, 0, 0, 0, M, M, M, M, M],
        &[0, M, 108, M, 2, M, 0, M, 0, M, 0, M],
        &[0, M, 108, M, 2, M, 0, M, 0, M, 0, M, M, M],
    ];
    for wanted in tables {
        let (number, out, symbology, _) = block(2, &p10([0x45, 0x53, 0]), wanted.len(), 0);
        assert_eq!((number, out[10], &symbology[..]), (0, 1, wanted));
    }
}

#[test]
fn many_rows_stand_in_columns() {
    for count in [1_u32, 31, 32, 33, 255, 256, 257, 1_000, 4_097] {
        let rows: Vec<_> = (0..count).map(|index| [0, 108 + index, 1, 0, 0, index]).collect();
        let mut bytes = [&[0; 104][..], &count.to_le_bytes(), &vec![b'A'; rows.len()], &[0; 12]].concat();
        bytes[45] = 1;
        let exact = 6 * rows.len();
        for length in [exact, exact + 1, exact + 5, exact + 6, exact + 50, 2 * exact + 3] {
            let (number, out, symbology, _) = block(3, &bytes, length, 0);
            assert_eq!((number, out[10]), (0, count as u64), "{count} rows in a table of {length} numbers");
            stand_in_columns(&symbology, &rows);
        }
        let (number, out, symbology, _) = block(3, &bytes, exact - 1, 0);
        assert_eq!((number, out[10], out[11]), (3, count as u64, 0), "a row short of {count}");
        assert!(symbology.iter().all(|&x| x == MARK));
    }
}

/// Number, start and length of the name of a row.
fn name(bytes: &[u8], table: &[u32], index: u64) -> (u32, [u64; 2]) {
    let mut out = [99; 2];
    // SAFETY: every pointer is to a buffer of the given length.
    let number =
        unsafe { ffi::dbn_symbology_name(bytes.as_ptr(), bytes.len(), table.as_ptr(), table.len(), index, &mut out) };
    (number, out)
}

#[test]
fn a_row_has_its_name_in_a_table_of_any_height() {
    let (stream, _) = capture();
    let bytes = &stream[8..];
    for length in [36, 37, 41, 42, 47, 60, 101, 600] {
        let (_, _, mut table, _) = block(2, bytes, length, 4);
        for (index, row) in (0..).zip(ROWS) {
            assert_eq!(name(bytes, &table, index), (0, [row[1] as u64, row[2] as u64]), "row {index} of {length}");
        }
        let height = length / 6;
        for index in (6..height as u64 + 3).chain([u64::MAX, u64::MAX / 6, u64::MAX / 6 + 1]) {
            assert_eq!(name(bytes, &table, index), (90, [0, 0]), "row {index} of {length}");
        }
        // A row that the caller's own table holds past the last is told as any other: the function does not know how many were read.
        if height > 6 {
            for (number, cell) in [0, 0, 9, 0, 0, 6].into_iter().enumerate() {
                table[number * height + 6] = cell;
            }
            assert_eq!(name(bytes, &table, 6), (0, [0, 9]), "row 6 of {length}");
        }
    }
}

#[test]
fn a_front_part_of_a_table_is_another_table() {
    let (stream, _) = capture();
    let (bytes, (.., table, _)) = (&stream[8..], block(2, &stream[8..], 42, 4));
    assert_eq!(name(bytes, &table, 0), (0, [108, 6]));
    assert_eq!(name(bytes, &table[..36], 0), (90, [0, 0]), "its start would be the mark after the six kinds");
    // Numbers after the six columns do not move them.
    let longer = [&table[..], &[MARK; 5]].concat();
    assert_eq!(name(bytes, &longer, 5), (0, [511, 6]));
    assert_eq!(name(bytes, &[&longer[..], &[MARK]].concat(), 5), (90, [0, 0]), "eight rows high");
}

#[test]
fn a_span_outside_the_block_and_what_is_no_kind_have_no_name() {
    let bytes = p10([0x45, 0x53, 0]);
    let length = bytes.len() as u32;
    let told = |kind: u32, start: u32, length: u32| name(&bytes, &[kind, start, length, 0, 0, 0], 0);
    for kind in 0..5 {
        assert_eq!(told(kind, 108, 2), (0, [108, 2]), "kind {kind}");
    }
    for kind in [5, 10, 14, MARK, u32::MAX] {
        assert_eq!(told(kind, 108, 2), (90, [0, 0]), "kind {kind}");
    }
    assert_eq!([told(0, length, 0), told(0, 0, length)], [(0, [length as u64, 0]), (0, [0, length as u64])]);
    for (start, length) in [(length, 1), (1, length), (length + 1, 0), (u32::MAX, 1), (1, u32::MAX)] {
        assert_eq!(told(0, start, length), (90, [0, 0]), "{length} bytes at {start}");
    }
}

#[test]
fn a_feed_that_is_refused_keeps_only_the_bytes_it_took() {
    let mut bytes = common::stream_of(2, &p10([0x45, 0x53, 0xFF]));
    bytes.extend([9; 10]);
    let (mut store, mut symbology, mut layout, mut out) = ([0xEE; 200], [MARK; 20], [MARK; 20], [99; 20]);
    // SAFETY: every pointer is to a buffer of the given length, and no two overlap.
    let number = unsafe {
        ffi::dbn_feed(
            0,
            store.as_mut_ptr(),
            store.len(),
            bytes.as_ptr(),
            bytes.len(),
            plain().numbers(),
            symbology.as_mut_ptr(),
            symbology.len(),
            layout.as_mut_ptr(),
            layout.len(),
            &mut out,
        )
    };
    assert_eq!(number, 32);
    assert_eq!(out[16..19], [131, 131, 0], "taken, held, needed");
    assert_eq!(std::mem::replace(&mut out[ffi::PLACE], 99), 108, "the place, from the block");
    assert_eq!((&out[..16], out[19]), (&[99; 16][..], 99));
    assert_eq!(store[..131], bytes[..131]);
    assert_eq!(store[131..], [0xEE; 69]);
    assert!(symbology.iter().chain(&layout).all(|&x| x == MARK));
}

#[test]
fn held_counts_and_stores_that_do_not_fit() {
    let (stream, _) = capture();
    let call = |held: u64, length: usize| {
        let (mut store, mut out) = (stream[..length].to_vec(), [99; 20]);
        // SAFETY: every pointer is to a buffer of the given length, and no two overlap.
        let number = unsafe {
            ffi::dbn_feed(
                held,
                store.as_mut_ptr(),
                length,
                [].as_ptr(),
                0,
                plain().numbers(),
                [0u32; 0].as_mut_ptr(),
                0,
                [0u32; 0].as_mut_ptr(),
                0,
                &mut out,
            )
        };
        (number, out[16], out[17], out[18])
    };
    assert_eq!(call(8, 7), (1, 0, 8, 0), "beyond the store comes first");
    assert_eq!(call(u64::MAX, 100), (1, 0, u64::MAX, 0));
    assert_eq!(call(0, 7), (2, 0, 0, 0));
    assert_eq!(call(8, 100), (2, 0, 8, 0), "a store below 8 + length");
    assert_eq!(call(7, 100), (0, 0, 7, 1));
    let whole = stream.len() as u64;
    assert_eq!(call(whole, stream.len()), (3, 0, whole, 0));
    assert_eq!(call(whole - 1, stream.len()), (0, 0, whole - 1, 1));
}
