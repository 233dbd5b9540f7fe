//! Counts and sections at their largest, and one beyond.
mod common;
use common::{plain, TEXT};
use dbn_start::{write_layout, Block, Layout, Refusal, Tables};

fn written(rows: &[u32], text: &[u8], output: &mut [u8]) -> Result<usize, u32> {
    write_layout(rows, text, 1, 71, &plain(), output).map_err(Refusal::number)
}

/// A label def of `n` labels without names, codes from 0 on.
fn labels(n: u32) -> Vec<u32> {
    let mut rows = vec![14, 0, 0, n, 0, 0, 0, 0, 0];
    for code in 0..n {
        rows.extend([15, 0, 0, code, 0, 0, 0, 0, 0]);
    }
    rows
}

/// A record of `n` fields without names: the header, then one byte each.
fn record(n: u32) -> Vec<u32> {
    let base = (24 + n - 1).div_ceil(8) * 8;
    let mut rows = vec![10, 0, 0, 1, 1, base, n, 0, 0];
    rows.extend([11, 0, 0, 24, TEXT as u32, 0, 0, 0, 0]);
    for i in 1..n {
        rows.extend([11, i, 23 + i, if i + 1 == n { base - 23 - i } else { 1 }, 5, 0, 0, 0, 0]);
    }
    for _ in 0..n {
        rows.extend([12, 0, 0, 0, 0, 0, 0, 0, 0]);
    }
    rows
}

#[test]
fn a_count_over_65535_is_91() {
    let mut output = vec![0xEE; 1 << 20];
    assert_eq!(written(&labels(65536), b"", &mut output), Err(91));
    let mut structs = [13, 0, 0, 0, 0, 0, 0, 0, 0].repeat(65536);
    assert_eq!(written(&structs, b"", &mut output), Err(91));
    structs[2] = 300;
    assert_eq!(written(&structs, &[b'x'; 300], &mut output), Err(91), "91 before 92");
    structs[0] = 11;
    assert_eq!(written(&structs, &[b'x'; 300], &mut output), Err(90), "90 before 91");
    assert!(output.iter().all(|&byte| byte == 0xEE));
    structs.truncate(65535 * 9);
    (structs[0], structs[2]) = (13, 0);
    assert_eq!(written(&structs, b"", &mut output), Ok(8 + 8 * 65535));
    let mut table = Tables::default();
    let back = Layout::read(&output[..8 + 8 * 65535], 71, &plain(), &mut table).unwrap();
    assert_eq!(back.struct_layouts().count(), 65535);
}

#[test]
fn a_section_over_65535_is_94() {
    let mut output = vec![0xEE; 1 << 17];
    assert_eq!(written(&record(3700), b"", &mut output), Err(94));
    let mut rows = labels(16_382);
    // Two for the length, two for the name, two for the count, four for a label: one byte below the most.
    assert_eq!(6 + 4 * 16_382, 65_534);
    rows[9 + 2] = 2;
    assert_eq!(written(&rows, b"xx", &mut output), Err(94), "one byte over");
    assert!(output.iter().all(|&byte| byte == 0xEE));
    rows[9 + 2] = 1;
    assert_eq!(written(&rows, b"x", &mut output), Ok(8 + 65_535));
    let mut table = Tables::default();
    let back = Layout::read(&output[..8 + 65_535], 71, &plain(), &mut table).unwrap();
    assert_eq!(back.label_defs().next().unwrap().labels().count(), 16_382);
    assert_eq!(back.label_defs().next().unwrap().labels().next().unwrap().name, "x");
}

#[test]
fn a_record_of_3600_fields_is_written_and_read() {
    let mut output = vec![0; 1 << 17];
    let rows = record(3600);
    let length = written(&rows, b"", &mut output).unwrap();
    let mut table = Tables::default();
    let back = Layout::read(&output[..length], 71, &plain(), &mut table).unwrap();
    assert_eq!(back.record_layouts().next().unwrap().fields().count(), 3600);
    assert_eq!(back.rows().len(), 1 + 2 * 3600);
}

#[test]
fn many_symbols() {
    let count = 300_000u32;
    let mut block = vec![0; 104];
    block[45] = 6;
    block.extend(count.to_le_bytes());
    for i in 0..count {
        block.extend(format!("{i:06}").as_bytes());
    }
    block.extend([0; 12]);
    let mut tables = Tables::default();
    let read = Block::read(3, &block, &plain(), &mut tables).unwrap();
    assert_eq!(read.rows().len(), 300_000);
    assert!(read.symbols().enumerate().all(|(i, symbol)| symbol == format!("{i:06}")));
    // One symbol fewer in the bytes than the count says.
    block.truncate(block.len() - 18);
    assert_eq!(Block::read(3, &block, &plain(), &mut Tables::default()).map(|_| ()).map_err(Refusal::number), Err(31));
}
