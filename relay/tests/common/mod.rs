//! Bytes that several tests use.
#![allow(dead_code)]
pub mod program;

use dbn_start::{Sheet, SheetIds};

/// Bytes from hexadecimal digits; blanks are skipped.
pub fn hex(digits: &str) -> Vec<u8> {
    let digits: Vec<u8> = digits.bytes().filter(|b| !b.is_ascii_whitespace()).collect();
    let value = |b: u8| (b as char).to_digit(16).expect("a hexadecimal digit") as u8;
    digits.chunks(2).map(|two| value(two[0]) * 16 + value(two[1])).collect()
}

/// A refusal's name such as `NAME_NOT_UTF8` as Rust writes it, `NameNotUtf8`.
pub fn as_in_rust(name: &str) -> String {
    let word = |word: &str| word[..1].to_string() + &word[1..].to_lowercase();
    name.split('_').map(word).collect()
}

pub const STRUCT: u8 = 1;
pub const SYMBOL: u8 = 2;
pub const TEXT: u8 = 3;
pub const DECIMAL: u8 = 4;
pub const PADDING: u8 = 0;
pub const U64: u8 = 8;

/// A made sheet: ids 5 to 8 are integers of 1, 2, 4 and 8 bytes, 13 an enum of one byte, and the header has 24 bytes.
pub fn plain() -> Sheet {
    let ids = SheetIds {
        struct_id: STRUCT,
        symbol_id: SYMBOL,
        decimal_id: DECIMAL,
        padding_id: PADDING,
        extension_weight: 64,
        no_label_def: 65535,
        header_size: 24,
    };
    let sheet = Sheet::new(ids).with_label_type(13, 1);
    [(DECIMAL, 8), (5, 1), (6, 2), (7, 4), (U64, 8)]
        .into_iter()
        .fold(sheet, |sheet, (id, size)| sheet.with_type(id, size))
}

/// A prelude and its block.
pub fn stream_of(version: u8, block: &[u8]) -> Vec<u8> {
    let mut out = vec![0x44, 0x42, 0x4E, version];
    out.extend((block.len() as u32).to_le_bytes());
    out.extend(block);
    out
}

/// P10's block: version 2, width 3, one symbol.
pub fn p10(symbol: [u8; 3]) -> Vec<u8> {
    let mut out = vec![0; 104];
    out[45] = 3;
    out.extend([1, 0, 0, 0]);
    out.extend(symbol);
    out.extend([0; 12]);
    out
}

/// The intervals of a mapping: start date, end date and symbol of each.
pub type Intervals<'a> = &'a [(u32, u32, &'a str)];

/// A symbology with symbols of this width: the three lists, then the mappings with their intervals.
pub fn symbology(width: usize, lists: [&[&str]; 3], mappings: &[(&str, Intervals)]) -> Vec<u8> {
    let count = |count: usize| (count as u32).to_le_bytes();
    let symbol = |text: &str| [text.as_bytes(), &vec![0; width - text.len()]].concat();
    let mut out = Vec::new();
    for list in lists {
        out.extend(count(list.len()));
        list.iter().for_each(|text| out.extend(symbol(text)));
    }
    out.extend(count(mappings.len()));
    for (raw_symbol, intervals) in mappings {
        out.extend(symbol(raw_symbol));
        out.extend(count(intervals.len()));
        for (start, end, text) in *intervals {
            out.extend([start.to_le_bytes(), end.to_le_bytes()].concat());
            out.extend(symbol(text));
        }
    }
    out
}

/// The intervals of the capture's stand-in.
pub const INTERVALS: [(u32, u32, &str); 4] = [
    (20230101, 20230317, "3403"),
    (20230317, 20230616, "206299"),
    (20230616, 20230915, "95414"),
    (20230915, 20231215, "314863"),
];

/// A stand-in for the trader's capture: one continuous symbol with four intervals. Also the places inside the intervals
/// where four network pieces meet.
pub fn capture() -> (Vec<u8>, [usize; 3]) {
    let mut block = b"GLBX.MDP3\0\0\0\0\0\0\0".to_vec();
    block.extend(0u16.to_le_bytes());
    block.extend(1_672_531_200_000_000_000u64.to_le_bytes());
    block.extend(1_700_000_000_000_000_000u64.to_le_bytes());
    block.extend(0u64.to_le_bytes());
    block.extend([3, 0, 0]);
    block.extend(71u16.to_le_bytes());
    block.resize(104, 0);
    block.extend(symbology(71, [&["ES.c.0"], &[], &[]], &[("ES.c.0", &INTERVALS)]));
    let stream = stream_of(2, &block);
    let first = stream.len() - 4 * 79;
    (stream, [first + 2, first + 79 + 6, first + 2 * 79 + 12])
}
