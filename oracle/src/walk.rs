//! The rows and fields of accepted bytes, by a plain walk that checks nothing. It is held to the crate's own values
//! (`of_crate.rs`), which carry no places in the bytes.
use crate::paper::day_number;

/// The length of an entry of a layout.
pub const ENTRY: usize = 16;

/// Numbers in a row of symbology: kind, start, length, x, y and owner.
pub const ROW: usize = 6;

/// The fields of an accepted block, and its rows.
#[derive(Debug, Clone, PartialEq, Eq, Default)]
pub struct Values {
    pub dataset_len: usize,
    pub schema: Option<u16>,
    pub start: u64,
    pub end: Option<u64>,
    pub limit: Option<u64>,
    pub stype_in: Option<u8>,
    pub stype_out: u8,
    pub ts_out: bool,
    pub width: usize,
    pub layout_version: u16,
    pub symbology: Vec<[u32; ROW]>,
    pub layout: Vec<[u32; 9]>,
}

impl Values {
    /// The sixteen numbers that the C functions give for an accepted block.
    pub fn out(&self) -> [u64; 16] {
        let present = self.schema.is_some() as u64
            + 2 * self.end.is_some() as u64
            + 4 * self.limit.is_some() as u64
            + 8 * self.stype_in.is_some() as u64;
        [
            self.dataset_len as u64,
            self.schema.unwrap_or(0) as u64,
            self.start,
            self.end.unwrap_or(0),
            self.limit.unwrap_or(0),
            self.stype_in.unwrap_or(0) as u64,
            self.stype_out as u64,
            self.ts_out as u64,
            self.width as u64,
            self.layout_version as u64,
            self.symbology.len() as u64,
            self.layout.len() as u64,
            present,
            0,
            0,
            0,
        ]
    }
}

fn u16_at(b: &[u8], p: usize) -> u32 {
    u16::from_le_bytes([b[p], b[p + 1]]) as u32
}

pub fn u32_at(b: &[u8], p: usize) -> u32 {
    u32::from_le_bytes(b[p..p + 4].try_into().unwrap())
}

fn u64_at(b: &[u8], p: usize) -> u64 {
    u64::from_le_bytes(b[p..p + 8].try_into().unwrap())
}

/// The length without the NULs at the end.
fn trimmed(b: &[u8]) -> usize {
    b.iter().rposition(|&x| x != 0).map_or(0, |last| last + 1)
}

/// The version and rows of an accepted layout.
pub fn layout(bytes: &[u8]) -> (u16, Vec<[u32; 9]>) {
    let mut rows = Vec::new();
    let mut p = 2;
    for kind in [10, 13, 14] {
        let count = u16_at(bytes, p);
        p += 2;
        for _ in 0..count {
            let end = p + u16_at(bytes, p) as usize;
            let used = item(bytes, p + 2, kind, &mut rows);
            assert!(used <= end, "an accepted item ends within its section");
            p = end;
        }
    }
    (u16_at(bytes, 0) as u16, rows)
}

/// One record (10), struct (13) or label def (14). Gives the place after it.
fn item(b: &[u8], mut p: usize, kind: u32, rows: &mut Vec<[u32; 9]>) -> usize {
    let head = p;
    p += match kind {
        10 => 14,
        13 => 2,
        _ => 0,
    };
    let (start, length) = name(b, &mut p);
    let count = u16_at(b, p);
    p += 2;
    match kind {
        10 => {
            let [rtype, schema, base] = [0, 2, 4].map(|i| u16_at(b, head + i));
            rows.push([10, start, length, rtype, schema, base, count, u32_at(b, head + 6), u32_at(b, head + 10)]);
        }
        13 => rows.push([13, start, length, u16_at(b, head), count, 0, 0, 0, 0]),
        _ => {
            rows.push([14, start, length, count, 0, 0, 0, 0, 0]);
            for _ in 0..count {
                let code = u16_at(b, p);
                p += 2;
                let (start, length) = name(b, &mut p);
                rows.push([15, start, length, code, 0, 0, 0, 0, 0]);
            }
            return p;
        }
    }
    for _ in 0..count {
        let [id, offset, size, def] = [0, 2, 4, 8].map(|i| u16_at(b, p + i));
        let [type_id, flags, scale] = [6, 7, 10].map(|i| b[p + i] as u32);
        rows.push([11, id, offset, size, type_id, flags, def, scale, 0]);
        p += ENTRY;
    }
    for _ in 0..count {
        let (start, length) = name(b, &mut p);
        rows.push([12, start, length, 0, 0, 0, 0, 0, 0]);
    }
    p
}

fn name(b: &[u8], p: &mut usize) -> (u32, u32) {
    let length = b[*p] as u32;
    let start = *p as u32 + 1;
    *p += length as usize + 2;
    (start, length)
}

/// The fields and rows of an accepted block.
pub fn block(version: u8, b: &[u8]) -> Values {
    let dataset = if version == 4 { 38 } else { 16 };
    let mut v = Values { dataset_len: trimmed(&b[..dataset]), ..Default::default() };
    let mut p = dataset;
    v.schema = Some(u16_at(b, p) as u16).filter(|&x| x != u16::MAX);
    v.start = u64_at(b, p + 2);
    v.end = Some(u64_at(b, p + 10)).filter(|&x| x != 0 && x != u64::MAX);
    v.limit = Some(u64_at(b, p + 18)).filter(|&x| x != 0);
    p += if version == 1 { 34 } else { 26 };
    v.stype_in = Some(b[p]).filter(|&x| x != 255);
    v.stype_out = b[p + 1];
    v.ts_out = b[p + 2] != 0;
    v.width = if version == 1 { 22 } else { u16_at(b, p + 3) as usize };
    let length = u32_at(b, 100) as usize;
    p = 104 + length;
    if version == 4 {
        (v.layout_version, v.layout) = layout(&b[104..p]);
        p += 4;
    }
    v.symbology = symbology(b, p, v.width);
    v
}

/// The rows of the symbology from `p` on. A row owns itself, but for an interval, which its mapping owns.
fn symbology(b: &[u8], mut p: usize, width: usize) -> Vec<[u32; ROW]> {
    let mut rows = Vec::new();
    let span = |p: usize| [p as u32, trimmed(&b[p..p + width]) as u32];
    for kind in 0..3 {
        let count = u32_at(b, p);
        p += 4;
        for _ in 0..count {
            let [start, length] = span(p);
            rows.push([kind, start, length, 0, 0, rows.len() as u32]);
            p += width;
        }
    }
    let count = u32_at(b, p);
    p += 4;
    for _ in 0..count {
        let [start, length] = span(p);
        let (intervals, owner) = (u32_at(b, p + width), rows.len() as u32);
        rows.push([3, start, length, intervals, 0, owner]);
        p += width + 4;
        for _ in 0..intervals {
            let [start, length] = span(p + 8);
            let [first, end] = [p, p + 4].map(|p| day_number(u32_at(b, p)));
            rows.push([4, start, length, first, end, owner]);
            p += 8 + width;
        }
    }
    rows
}

#[cfg(test)]
mod tests {
    //! Places and owners counted by hand.
    use super::*;

    #[test]
    fn rows_of_lists_and_of_mappings_with_two_intervals_with_none_and_with_one() {
        let days = |first: u8, end: u8| [first, 0, 0, 0, end, 0, 0, 0];
        let parts: [&[u8]; 14] = [
            b"\x02\0\0\0ABC\0",
            b"\0\0\0\0",
            b"\x01\0\0\0D\0",
            b"\x03\0\0\0",
            b"ES\x02\0\0\0",
            &days(101, 102),
            b"H3",
            &days(102, 101),
            b"M3",
            b"NQ\0\0\0\0",
            b"CL\x01\0\0\0",
            &days(101, 101),
            b"K\0",
            b"after",
        ];
        let rows = [
            [0, 4, 2, 0, 0, 0],
            [0, 6, 1, 0, 0, 1],
            [2, 16, 1, 0, 0, 2],
            [3, 22, 2, 2, 0, 3],
            [4, 36, 2, 0, 1, 3],
            [4, 46, 2, 1, 0, 3],
            [3, 48, 2, 0, 0, 6],
            [3, 54, 2, 1, 0, 7],
            [4, 68, 1, 0, 0, 7],
        ];
        assert_eq!(symbology(&parts.concat(), 0, 2), rows);
    }
}
