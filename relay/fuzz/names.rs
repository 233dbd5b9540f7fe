//! Names: a row's name is the span that the row tells, or 90 where it tells none.
use super::{calls, checks::marked, columns, gen::Rng, Count};
use dbn_start::ffi::{LAYOUT_ROW, SYMBOLOGY_ROW};

/// Kind, start and length of a row, or `None` where the table cannot hold it. Symbology stands in columns, layout rows one after the other.
fn head(table: &[u32], width: usize, index: u64) -> Option<[u32; 3]> {
    let index = usize::try_from(index).ok()?;
    if width == SYMBOLOGY_ROW {
        columns::row(table, index)?.first_chunk().copied()
    } else {
        table.chunks_exact(width).nth(index)?.first_chunk().copied()
    }
}

/// Number, start and length of a row's name: 90 for a row that the table cannot hold, a kind without a text, or a span outside the bytes.
fn told(bytes: &[u8], table: &[u32], width: usize, index: u64) -> (u32, [u64; 2]) {
    let kinds: &[u32] = if width == SYMBOLOGY_ROW { &[0, 1, 2, 3, 4] } else { &[10, 12, 13, 14, 15] };
    let [start, length] = match head(table, width, index) {
        Some([kind, start, length]) if kinds.contains(&kind) => [start, length].map(u64::from),
        _ => return (90, [0, 0]),
    };
    if start + length <= bytes.len() as u64 {
        (0, [start, length])
    } else {
        (90, [0, 0])
    }
}

/// The name of any index of a table that so many rows were read into. A row that was read has one, which is a text, unless it is a field.
pub fn accepted(r: &mut Rng, bytes: &[u8], table: &[u32], width: usize, count: usize) {
    let (height, most) = ((table.len() / width) as u64, u64::MAX / width as u64);
    for _ in 0..3 {
        let beyond = [height, height + 1, u64::MAX, most, most + 1];
        let index = if r.one_in(4) { r.pick(&beyond) } else { r.next() % (height + 1) };
        let (number, [start, length]) = calls::name(bytes, table, width, index);
        assert_eq!((number, [start, length]), told(bytes, table, width, index), "the name of row {index}");
        let field = head(table, width, index).is_some_and(|[kind, ..]| kind == 11);
        if index < count as u64 && !field {
            assert_eq!(number, 0, "row {index} was read, and has no name");
            let text = &bytes[start as usize..(start + length) as usize];
            assert!(dbn_start::is_text(text) && std::str::from_utf8(text).is_ok(), "a name that is no text");
        }
    }
}

/// The name of any index of a table of anything, of any length.
pub fn any(r: &mut Rng, bytes: &[u8], count: &mut Count) {
    for width in [SYMBOLOGY_ROW, LAYOUT_ROW] {
        let length = r.below(6 * width);
        let table = marked(r, length, |x| (x >> 32) as u32 % [5, 20, 200, u32::MAX][x as usize % 4]);
        let height = (length / width) as u64;
        let index = if r.one_in(8) { r.next() >> r.below(64) } else { r.next() % (height + 2) };
        let answer = calls::name(bytes, &table, width, index);
        count.calls += 1;
        assert_eq!(answer, told(bytes, &table, width, index), "the name of row {index} of {length} numbers");
    }
}
