//! Whether a layout is tidy: yes exactly if it is written again as the same bytes, and else the first untidy thing that a plain walk finds.
use super::{
    calls::{self, LayoutAnswer},
    gen::Sheet,
    untidy,
};
use dbn_start::ffi::{LAYOUT_ROW, PLACE};

/// The number that dbn_tidy answers to a layout, held to what dbn_layout answered with a table that is long enough and the same `out`.
pub fn asked(bytes: &[u8], width: u16, sheet: &Sheet, read: &LayoutAnswer, out: &[u64; 16]) -> u32 {
    let (number, told) = calls::tidy(bytes, width, &sheet.0, out);
    if read.number != 0 {
        assert_eq!((number, told), (read.number, read.out), "the reader's refusal comes first");
        return number;
    }
    let found = untidy::first(bytes);
    let mut wanted = *out;
    found.iter().for_each(|&(_, place)| wanted[PLACE] = place as u64);
    assert_eq!((number, told), (found.map_or(0, |(number, _)| number), wanted), "the first untidy thing");
    assert_eq!(
        number == 0,
        written_again(bytes, width, sheet, read),
        "tidy exactly if it is written as the same bytes"
    );
    number
}

/// Whether the rows of an accepted layout, with its own bytes as the text, are written as the same bytes.
fn written_again(bytes: &[u8], width: u16, sheet: &Sheet, read: &LayoutAnswer) -> bool {
    let (version, rows) = (read.out[9] as u16, &read.rows[..read.out[11] as usize * LAYOUT_ROW]);
    let again = calls::write(rows, bytes, version, width, &sheet.0, &vec![0; bytes.len()], &[0; 16]);
    again.number == 0 && again.out[0] as usize == bytes.len() && again.output == bytes
}

/// What a writer gave is tidy.
pub fn written(bytes: &[u8], width: u16, sheet: &Sheet) {
    assert_eq!(calls::tidy(bytes, width, &sheet.0, &[7; 16]), (0, [7; 16]), "what was written is tidy");
}
